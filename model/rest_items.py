"""What the texts of a farm that goes on are made of: variants by name and version, and control text by its lines."""

from relations import PROVIDE, read_field
from texts import Fault, lines, paragraphs, pieces
from versions import Version


class Refused(Exception):
    """The lines of a refusal."""

    def __init__(self, *told):
        super().__init__(*told)
        self.lines = list(told)


def item_text(item):
    name, version = item
    return f"{name} (= {version.text})"


class Items:
    """Variants by name and version, in the order in which they came. An equal version is the same variant, however it is
    spelled."""

    def __init__(self, items=()):
        self.order, self.by_name = [], {}
        for item in items:
            self.add(item)

    def __contains__(self, item):
        return any(version.compare(item[1]) == 0 for version in self.by_name.get(item[0], ()))

    def __iter__(self):
        return iter(self.order)

    def __len__(self):
        return len(self.order)

    def add(self, item):
        if item not in self:
            self.by_name.setdefault(item[0], []).append(item[1])
            self.order.append(item)


def items_of(variants):
    return Items((it.name, it.version) for it in variants)


def listed(paragraph, field):
    """The variants of a list in a paragraph; what is none is left to the reader of the texts."""
    value = paragraph.get(field) if paragraph else None
    try:
        return [(it.name, it.version) for [it] in read_field(value or "", PROVIDE) if it.version is not None]
    except Fault:
        return []


def names_in(paragraph, field):
    """The words of a field."""
    return pieces(paragraph.get(field) or "") if paragraph else []


def list_lines(field, items):
    """The lines of a field with a list of variants, one item a line."""
    if not items:
        return [f"{field}:"]
    first, *rest = [f"{item_text(item)}," for item in items]
    return "\n".join([f"{field}: {first}", *(f" {item}" for item in rest)]).removesuffix(",").split("\n")


class Text:
    """A control text by its lines and paragraphs."""

    def __init__(self, text, name):
        self.lines, self.paragraphs = lines(text), paragraphs(text, name)
        self.head = self.paragraphs[0] if self.paragraphs else None

    def of(self, paragraph, without=()):
        """The lines of a paragraph, but for those of some fields."""
        gone = {line for field in without for line in paragraph.places.get(field, ())}
        return [self.lines[it - 1] for it in range(paragraph.line, paragraph.last + 1) if it not in gone]

    def named(self, field):
        """The paragraphs with such a field behind the first one, by its value."""
        return {it.get(field): it for it in self.paragraphs[1:] if it.get(field) is not None}

    def variant(self, item):
        """The paragraph of a variant, or None; those that cannot be read are left to the reader of the texts."""
        for paragraph in self.paragraphs:
            if paragraph.get("Package") == item[0]:
                try:
                    if Version(paragraph.get("Version") or "").compare(item[1]) == 0:
                        return paragraph
                except Fault:
                    continue
        return None
