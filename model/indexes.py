"""Packages and Sources indexes: their paragraphs, and the best that an index has for an entry."""

from relations import reduce_field
from texts import NAME, Fault, each_paragraph, is_name, lines, number
from universe import BUILD_RELATIONS, Variant, read_relations, read_source_head, read_variant
from versions import Version, by_order

INDEX_LIMIT = 1_073_741_824
PRIORITIES = ["required", "important", "standard", "optional", "extra"]


class Unread:
    """A paragraph of an index that is not yet read, its file, its place among all, and all lines between the blank ones round
    it as they stand."""

    def __init__(self, paragraph, raw, file):
        self.paragraph, self.raw, self.file, self.place = paragraph, raw, file, 0


def is_blank(line):
    return line.strip(" \t") == ""


def block(contents, paragraph):
    """The lines round a paragraph up to the next blank ones, comments among them."""
    first, last = paragraph.line - 1, paragraph.last
    while first > 0 and not is_blank(contents[first - 1]):
        first -= 1
    while last < len(contents) and not is_blank(contents[last]):
        last += 1
    return "\n".join(contents[first:last])


def cut_index(text, file):
    """The paragraphs of an index, or the first fault of its form."""
    if len(text) > INDEX_LIMIT:
        raise Fault(105, 0, file)
    contents = lines(text)
    for paragraph in each_paragraph(contents, file):
        yield Unread(paragraph, block(contents, paragraph), file)


def leading_name(text):
    """The bytes of a name that a text begins with."""
    end = 0
    while end < len(text) and text[end] in NAME:
        end += 1
    return text[:end]


def read_given_source(paragraph, variant):
    """The name and the version of the source that a variant comes from: `Source: NAME (VERSION)`."""
    value = paragraph.get("Source")
    if value is None:
        return variant.name, variant.version
    name, bracket, rest = value.partition("(")
    name = name.strip(" \t\n")
    if not is_name(name) or bracket and not rest.endswith(")"):
        raise Fault(121)
    return name, Version(rest[:-1].strip(" \t\n")) if bracket else variant.version


def rank(paragraph):
    """The rank by Priority."""
    priority = paragraph.get("Priority")
    return PRIORITIES.index(priority) if priority in PRIORITIES else len(PRIORITIES)


class Candidate(Variant):
    """A variant that an index has: its paragraph as it stands, its source, its rank by Priority and its order among the
    providers of one rank."""

    def __init__(self, unread, architectures):
        variant = read_variant(unread.paragraph)
        relations = {field: reduce_field(entries, architectures) for field, entries in variant.relations.items()}
        super().__init__(variant.name, variant.version, variant.size, variant.is_essential, relations)
        self.raw, self.order = unread.raw, self.name
        self.source, self.source_version = read_given_source(unread.paragraph, variant)
        self.architecture = unread.paragraph.get("Architecture")
        self.is_for_all = self.architecture == "all"
        self.rank = rank(unread.paragraph)
        self.entries = sum(map(len, self.relations.values()))

    def __str__(self):
        return f"{self.name} (= {self.version.text})"


def best(entry, named, providing):
    """Of the first alternative that something satisfies: the name itself, or else of the providers those with the highest
    Priority, of these the first name; in each the highest version."""
    for alternative in entry:
        own = [it for it in named(alternative.name) if it.is_one(alternative)]
        others = [] if own else [it for it in providing(alternative.name) if it.is_one(alternative)]
        first = min(others, key=lambda it: (it.rank, it.order), default=None)
        equal = [it for it in others if (it.rank, it.order) == (first.rank, first.order)]
        if own or equal:
            return max(own or equal, key=lambda it: by_order(it.version))
    return None


def told(code):
    """The code of a fault of a paragraph: that of each version that is none is one."""
    return 123 if 111 <= code <= 114 else code


def highest_first(found):
    """Without those that are equal in version to one before them, the highest version first."""
    kept = []
    for one in found:
        if not any(one.version.compare(other.version) == 0 for other in kept):
            kept.append(one)
    return sorted(kept, key=lambda it: by_order(it.version), reverse=True)


class PackagesIndex:
    """Paragraphs of Packages indexes by name, by what they provide and by source. `unreadable` lists those that were looked
    at and cannot be read: they are as if they were not there."""

    def __init__(self, files, architectures):
        self.architectures = architectures
        self.unread, self.provided, self.of_source, self.essential = {}, {}, {}, set()
        self.read, self.unreadable, self.count = {}, [], 0
        for file, text in files:
            for unread in cut_index(text, file):
                self.add(unread)

    def add(self, unread):
        name = unread.paragraph.get("Package")
        if name is None:
            return
        self.count += 1
        unread.place = self.count
        self.unread.setdefault(name, []).append(unread)
        for item in (unread.paragraph.get("Provides") or "").split(","):
            self.provided.setdefault(leading_name(item.lstrip(" \t\n")), {})[name] = None
        source = unread.paragraph.get("Source")
        self.of_source.setdefault(name if source is None else leading_name(source), {})[name] = None
        if unread.paragraph.get("Essential") == "yes":
            self.essential.add(name)

    def candidate(self, unread):
        return Candidate(unread, self.architectures)

    def versions(self, name):
        """What the index has of a name, the highest version first."""
        if name not in self.read:
            found = []
            for unread in self.unread.get(name, []):
                try:
                    found.append(self.candidate(unread))
                except Fault as fault:
                    self.unreadable.append((unread.place, f"{name}: refused {told(fault.code)}"))
            self.read[name] = highest_first(found)
        return self.read[name]

    def best(self, entry):
        return best(entry, self.versions, lambda name: [it for one in self.provided.get(name, ()) for it in self.versions(one)])

    def made(self, source):
        """For each version of a source, the highest first, what the index has of it: pairs of a version and of a map from
        names to variants."""
        found = []
        for name in self.of_source.get(source, ()):
            for it in self.versions(name):
                if it.source == source:
                    same = [given for version, given in found if version.compare(it.source_version) == 0]
                    if not same:
                        same = [{}]
                        found.append((it.source_version, same[0]))
                    same[0].setdefault(it.name, it)
        return sorted(found, key=lambda pair: by_order(pair[0]), reverse=True)


class SourceParagraph:
    """A source that an index has: its paragraph as it stands, and its build relations."""

    def __init__(self, unread):
        self.name, self.version = read_source_head(unread.paragraph)
        self.relations = read_relations(unread.paragraph, BUILD_RELATIONS)
        self.paragraph, self.raw = unread.paragraph, unread.raw

    def kib(self):
        """The KiB of its files."""
        sums = self.paragraph.get("Checksums-Sha256")
        sums = self.paragraph.get("Files") if sums is None else sums
        rows = [row.split() for row in (sums or "").split("\n")]
        return sum(number(row[1]) or 0 for row in rows if len(row) == 3) // 1024


class SourcesIndex:
    """Paragraphs of Sources indexes by name."""

    def __init__(self, files):
        self.unread, self.read, self.unreadable, place = {}, {}, [], 0
        for file, text in files:
            for place, unread in enumerate(cut_index(text, file), place + 1):
                unread.place = place
                name = unread.paragraph.get("Package")
                name = unread.paragraph.get("Source") if name is None else name
                if name is not None:
                    self.unread.setdefault(name, []).append(unread)

    def versions(self, name):
        """What the indexes have of a source, the highest version first."""
        if name not in self.read:
            found = []
            for unread in self.unread.get(name, []):
                try:
                    found.append(SourceParagraph(unread))
                except Fault as fault:
                    self.unreadable.append((unread.place, f"{name}: refused {told(fault.code)}"))
            self.read[name] = highest_first(found)
        return self.read[name]


class Pool:
    """Variants that were chosen, by the names that they go by."""

    def __init__(self, members=()):
        self.members, self.by_name = [], {}
        for it in members:
            self.add(it)

    def find(self, name, version):
        same = (it for it in self.by_name.get(name, []) if it.name == name)
        return next((it for it in same if it.version.compare(version) == 0), None)

    def add(self, it):
        """Adds a variant, unless one of its name and version is there."""
        if self.find(it.name, it.version) is None:
            self.members.append(it)
            for name in {it.name} | {item.name for [item] in it.relations["Provides"]}:
                self.by_name.setdefault(name, []).append(it)

    def best(self, entry):
        named = lambda name: [it for it in self.by_name.get(name, []) if it.name == name]  # noqa: E731
        return best(entry, named, lambda name: self.by_name.get(name, []))

    def meets(self, entry):
        """Whether one of them satisfies an alternative of the entry."""
        return any(it.satisfies(entry) for alternative in entry for it in self.by_name.get(alternative.name, []))

    def in_order(self):
        return sorted(self.members, key=lambda it: (it.name, by_order(it.version)))

