"""Which field of a paragraph cannot be read, or is absent: FORMATS, section 16."""

from near_names import is_near
from relations import PROVIDE, read_field
from texts import BLANKS, DIGITS, SMALL, Fault, is_name, is_word, lines, number, paragraphs, pieces
from universe import BUILD_RELATIONS, LARGEST, MODES, RELATIONS
from versions import Version

CODES = (*range(111, 115), *range(121, 132), 201, 202)


def name_fault(value):
    return None if is_name(value) else (None, value, "")


def version_fault(value):
    try:
        Version(value)
    except Fault:
        return None, value, ""
    return None


def number_fault(most):
    return lambda value: (None, value, f" is no number up to {most:,}") if number(value, most) is None else None


def flag_fault(value):
    return None if value in ("yes", "no") else (None, value, " is neither `yes` nor `no`")


def mode_fault(value):
    return None if value in MODES else (None, value, " is none of `full`, `arch`, `indep`")


def words_fault(value):
    return next(((None, piece, " is no word") for piece in pieces(value) if not is_word(piece)), None)


def lacks_comma(entry):
    """Behind what a comma is missing in an entry."""
    for place, byte in enumerate(entry):
        behind = entry[place + 1:].lstrip(BLANKS)
        if byte in ")]" and behind and behind[0] in SMALL | DIGITS:
            return byte
    found = pieces(entry)
    return found[0] if len(found) > 1 and is_name(found[0]) and is_name(found[1]) else None


def relation_fault(kind):
    """The first item of a relation field that is refused, with its number."""
    def fault_of(value):
        items = [item for item in value.split(",") if item.strip(BLANKS)]
        for place, item in enumerate(items):
            try:
                read_field(item, kind)
            except Fault as fault:
                behind = lacks_comma(item) if fault.code == 121 else None
                return place, item, f": a comma is missing behind `{behind}`" if behind else ""
        return None
    return fault_of


def relations_of(fields):
    return [(field, relation_fault(kind)) for field, kind in fields]


SMALL_NUMBER, VARIANTS = number_fault(LARGEST), relation_fault(PROVIDE)
PACKAGE = [
    ("Package", name_fault), ("Version", version_fault), ("Installed-Size", SMALL_NUMBER), ("Essential", flag_fault),
    *relations_of(RELATIONS),
]
SOURCE = [("Package", name_fault), ("Source", name_fault), ("Version", version_fault), *relations_of(BUILD_RELATIONS)]
HEAD = [("Architecture-Names", words_fault), ("Archive", VARIANTS)]
RECIPE = [
    ("Recipe", name_fault), ("Source", VARIANTS), ("Mode", mode_fault), ("Profiles", words_fault),
    ("Steps", SMALL_NUMBER), ("Scratch", SMALL_NUMBER), ("Outputs", VARIANTS),
]
CHROOT = [("Chroot", name_fault), ("Capacity", number_fault(999_999_999_999_999)), ("Packages", VARIANTS)]


def fields_of(file, place, paragraph):
    """The fields of a paragraph in the order in which they are read."""
    if file == "packages":
        return PACKAGE
    if file == "sources":
        return [(field, fault) for field, fault in SOURCE if field != "Source" or paragraph.get("Package") is None]
    if place == 0:
        return HEAD
    return CHROOT if paragraph.get("Recipe") is None else RECIPE


def absent(file, place, paragraph):
    """The field that names a paragraph, or None, and the fields of which it has none."""
    named = {"packages": ("Package",), "sources": ("Package", "Source")}.get(file, ("Recipe", "Chroot"))
    needed = {"Recipe": ("Source", "Steps"), "Chroot": ("Capacity",)}
    if file == "farm" and place == 0:
        return None, ("Architecture-Names",)
    name = next((field for field in named if paragraph.get(field) is not None), None)
    if name is None:
        return None, named
    fields = needed[name] if file == "farm" else ("Version",)
    return name, [field for field in fields if paragraph.get(field) is None][:1]


def near_field(contents, paragraph, wanted):
    """A field of the paragraph whose name is near one that is wanted."""
    for line in range(paragraph.line, paragraph.last + 1):
        name, colon, _ = contents[line - 1].partition(":")
        is_field = colon and name[0] not in "# \t"
        if is_field and any(is_near(name.lower(), field.lower()) for field in wanted):
            return f"; line {line} has {name}"
    return ""


def absent_note(contents, file, place, paragraph, shown):
    """The line on a field that is absent, and the same as data."""
    name, wanted = absent(file, place, paragraph)
    subject = f"{name} {shown(paragraph.get(name))}" if name else "the paragraph"
    lacks = f"neither {wanted[0]} nor {wanted[1]}" if len(wanted) > 1 else f"no {wanted[0]}"
    return f"{subject} has {lacks}{near_field(contents, paragraph, wanted)}", {"field": wanted[0]}


def field_note(texts, fault, shown):
    """The line on the field that a refusal of a paragraph is about, and what it tells as data."""
    if fault.line == 0:
        return "the farm text has no paragraph", {}
    found = paragraphs(texts[fault.file], fault.file)
    place = next(place for place, paragraph in enumerate(found) if paragraph.line == fault.line)
    if fault.code == 201:
        return absent_note(lines(texts[fault.file]), fault.file, place, found[place], shown)
    for field, fault_of in fields_of(fault.file, place, found[place]):
        value = found[place].get(field)
        about = None if value is None else fault_of(value)
        if about:
            at, item, words = about
            said, line = f": {shown(item)}{words}" if item else " is empty", found[place].item_line(field, at or 0)
            facts = {} if at is None else {"item": at + 1, "item_line": line}
            return f"{fault.file} line {line}: {field}{said}", {"field": field, "word": item} | facts
    return None, {}
