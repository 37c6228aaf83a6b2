"""What is said of a fault of a text, for a person: FORMATS, section 16."""

from field_notes import CODES, field_note
from plan_causes import plan_cause
from texts import lines, paragraphs, pieces
from word_notes import word_note

SHOWN = 200
LOOKED_AT = (101, 102, 103, 121, 201, 301)
BEGINNINGS = [
    ("\xef\xbb\xbf", "the text begins with a byte order mark: save it without one"),
    ("\xff\xfe", "the text is UTF-16: save it as UTF-8 without a byte order mark"),
    ("\xfe\xff", "the text is UTF-16: save it as UTF-8 without a byte order mark"),
    ("\x1f\x8b", "the text is compressed by gzip: give what it unpacks to"),
    ("\xfd7zXZ\0", "the text is compressed by xz: give what it unpacks to"),
    ("BZh", "the text is compressed by bzip2: give what it unpacks to"),
    ("\x28\xb5\x2f\xfd", "the text is compressed by zstd: give what it unpacks to"),
    ("\x04\x22\x4d\x18", "the text is compressed by lz4: give what it unpacks to"),
    ("-----BEGIN PGP", "the text is signed: give what is within the signature alone"),
]
ORDERS = [
    ("plan 1", ("packages", "sources", "farm"), "a plan"),
    ("Package:", ("farm", "plan"), "an index"),
    ("Architecture-Names:", ("packages", "sources", "plan"), "the farm"),
]
# fields that stand in the other index alone: what 205 and 206 of the farm look for in the first paragraphs
EXCHANGED = [
    ("packages", ("package-list", "binary", "build-depends"), "a Sources index"),
    ("sources", ("filename", "installed-size"), "a Packages index"),
]
# what was expected, by the code of the refusal
SENTENCES = {
    101: "expected a field above a line that begins with a blank and goes on with it",
    102: "expected a field, as in `Name: value`: this line has no colon",
    103: "expected a field name: printable ASCII without blanks, not begun by `-`",
    104: "expected each field once in a paragraph, whatever the case of its letters",
    105: "expected a text of at most 67,108,864 bytes",
    111: "expected a version, and nothing empty beside its first colon or last hyphen",
    112: "expected a version of letters, digits and `. + - ~`, its epoch of digits",
    113: "expected a version with an epoch of at most 2147483647",
    114: "expected a version of at most 512 bytes",
    121: "expected a name of two or more of `a-z 0-9 + - .`, and only its relation behind",
    122: "expected one of the operators `<<`, `<=`, `=`, `>=` and `>>`",
    123: "expected a version behind the operator, as in `gcc (>= 4:14.2.0-3)`",
    124: "expected architectures between `[` and `]`, `!` at all of them or at none",
    125: "expected a closing bracket",
    126: "expected one package in each entry of this field, without alternatives",
    127: "expected no `[..]` or `<..>`, which stand in build relations alone",
    128: "expected the operator `=`, the only one in this field",
    129: "expected an alternative on each side of the bar",
    130: "expected build profiles between `<` and `>`",
    131: "expected words with blanks between them",
    201: "expected a field that is absent from this paragraph",
    202: "expected a number within its limit, or one of the words of this field",
    203: "expected each name, version and item once: this one stands above already",
    204: "expected at most 64 versions of a name",
    205: "expected versions that the packages text has in the lists of this paragraph",
    206: "expected one source in `Source`, as `gcc (= 14-1)`, that the sources text has",
    207: "expected outputs that are not in `Archive` and that no earlier recipe gives",
    208: "expected at least one output in `Outputs`",
    209: "expected one version of each name, all needs met, no clash, and room for all",
    210: "expected names, entries, sources, recipes and chroots within the limits",
    301: "expected `plan 1` before all other lines",
    302: "expected `lane`, `block`, `use`, `end` or an instruction, whole and in its place",
    303: "expected a package, chroot or recipe that the other texts have",
    304: "expected each package once in a line",
    305: "expected a block that ended above this line",
    306: "expected `end` for what begins here",
    307: "expected each recipe to be published at most once in all lanes",
    308: "expected a name that no earlier lane has, or for a block no earlier block",
    309: "expected at most 64 lanes, and 65,536 instructions in all lanes and in a block",
    451: "expected the line of a certificate of this plan that comes next",
    452: "expected no more of a lane than it can know there",
    453: "expected an instruction that is safe by what the certificate says",
    454: "expected an order of steps that can be made, to the end of the plan",
    455: "expected two branches that leave each package in one phase",
    900: "expected more memory",
}


def escaped(text):
    return "".join(byte if " " <= byte <= "~" and byte != "\\" else f"\\x{ord(byte):02x}" for byte in text)


def shown(text):
    """The first bytes of a value, with one blank in place of each run of them."""
    return " ".join(map(escaped, pieces(text[:SHOWN])))


def begun(text):
    """The text from its first line on that is neither a comment nor blank."""
    rest = lines(text)
    while rest and (rest[0].startswith("#") or not rest[0].strip(" \t")):
        rest = rest[1:]
    return rest[0] if rest else ""


def look(text, file, line):
    """What the text or its refused line looks like, or None."""
    for beginning, sentence in BEGINNINGS:
        if text.startswith(beginning):
            return sentence
    for beginning, files, what in ORDERS:
        if begun(text).startswith(beginning) and file in files:
            return f"the text begins as {what} does: are the texts in another order?"
    return "the line ends in a carriage return: end lines in a newline alone" if line.endswith("\r") else None


def exchanged(texts):
    """The sign that packages and sources are exchanged, or None."""
    for file, names, what in EXCHANGED:
        first = paragraphs(texts[file], file)[:1]
        if first and set(names) & set(first[0].fields):
            return f"the {file} text begins as {what} does: are the texts in another order?"
    return None


def sign_of(texts, fault, refused):
    if fault.code in (205, 206):
        return exchanged(texts)
    return look(texts[fault.file], fault.file, refused) if fault.code in LOOKED_AT else None


def expected(text, fault, refused):
    """What was expected: of 302 the cause, where there is one."""
    above = lines(text)[: fault.line - 1]
    cause = plan_cause(above, refused, shown, SENTENCES) if fault.code == 302 else None
    return cause or SENTENCES.get(fault.code, "expected another text")


def repeated(above, refused):
    """The number of the line above of a plan that the refused one repeats, and the line, or None: one in a lane ahead of one
    in a block. A `use` repeats no line of a block."""
    begun, is_in_lane, found = pieces(refused)[:2], False, None
    for number, content in enumerate(above, 1):
        words = [] if content.startswith("#") else pieces(content)[:2]
        if words and words[0] in ("lane", "block"):
            is_in_lane = words[0] == "lane"
        if words == begun and is_in_lane:
            return number, content
        if words == begun and words[0] != "use" and found is None:
            found = number, content
    return found


def plan_note(text, fault, refused):
    """What a plan without lines has, or the line that a refused one repeats; and that line as data."""
    if fault.code == 301:
        what = "has blank lines and comments alone" if text else "is empty"
        return (None, {}) if fault.line else (f"the plan {what}", {})
    found = repeated(lines(text)[: fault.line - 1], refused)
    if found is None:
        return None, {}
    number, line = found
    return f"plan line {number}: {shown(line)}", {"plan_line": number}


def about(texts, fault, refused):
    """The line on the field, word, item or limit that the refusal is about, or None; and what it tells as data."""
    if fault.code in CODES and fault.file != "plan":
        return field_note(texts, fault, shown)
    if fault.code in (301, 307, 308):
        return plan_note(texts["plan"], fault, refused)
    return word_note(texts, refused, shown) if fault.code == 303 else (fault.about, fault.facts)


def fault_lines(texts, fault):
    """The lines below that of the refusal, and what the refusal is about as data."""
    text = texts[fault.file]
    refused = lines(text)[fault.line - 1] if fault.line else ""
    told = [f"{fault.file} line {fault.line}: {escaped(refused[:SHOWN])}"] if fault.line else []
    note, facts = about(texts, fault, refused)
    below = [expected(text, fault, refused), sign_of(texts, fault, refused), note]
    return [*told, *(f"  {it}" for it in below if it)], facts
