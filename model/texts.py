"""Words, names, numbers, lines and control text: FORMATS, sections 1 and 2.

A text is a `str` of bytes (latin-1), so that each byte is one character.
"""

BLANKS = " \t\n"
DIGITS = frozenset("0123456789")
SMALL = frozenset("abcdefghijklmnopqrstuvwxyz")
LETTERS = SMALL | frozenset("ABCDEFGHIJKLMNOPQRSTUVWXYZ")
NAME = SMALL | DIGITS | frozenset("+-.")
NO_WORD = frozenset(BLANKS + "<>!,|()[]")
TEXT_LIMIT = 67_108_864
FILES = ["packages", "sources", "farm", "plan"]


class Fault(Exception):
    """A refusal by number, at a line of one of the four texts (or of the certificate), and what is said of its item."""

    def __init__(self, code, line=None, file=None, about=None, facts=None):
        super().__init__(code, line, file)
        self.code, self.line, self.file, self.about, self.facts = code, line, file, about, facts or {}


def is_word(text):
    return text != "" and not NO_WORD & set(text)


def is_name(text):
    return len(text) >= 2 and set(text) <= NAME and text[0] not in "+-."


def number(text, most=999_999_999_999_999):
    """The value of a number, or None where the text is none or is over `most`."""
    if not 1 <= len(text) <= 15 or not set(text) <= DIGITS:
        return None
    return int(text) if int(text) <= most else None


def pieces(text):
    """What stands between blanks."""
    return [piece for piece in text.replace("\t", " ").replace("\n", " ").split(" ") if piece]


def words(text, code):
    """The words of a list of words; a piece that is none is refused with the code."""
    found = pieces(text)
    if not all(is_word(piece) for piece in found):
        raise Fault(code)
    return found


def lines(text):
    """The lines: each ends at a newline, and the last one may lack it."""
    found = text.split("\n")
    return found[:-1] if found[-1] == "" else found


def is_field_name(text):
    return text != "" and text[0] != "-" and all("!" <= byte <= "~" and byte != ":" for byte in text)


class Paragraph:
    """The fields of a paragraph, by their names in small letters, with the lines that they stand at, and its first and last
    lines."""

    def __init__(self, line):
        self.line, self.last, self.fields, self.places = line, line, {}, {}

    def get(self, name):
        value = self.fields.get(name.lower())
        return None if value is None else "\n".join(value).strip(BLANKS)

    def item_line(self, name, number):
        """The line at which an item of a list begins, or the field where it has no item."""
        value = "\n".join(self.fields[name.lower()])
        starts, at = [], 0
        for item in value.split(","):
            if item.strip(BLANKS):
                starts.append(at + len(item) - len(item.lstrip(BLANKS)))
            at += len(item) + 1
        start = starts[number] if starts else 0
        return self.places[name.lower()][value.count("\n", 0, start)]


def paragraphs(text, file):
    """The paragraphs of a control text (deb-control(5)), or its first fault."""
    if len(text) > TEXT_LIMIT:
        raise Fault(105, 0, file)
    return list(each_paragraph(lines(text), file))


def each_paragraph(contents, file):
    """The paragraphs of these lines, each once its last line is read, or the first fault."""
    current, field = None, None
    for line, content in enumerate(contents, 1):
        if content.startswith("#"):
            continue
        if content.strip(" \t") == "":
            if current is not None:
                yield current
            current, field = None, None
            continue
        if content[0] in " \t":
            if field is None:
                raise Fault(101, line, file)
            field.append(content)
            current.places[key].append(line)
        else:
            name, colon, value = content.partition(":")
            if not colon:
                raise Fault(102, line, file)
            if not is_field_name(name):
                raise Fault(103, line, file)
            if current is None:
                current = Paragraph(line)
            key = "".join(chr(ord(byte) + 32) if "A" <= byte <= "Z" else byte for byte in name)
            if key in current.fields:
                raise Fault(104, line, file)
            field, current.places[key] = [value], [line]
            current.fields[key] = field
        current.last = line
    if current is not None:
        yield current
