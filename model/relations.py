"""Relation fields and their reduction: FORMATS, sections 4 and 5; RULES, section 2."""

from texts import BLANKS, DIGITS, NAME, SMALL, Fault, is_name, is_word, pieces
from versions import HOLDS, Version

QUALIFIER = SMALL | DIGITS | frozenset("-")


class Kind:
    """What a field may hold: several alternatives, any operator, restrictions."""

    def __init__(self, several, any_operator, restricted):
        self.several, self.any_operator, self.restricted = several, any_operator, restricted


NEED = Kind(True, True, False)
CLASH = Kind(False, True, False)
PROVIDE = Kind(False, False, False)
BUILD_NEED = Kind(True, True, True)
BUILD_CLASH = Kind(False, True, True)


class Alternative:
    """`name:qualifier (operator version) [architectures] <profiles> ..`, None where a part is absent."""

    def __init__(self, name):
        self.name, self.qualifier, self.operator, self.version = name, None, None, None
        self.architectures, self.profiles = None, []

    def in_relation(self, version):
        return self.operator is None or HOLDS[self.operator](version.compare(self.version))

    def __str__(self):
        qualifier = "" if self.qualifier is None else f":{self.qualifier}"
        relation = "" if self.operator is None else f" ({self.operator} {self.version.text})"
        return f"{self.name}{qualifier}{relation}"


class Cursor:
    """What is left to read of an alternative."""

    def __init__(self, text):
        self.rest = text

    def skip(self):
        self.rest = self.rest.lstrip(BLANKS)

    def takes(self, byte):
        found = self.rest.startswith(byte)
        self.rest = self.rest[1:] if found else self.rest
        return found

    def run(self, bytes_):
        end = 0
        while end < len(self.rest) and self.rest[end] in bytes_:
            end += 1
        found, self.rest = self.rest[:end], self.rest[end:]
        return found

    def until(self, bytes_):
        end = 0
        while end < len(self.rest) and self.rest[end] not in bytes_:
            end += 1
        found, self.rest = self.rest[:end], self.rest[end:]
        return found


def read_relation(cursor, kind, found):
    cursor.skip()
    found.operator = cursor.run("<=>")
    if found.operator not in HOLDS:
        raise Fault(122)
    if not kind.any_operator and found.operator != "=":
        raise Fault(128)
    cursor.skip()
    try:
        found.version = Version(cursor.until(BLANKS + ")"))
    except Fault:
        raise Fault(123) from None
    cursor.skip()
    if not cursor.takes(")"):
        raise Fault(125)


def read_items(cursor, kind, end, code):
    """The items of a list in brackets, each a word and whether a `!` stands before it."""
    if not kind.restricted:
        raise Fault(127)
    inside, closed, cursor.rest = cursor.rest.partition(end)
    if not closed:
        raise Fault(125)
    items = [(item.removeprefix("!"), item.startswith("!")) for item in pieces(inside)]
    if not items or not all(is_word(word) for word, _ in items):
        raise Fault(code)
    return items


def read_alternative(text, kind):
    """One alternative of a field, or the code of its first fault."""
    cursor = Cursor(text)
    cursor.skip()
    if cursor.rest == "":
        raise Fault(129)
    found = Alternative(cursor.run(NAME))
    if not is_name(found.name):
        raise Fault(121)
    if cursor.takes(":"):
        found.qualifier = cursor.run(QUALIFIER)
        if found.qualifier == "":
            raise Fault(121)
    cursor.skip()
    if cursor.takes("("):
        read_relation(cursor, kind, found)
        cursor.skip()
    if cursor.takes("["):
        found.architectures = read_items(cursor, kind, "]", 124)
        if len({negated for _, negated in found.architectures}) > 1:
            raise Fault(124)
        cursor.skip()
    while cursor.takes("<"):
        found.profiles.append(read_items(cursor, kind, ">", 130))
        cursor.skip()
    if cursor.rest:
        raise Fault(121)
    return found


def read_field(value, kind):
    """The entries of a field, each a list of alternatives, or the code of the first fault."""
    entries = []
    for entry in value.split(","):
        if entry.strip(BLANKS) == "":
            continue
        alternatives = entry.split("|")
        if len(alternatives) > 1 and not kind.several:
            raise Fault(126)
        entries.append([read_alternative(alternative, kind) for alternative in alternatives])
    return entries


def stays(alternative, architectures, profiles):
    """Whether the restrictions of an alternative hold (Policy 7.1, BuildProfileSpec)."""
    if alternative.architectures is not None:
        negated = alternative.architectures[0][1]
        if any(word in architectures for word, _ in alternative.architectures) == negated:
            return False
    lists = alternative.profiles
    return not lists or any(all((word in profiles) != negated for word, negated in items) for items in lists)


def reduce_field(entries, architectures, profiles=()):
    """What is left of a field on an architecture under profiles."""
    reduced = []
    for entry in entries:
        left = []
        for alternative in entry:
            if stays(alternative, architectures, profiles):
                copy = Alternative(alternative.name)
                copy.operator, copy.version = alternative.operator, alternative.version
                if alternative.qualifier not in ("any", "native", *architectures):
                    copy.qualifier = alternative.qualifier
                left.append(copy)
        if left:
            reduced.append(left)
    return reduced
