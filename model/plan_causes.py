"""Why a line of a plan has none of the forms, or not its place: FORMATS, section 16."""

from near_names import near_text
from relations import NEED, read_field
from texts import DIGITS, SMALL, Fault, number, pieces

# the first words of lines, in the order of FORMATS, section 11, and what stands behind them
OPERANDS = {
    "lane": "lane", "block": "block", "end": None, "use": "block", "unpack": "package", "configure": "package",
    "deconfigure": "package", "remove": "package", "build": "recipe", "publish": "recipe", "wait": "package",
    "when": "package", "else": None,
}
NOT_IN_BRANCHES = ("publish", "wait", "use", "when")
LANE = "`lane NAME chroot CHROOT budget NUMBER`"
FORM = ("NAME", "chroot", "CHROOT", "budget", "NUMBER")


def open_above(above):
    """What is open behind lines without a fault: a lane or block as its first word, its name and its line, and in it a
    branch as `when` or `else`, behind which it stands, and the line of its `when`; None where nothing is."""
    part, branch = None, None
    for line, content in enumerate(above, 1):
        [head, *found] = pieces(content) or [""]
        if content.startswith("#"):
            continue
        if head in ("lane", "block"):
            part = (head, found[0], line)
        elif head == "when":
            branch = (head, line)
        elif head == "else":
            branch = (head, branch[1])
        elif head == "end":
            part, branch = part if branch else None, None
    return part, branch


def still_open(part, branch):
    if branch:
        missing = "else" if branch[0] == "when" else "end"
        return f"the `when` at line {branch[1]} is still open: its `{missing}` is missing above"
    return f"{part[0]} {part[1]} (line {part[2]}) is still open: `end` is missing above" if part else None


def lane_cause(found):
    """The first part of the form that a `lane` line lacks."""
    at = (found + [""] * 6)[:6]
    for place, part in enumerate(FORM):
        is_word_of_form = part in ("chroot", "budget")
        is_skipped = place in (0, 2) and at[place] == FORM[place + 1] != at[place + 1]
        if at[place] != part if is_word_of_form else is_skipped or not at[place]:
            return f"{LANE}: `{part}` is missing"
    if at[5]:
        return f"{LANE}: nothing stands behind the number"
    return "the budget is no number of at most 999,999,999,999,999" if number(at[4]) is None else None


def block_cause(found):
    if not found:
        return "`block NAME`: `NAME` is missing"
    return "`block NAME`: nothing stands behind the name" if len(found) > 1 else None


def unknown_cause(head, shown):
    near = near_text([head], OPERANDS, quote="`")
    return f"`{shown(head)}` begins no line{near or ': expected `lane`, `block`, `use`, `end` or an instruction'}"


def ending_cause(head, found, branch):
    if found:
        return f"`{head}` stands alone in its line"
    if branch is None:
        return "no `when` is open here"
    return f"the `when` at line {branch[1]} has " + ("its `else` already" if head == "else" else "no `else`")


def has_second(found, text):
    """Whether another package begins behind the first one and its version."""
    behind = text.partition(")")[2] if "(" in text else " ".join(found[1:])
    first = behind.strip(" \t")[:1]
    return first != "" and first in SMALL | DIGITS


def relation_cause(head, found, text, sentences):
    """What is wrong with the operand of `unpack`, `when` or `wait`."""
    one = "`wait` takes one entry" if head == "wait" else f"`{head}` takes one package"
    if "," in text:
        return f"{one}, without a comma"
    if "|" in text and head != "wait":
        return f"{one}, without alternatives"
    if "(" not in text and ("=" in text or has_second(found, text) and head != "wait"):
        return f"{one}; a version stands as `(= 4:14.2.0-1)`"
    if has_second(found, text):
        return f"{one}; alternatives have `|` between them" if head == "wait" else one
    try:
        read_field(text, NEED)
    except Fault as fault:
        return sentences[fault.code]
    return f"`{head}` takes a package without a qualifier"


def operand_cause(head, found, text, sentences):
    what = OPERANDS[head]
    if not found:
        return f"`{head}` names no {what}"
    if head in ("unpack", "when", "wait"):
        return relation_cause(head, found, text, sentences)
    if head in ("build", "publish", "use"):
        return f"`{head}` takes one {what}" if len(found) > 1 or "," in text else None
    if "," in text:
        return "packages are divided by blanks, not commas"
    return f"`{head}` takes names without versions" if "(" in text else None


def plan_cause(above, content, shown, sentences):
    """What is wrong with a line that is refused with 302, or None where the sentence of 302 says all."""
    part, branch = open_above(above)
    [head, *found], text = pieces(content), content.strip(" \t").replace("\t", " ").partition(" ")[2]
    if any(word.startswith("#") for word in (head, *found)):
        return "`#` begins a comment only as the first byte of its line"
    if head in ("lane", "block"):
        return still_open(part, branch) or (lane_cause(found) if head == "lane" else block_cause(found))
    if head == "plan":
        return "`plan 1` stands once, ahead of all other lines"
    if head not in OPERANDS:
        return unknown_cause(head, shown)
    if part is None:
        return "no lane or block is open here"
    if branch and head in NOT_IN_BRANCHES:
        return f"a branch has no `{head}`, and the `when` at line {branch[1]} is still open"
    if head in ("else", "end"):
        return ending_cause(head, found, branch)
    return operand_cause(head, found, text, sentences)
