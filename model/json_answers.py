"""Verdicts as JSON: one object on a line (docs/FORMATS.md, section 17)."""

import json

from core import TRAPS


def shown(text):
    """A text of bytes, with U+FFFD in place of what is no UTF-8."""
    return text.encode("latin-1").decode("utf-8", "replace")


def accepted_lane(line):
    """The members of a lane, by its line in an acceptance."""
    _lane, name, _cost, cost, _budget, budget = line.split(" ")
    return {"name": shown(name), "cost": int(cost), "budget": int(budget)}


def verdict_members(lines):
    """The members of the verdict that these lines tell."""
    first = lines[0].split(" ")
    if first[0] == "accepted":
        lanes = [accepted_lane(line) for line in lines[3:]]
        return {"verdict": "accepted", "lanes": lanes, "count": int(lines[2].split(" ")[1])}
    members = {"verdict": "refused", "code": int(first[1])}
    if first[2] == "lanes":
        return members | {"lanes": [{"name": shown(name)} for name in first[3:]]}
    if first[2] == "lane":
        members |= {"lane": shown(first[3]), "instruction": int(first[5])}
        return members | ({"trap": " ".join(first[6:])} if len(first) > 6 else {})
    return members | {"file": first[2], "line": int(first[4])}


def lines_of(lines):
    return [shown(line) for line in lines]


def shown_value(value):
    """A number, a text or a list of texts."""
    if isinstance(value, list):
        return lines_of(value)
    return shown(value) if isinstance(value, str) else value


def reason_of(note):
    """The members of a note, without those that it does not have."""
    data = {word: shown_value(value) for word, value in note.facts.items()}
    members = {"kind": note.kind, "lines": lines_of(note.lines)} | data
    if note.lane is not None:
        line, used = note.lane.lines[note.number - 1]
        members |= {"lane": shown(note.lane.name), "instruction": note.number, "plan_line": line}
        members |= {"use_line": used} if used else {}
    return members | ({"trap": f"{note.trap} {TRAPS[note.trap]}"} if note.trap else {})


def reasons_of(notes):
    return [reason_of(note) for note in notes]


def json_line(members):
    """The line of an object, as bytes are held in the model."""
    text = json.dumps(members, ensure_ascii=False, separators=(",", ":"), sort_keys=True)
    return text.encode("utf-8").decode("latin-1")


def member_line(lines, path):
    """What stands at a path (RFC 6901) of an answer that is read as JSON."""
    try:
        value = json.loads("\n".join(lines).encode("latin-1"))
    except ValueError:
        return "no JSON"
    for name in path.split("/")[1:]:
        at = int(name) if isinstance(value, list) else name
        if not (at < len(value) if isinstance(value, list) else at in value):
            return "no member"
        value = value[at]
    return json_line(value)
