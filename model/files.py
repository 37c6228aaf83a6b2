"""Files, and what is said of one that cannot be read. FORMATS, section 13."""

import sys

from fault_notes import escaped
from json_answers import json_line

MOST_INPUT = 300_000_000
REASONS = {
    FileNotFoundError: "No such file or directory",
    PermissionError: "Permission denied",
    IsADirectoryError: "Is a directory",
}


class Unread(Exception):
    """A file that cannot be read, and why, where that has a name."""

    def __init__(self, path, reason=None):
        name = "standard input" if path == "-" else escaped(path)
        super().__init__(f"cannot read {name}: {reason}" if reason else f"cannot read {name}")


def none_line(fault, words):
    """What is answered as JSON where a file cannot be read, if that is asked for; else None."""
    asks = words[:1] in (["check"], ["explain"]) and "--json" in words
    return json_line({"verdict": "none", "error": str(fault)}) if asks else None


def bytes_at(path):
    if path == "-":
        return sys.stdin.buffer.read()
    with open(path, "rb") as file:
        return file.read()


def text_of(path):
    """The text of a file, or of standard input where its name is `-`."""
    try:
        return bytes_at(path).decode("latin-1")
    except OSError as error:
        raise Unread(path, REASONS.get(type(error))) from None


def all_input():
    """The text of standard input, where it is all of the four."""
    text = text_of("-")
    if len(text) > MOST_INPUT:
        raise Unread("-", f"over {MOST_INPUT:,} bytes")
    return text
