"""Versions and their order: FORMATS, section 3 (Policy 5.6.12, deb-version(7))."""

from functools import cmp_to_key

from texts import DIGITS, LETTERS, Fault

UPSTREAM = LETTERS | DIGITS | frozenset(".+-~")
REVISION = LETTERS | DIGITS | frozenset("+.~")
EPOCH_LIMIT = 2_147_483_647


class Version:
    """A version: its text, and its three parts."""

    def __init__(self, text):
        if len(text) > 512:
            raise Fault(114)
        epoch, colon, rest = text.partition(":")
        if not colon:
            epoch, rest = None, text
        upstream, hyphen, revision = rest.rpartition("-")
        if not hyphen:
            upstream, revision = rest, None
        if "" in (epoch, rest, upstream, revision):
            raise Fault(111)
        allowed = UPSTREAM | {":"} if colon else UPSTREAM
        if not set(epoch or "") <= DIGITS or not set(upstream) <= allowed or not set(revision or "") <= REVISION:
            raise Fault(112)
        if int(epoch or "0") > EPOCH_LIMIT:
            raise Fault(113)
        self.text, self.epoch, self.upstream, self.revision = text, int(epoch or "0"), upstream, revision or "0"

    def compare(self, other):
        """Below 0, 0 or above 0, as this version is lower, equal or higher."""
        if self.epoch != other.epoch:
            return self.epoch - other.epoch
        return compare_parts(self.upstream, other.upstream) or compare_parts(self.revision, other.revision)


def weight(byte):
    """`~` is lowest, then the end, then letters, then what is no letter."""
    if byte == "~":
        return -1
    if byte == "":
        return 0
    return ord(byte) if byte in LETTERS else ord(byte) + 256


def split_run(text, are_digits):
    """Cuts a text behind its longest run of digits, or of what is no digit."""
    end = 0
    while end < len(text) and (text[end] in DIGITS) == are_digits:
        end += 1
    return text[:end], text[end:]


def compare_parts(one, other):
    """Compares two parts run by run; the first pair that differs decides."""
    while one or other:
        (mine, one), (yours, other) = split_run(one, False), split_run(other, False)
        for place in range(max(len(mine), len(yours))):
            difference = weight(mine[place : place + 1]) - weight(yours[place : place + 1])
            if difference:
                return difference
        (mine, one), (yours, other) = split_run(one, True), split_run(other, True)
        if int(mine or "0") != int(yours or "0"):
            return int(mine or "0") - int(yours or "0")
    return 0


by_order = cmp_to_key(Version.compare)

HOLDS = {
    "<<": lambda order: order < 0,
    "<=": lambda order: order <= 0,
    "=": lambda order: order == 0,
    ">=": lambda order: order >= 0,
    ">>": lambda order: order > 0,
}
