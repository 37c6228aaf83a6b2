"""Journals of drives, and the core that follows them: FORMATS, section 21.

A journal may say more than what was asked and done. None of these lines moves the core, so one without them is read as it
was:

    failed LANE NUMBER                  what is open there has failed, and stays open
    gave LANE NUMBER NAME VERSION ..    the open build gave these variants, not those that are declared, and stays open
    again LANE NUMBER                   what has failed, or gave others, is asked for again
    at SECONDS                          so long after the beginning of the run comes the next line
    end RUN                             the last line: that run goes on from here
"""

import hashlib

from core import Farm
from drives import run_name
from texts import FILES, Fault
from versions import Version

ASKED = ("configure", "deconfigure", "remove", "build", "publish")
HEX = frozenset("0123456789abcdef")
NOTED = ("ask", "pick", "branch", "done", "failed", "gave", "again")


class Misfit(Exception):
    """The journal is not one of these texts and this plan: a text, or a line."""


def digest(text):
    return hashlib.sha256(text.encode("latin-1")).hexdigest()


def head_lines(texts):
    return ["journal 1", *(f"{name} {digest(texts[name])}" for name in FILES)]


def is_fresh(texts, text):
    """Whether nothing was asked by then: a text that is torn within its first six lines, perhaps into zeros."""
    head = "".join(f"{line}\n" for line in head_lines(texts))
    return head.startswith(text.rstrip("\0")) or text.startswith(head) and "\n" not in text[len(head):]


class Journal:
    """The whole lines of a journal: the run's name, the entries with the numbers of their lines, and the run that goes on
    from here, or None."""

    def __init__(self, texts, text):
        self.lines = text.split("\n")[:-1]
        head = head_lines(texts)
        for number, wanted in enumerate(head):
            if self.lines[number:number + 1] != [wanted]:
                raise Misfit(FILES[number - 1] if number and number < len(self.lines) else f"line {number + 1}")
        stamp = self.word_at(len(head), "run")
        if stamp is None or len(stamp) != 16 or not set(stamp) <= HEX:
            raise Misfit(f"line {len(head) + 1}")
        self.run = run_name(texts, int(stamp, 16))
        self.entries = list(enumerate(self.lines, 1))[len(head) + 1:]
        self.next_run = self.word_at(len(self.lines) - 1, "end") if self.entries else None
        if self.next_run is not None:
            self.entries.pop()

    def word_at(self, place, verb):
        """The word behind a verb, where the line at a place is of both."""
        words = self.lines[place].split(" ") if place < len(self.lines) else []
        return words[1] if len(words) == 2 and words[0] == verb else None

    def sum(self):
        """The digest of all lines but the end."""
        kept = self.lines if self.next_run is None else self.lines[:-1]
        return digest("".join(f"{line}\n" for line in kept))


class Life:
    """A farm at work, and what is noted of it. Of each lane `asked` has the number that is open, 0 for its chroot, and
    `since` when it was asked for; by lane and number `failed` and `gave` say what came of it."""

    def __init__(self, universe, plan):
        self.universe, self.plan, self.farm = universe, plan, Farm(universe, plan)
        self.lanes = {it.lane.name: it for it in self.farm.lanes}
        self.begun, self.opened, self.asked, self.since = set(), set(), {}, {}
        self.failed, self.gave, self.picked, self.published = set(), {}, {}, []
        self.seconds, self.build_seconds, self.build_steps, self.done = None, 0, 0, 0

    def follow(self, journal):
        """Follows all entries, or tells the first line that the core cannot follow."""
        for number, line in journal.entries:
            if not self.entry(line.split(" ")):
                raise Misfit(f"line {number}")
        return self

    def entry(self, words):
        """Follows an entry; false where the core cannot."""
        verb, *rest = words
        if verb == "at" and len(rest) == 1 and rest[0].isdigit():
            self.seconds = int(rest[0])
            return True
        if verb not in NOTED or len(rest) < 2 or rest[0] not in self.lanes or not rest[1].isdigit():
            return False
        return getattr(self, f"note_{verb}")(rest[0], int(rest[1]), rest[2:])

    def stands(self, lane, number):
        """Whether a lane stands at an instruction, past the waits ahead of it, in a chroot that is there and with nothing
        open."""
        standing = self.lanes[lane]
        if lane not in self.opened or lane in self.asked:
            return False
        while standing.done < number - 1 and standing.next().verb == "wait" and not self.farm.is_blocked(standing):
            self.farm.turn(standing)
        return standing.done == number - 1 and standing.next() is not None

    def open(self, lane, number):
        self.asked[lane], self.since[lane] = number, self.seconds or 0
        return True

    def instruction(self, lane, number):
        return self.lanes[lane].lane.instructions[number - 1]

    def note_ask(self, lane, number, more):
        if more:
            return False
        if number == 0:
            is_first = lane not in self.begun
            self.begun.add(lane)
            return is_first and self.open(lane, 0)
        return self.stands(lane, number) and self.instruction(lane, number).verb in ASKED and self.open(lane, number)

    def note_pick(self, lane, number, more):
        """An unpack, with the variant that the core takes. What the lane was before it is kept until it is done."""
        standing = self.lanes[lane]
        if not self.stands(lane, number) or standing.next().verb != "unpack":
            return False
        name, before = standing.next().wanted.name, (standing.done, standing.spent, dict(standing.slots))
        if self.farm.turn(standing) is not None or [name, standing.slots[name].variant.version.text] != more:
            return False
        self.picked[lane] = standing.slots[name].variant, before
        return self.open(lane, number)

    def note_branch(self, lane, number, more):
        standing = self.lanes[lane]
        if more not in (["first"], ["second"]) or not self.stands(lane, number) or standing.next().verb != "when":
            return False
        self.farm.turn(standing)
        place = standing.done
        standing.go_to(number if more == ["first"] else standing.lane.first("else", number))
        return standing.done == place

    def note_done(self, lane, number, more):
        if more or self.asked.get(lane) != number:
            return False
        if number == 0:
            self.opened.add(lane)
        elif not self.carry_out(lane, self.instruction(lane, number)):
            return False
        self.close(lane, number)
        del self.asked[lane]
        self.done += 1
        return True

    def carry_out(self, lane, it):
        """Takes the lane past an instruction; an unpack was taken with its pick."""
        for _ in range({"unpack": 0, "publish": len(it.recipe.outputs) if it.recipe else 0}.get(it.verb, 1)):
            if self.farm.turn(self.lanes[lane]) is not None:
                return False
        self.picked.pop(lane, None)
        if it.verb == "publish":
            self.published.append(it.recipe)
        if it.verb == "build":
            self.build_seconds += (self.seconds or 0) - self.since[lane]
            self.build_steps += it.recipe.steps
        return True

    def close(self, lane, number):
        self.failed.discard((lane, number))
        self.gave.pop((lane, number), None)

    def note_failed(self, lane, number, more):
        self.failed.add((lane, number))
        return not more and self.asked.get(lane) == number

    def note_gave(self, lane, number, more):
        is_build = self.asked.get(lane) == number and number > 0 and self.instruction(lane, number).verb == "build"
        if not is_build or not more or len(more) % 2:
            return False
        try:
            self.gave[lane, number] = [(name, Version(text)) for name, text in zip(more[::2], more[1::2])]
        except Fault:
            return False
        return True

    def note_again(self, lane, number, more):
        self.close(lane, number)
        self.since[lane] = self.seconds or 0
        return not more and self.asked.get(lane) == number

    def open_recipe(self, lane):
        """The verb and the recipe of a build or a publish that is open in a lane, or None."""
        it = self.instruction(lane, self.asked[lane]) if self.asked.get(lane) else None
        return (it.verb, it.recipe) if it and it.verb in ("build", "publish") else None

    def built(self):
        """The names of the recipes that some lane has built and none has published."""
        return {name for it in self.farm.lanes for name in it.built} - {it.name for it in self.published}
