"""A chain of runs: each leg goes on where the one before has stopped, and `history` tells their story."""

from journals import Journal, Life
from plans import read_plan
from rest_items import Items, Text, item_text, items_of, listed, names_in
from universe import read_universe


class Leg:
    """A run by its four texts and its journal."""

    def __init__(self, texts, text):
        self.universe = read_universe(texts)
        plan = read_plan(self.universe, texts["plan"])
        self.journal = Journal(texts, text)
        self.life = Life(self.universe, plan).follow(self.journal)
        head = Text(texts["farm"], "farm").head
        self.after, self.withdrawn = names_in(head, "After"), Items(listed(head, "Withdrawn"))
        self.at_start, self.at_end = items_of(self.universe.archive), items_of(self.life.farm.archive)


def misfit(before, leg):
    """What keeps a farm from going on where a leg has stopped: `after`, or a variant; None where nothing does."""
    if leg.after != [before.journal.run, before.journal.sum()]:
        return "after"
    for item in before.at_end:
        if item not in leg.at_start and item not in leg.withdrawn:
            return item_text(item)
    given = Items((it.name, it.version) for recipe in leg.universe.recipes.values() for it in recipe.outputs)
    for item in [*before.withdrawn, *leg.withdrawn]:
        if item not in leg.withdrawn or item in leg.at_start or item in given:
            return f"{item_text(item)} was withdrawn"
    return None


def seam_lines(number, before, leg):
    """What is wrong or odd between two legs."""
    why = misfit(before, leg)
    if why:
        yield f"wrong: leg {number} does not go on from leg {number - 1}: {why}"
    if before.journal.next_run not in (None, leg.journal.run):
        yield f"wrong: leg {number - 1} is ended by {before.journal.next_run}"
    if before.journal.next_run is None:
        yield f"note: leg {number - 1} is not ended"
    for item in leg.at_start:
        if item not in before.at_end:
            yield f"note: {item_text(item)} came into the archive ahead of leg {number}"
    for item in leg.withdrawn:
        if item in before.at_end:
            yield f"note: {item_text(item)} was withdrawn ahead of leg {number}"


def published_lines(number, leg, seen):
    """What a leg has published; `seen` has what earlier ones have, each with the number of its leg."""
    for recipe in leg.life.published:
        for it in recipe.outputs:
            item = it.name, it.version
            yield f"  published {len(seen)} leg {number} recipe {recipe.name} {it.name} {it.version.text}"
            twice = next((old for other, old in seen if item in Items([other])), None)
            if twice is not None:
                yield f"wrong: {item_text(item)} is published by leg {twice} too"
            seen.append((item, number))


def withdrawn_lines(legs):
    """Variants that were withdrawn ahead of a leg, and that it or a later one has in its archive at its end."""
    for number, leg in enumerate(legs):
        for later, other in enumerate(legs[number:], number):
            for item in leg.withdrawn:
                if item in other.at_end:
                    yield f"wrong: {item_text(item)} was withdrawn ahead of leg {number}, and leg {later} has it"


def history_lines(legs):
    """The story of a chain, the first leg first."""
    seen, before = [], None
    for number, leg in enumerate(legs):
        sizes = f"archive {len(leg.at_start)} to {len(leg.at_end)}"
        yield f"leg {number} run {leg.journal.run} published {len(leg.life.published)}, {sizes}"
        yield from seam_lines(number, before, leg) if before else ()
        yield from published_lines(number, leg, seen)
        before = leg
    yield from withdrawn_lines(legs)
    left = sum(it.next() is not None for it in before.life.farm.lanes)
    yield f"lanes that are not at their end {left}" if left else "finished"


def history(legs):
    """The same, and the status: 1 where something is wrong."""
    told = list(history_lines(legs))
    return told, int(any(line.startswith("wrong: ") for line in told))
