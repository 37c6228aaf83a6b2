"""Why an instruction may meet a trap: FORMATS, section 15. The first witness is told: members, entries and alternatives as
they are written, names by their numbers, variants from the lowest version up; and below it what helps with it."""

from itertools import islice

from core import ABSENT, CONFIGURED
from near_names import near_text
from plans import Instruction
from relations import Alternative
from verdict import MaySlot, Unsafe, Walk, is_surely, is_surely_pre_met


def spelled(variant):
    return f"{variant.name} (= {variant.version.text})"


def entry_text(entry):
    return " | ".join(str(alternative) for alternative in entry)


def entry_facts(owner, field, entry):
    """The data of an entry of a variant."""
    return {"variant": spelled(owner), "field": field, "entry": entry_text(entry)}


def place_text(lane, number):
    """The line of an instruction in the plan, with that of the `use` that brings it in."""
    line, used = lane.lines[number - 1]
    by = f", by the use at line {used}" if used else ""
    return f"plan line {line}{by}"


def where(lane, number):
    """The same, with the instruction."""
    return f"{place_text(lane, number)}: {lane.instructions[number - 1]}"


# the kind of a reason, by the trap; of X10 it goes by what is told
KINDS = {
    "X1": "missing", "X2": "unmet", "X3": "conflict", "X4": "breaks", "X5": "full", "X6": "wrong-state", "X7": "unmet",
    "X8": "breaks", "X9": "still-needed", "X11": "build-need", "X12": "build-conflict", "X13": "not-built",
    "X14": "over-budget", "X15": "essential",
}


# how many entries that are not surely met are shown
MOST_UNMET = 10
# how many versions are tried to which an unpack may be pinned
MOST_PINS = 8


def names_like(universe, entry):
    """The names that could satisfy an alternative by themselves or by a Provides, whatever the version."""
    return [name for name, variants in universe.variants.items()
            if any(it.is_like(alternative) for it in variants for alternative in entry)]


def no_name(universe, entry):
    """That nothing has or provides a name of an entry, with the names that are near."""
    near = near_text([it.name for it in entry], universe.variants, "-")
    return f"no package is or provides that{near}"


def published(plan, variant):
    """Where a variant is published: a lane's number and an instruction's, from 0, or None."""
    for number, lane in enumerate(plan):
        for place, it in enumerate(lane.instructions):
            if it.verb == "publish" and variant in it.recipe.outputs:
                return number, place
    return None


def behind(lane, place):
    """`(instruction N, plan line N)`."""
    return f"(instruction {place + 1}, plan line {lane.lines[place][0]})"


def candidates(universe, rows, number, place):
    """The variants that the unpack at a place may take, the lowest first; none where no wanted one is surely there."""
    wanted, there = rows.plan[number].instructions[place].wanted, rows.may_be_published(number, place)
    of_name = [it for it in universe.variants[wanted.name] if it in there and wanted.in_relation(it.version)]
    sure = [at for at, it in enumerate(of_name) if it in rows.known[number][place]]
    return of_name[sure[-1]:] if sure else []


def cost_at(universe, rows, number, place):
    """What the instruction at a place costs at most; None of an unpack of which no wanted variant is surely there."""
    it = rows.plan[number].instructions[place]
    if it.verb == "unpack":
        may_come = candidates(universe, rows, number, place)
        return 1 + max(it.size for it in may_come) // 1024 if may_come else None
    if it.verb == "build":
        return it.recipe.steps
    return len(it.recipe.outputs) if it.verb == "publish" else len(it.names)


def lane_cost(universe, rows, number):
    """What a lane costs at most, also behind a trap; None where an unpack has no known cost."""
    spent, ahead, first = 0, 0, 0
    for place, it in enumerate(rows.plan[number].instructions):
        cost = cost_at(universe, rows, number, place)
        if cost is None:
            return None
        if it.verb == "when":
            ahead = spent
        elif it.verb == "else":
            first, spent = spent, ahead
        elif it.verb == "end":
            spent = max(first, spent)
        spent += cost
    return spent


def slot_line(universe, name, slot, entry=None, is_ahead=False):
    """What may be held of a name. Where an entry is given, of a configured name what does not satisfy it."""
    if slot.phase == ABSENT:
        return f"{name}: absent"

    def versions(held):
        return "".join(f" {it.version.text}" for it in universe.variants[name] if it in held)

    current = slot.current
    if slot.phase == CONFIGURED and entry is not None:
        current = {it for it in current if not it.satisfies(entry)}
        if not current:
            return f"{name}: configured, which does not count for itself"
    written = f"{name}: {slot.phase}, may be{versions(current)}"
    if is_ahead and slot.phase != CONFIGURED:
        return written + (f", last configured{versions(slot.last)}" if slot.last else ", not surely configured before")
    return written


class Reason:
    """Why an instruction may meet a trap: the lines that say so."""

    def __init__(self, universe, rows, number, place, may):
        self.universe, self.rows, self.number, self.place = universe, rows, number, place
        self.lane, self.may = rows.plan[number], may
        self.it = self.lane.instructions[place]
        self.known = rows.known[number][place]
        # the variants that the reason is about, the entry that is not surely met, and the further ones as they are told
        self.about, self.entry, self.further = [], None, []
        # the data of the reason, by the names of its members in JSON
        self.facts = {}

    def told(self, trap):
        """The kind of the reason and its lines, with where that comes from which it is about; its data is in `facts` then."""
        lines = list(getattr(self, trap.lower())())
        kind = KINDS.get(trap) or ("unmet" if len(lines) > 1 else "unsettled")
        several = [it for it in self.about if len(self.universe.variants[it.name]) > 1]
        return kind, [*lines, *map(self.origin, several), *self.remedy(), *self.also_unmet(), *self.mending_pin()]

    def source(self, variant):
        """How a variant comes into the archive, or None."""
        if variant in self.universe.archive:
            return "it is in the archive from the start"
        found = published(self.rows.plan, variant)
        if found is None:
            return None
        number, place = found
        later = " later" if number == self.number and place >= self.place else ""
        lane = "this lane" if number == self.number else f"lane {self.rows.plan[number].name}"
        return f"{lane} publishes it{later} {behind(self.rows.plan[number], place)}"

    def origin(self, variant):
        """Where a variant comes from that may be held, or that may be taken here."""
        unpacks = [n for n, it in enumerate(self.lane.instructions[:self.place + 1], 1)
                   if it.verb == "unpack" and it.wanted.name == variant.name]
        if not unpacks:
            return f"{spelled(variant)} is in the base chroot"
        taken = f"{spelled(variant)} may be taken by {where(self.lane, unpacks[-1])}; {self.source(variant)}"
        return taken + self.in_no_run(variant)

    def is_met_later_alone(self, entry):
        """Whether nothing meets an entry but what this lane publishes here or later."""
        meets = [it for it in self.universe.all_variants() if it.satisfies(entry)]
        places = [found for found in (published(self.rows.plan, it) for it in meets) if found]
        is_later = all(number == self.number and place >= self.place for number, place in places)
        return bool(places) and is_later and not any(it in self.universe.archive for it in meets)

    def in_no_run(self, variant):
        """That no run has a variant by now, where the lane that publishes it waits ahead of that, in no branch, for what this
        lane publishes later."""
        found = published(self.rows.plan, variant)
        if variant in self.universe.archive or found is None or found[0] == self.number:
            return ""
        lane, is_open = self.rows.plan[found[0]], 0
        for place, it in enumerate(lane.instructions[:found[1]]):
            is_open += (it.verb == "when") - (it.verb == "end")
            if it.verb == "wait" and is_open == 0 and self.is_met_later_alone(it.entry):
                waits = f"ahead of that it waits {behind(lane, place)} for what this lane publishes later"
                return f", but in no run by then: {waits}"
        return ""

    def remedy(self):
        """The first variant that satisfies an entry that is not surely met and that comes into the archive, and how it does;
        and if it need not be there by now, that too."""
        for it in self.universe.all_variants() if self.entry else ():
            source = it.satisfies(self.entry) and self.source(it)
            if source:
                is_sure = it in self.known or it in self.universe.archive or " later (" in source
                yield f"{spelled(it)} satisfies it: {source}{'' if is_sure else ', and no wait makes sure of it here'}"
                yield from self.one_by_one(it)
                return

    def one_by_one(self, variant):
        """That outputs come one by one, where another lane publishes a variant after one that is surely there."""
        found = published(self.rows.plan, variant)
        if found is None or found[0] == self.number or variant in self.known:
            return
        lane = self.rows.plan[found[0]]
        outputs = lane.instructions[found[1]].recipe.outputs
        ahead = [it for it in outputs[:outputs.index(variant)] if it in self.known]
        if ahead:
            yield (f"outputs come one by one: lane {lane.name} publishes {spelled(variant)} after {spelled(ahead[-1])}, which "
                   f"is surely there; a wait for {spelled(outputs[-1])}, the last of them, is a wait for all")

    def also_unmet(self):
        """The further entries that are not surely met."""
        shown = self.further[:MOST_UNMET - 1]
        yield from (f"also not surely met: {it}" for it in shown)
        if self.further[len(shown):]:
            yield f"and {len(self.further) - len(shown)} more"

    def pins(self):
        """The versions to which unpacks of the packages that an unmet entry is about can be pinned, the highest first."""
        about = [it.name for it in self.about]
        for name in about + [it for it in names_like(self.universe, self.entry) if it not in about]:
            unpacks = [n for n, it in enumerate(self.lane.instructions[:self.place + 1])
                       if it.verb == "unpack" and it.wanted.name == name]
            if unpacks and self.lane.lines[unpacks[-1]][1] is None:
                wanted, known = self.lane.instructions[unpacks[-1]].wanted, self.rows.known[self.number][unpacks[-1]]
                for it in reversed(self.universe.variants[name]):
                    if it in known and wanted.in_relation(it.version):
                        yield unpacks[-1], it

    def is_safe_with(self, pinned, variant):
        """Whether the lane is safe up to and with the instruction, where an unpack is pinned to a version."""
        wanted = Alternative(variant.name)
        wanted.operator, wanted.version = "=", variant.version
        way = Walk(self.rows, self.number)
        try:
            for place, it in enumerate(self.lane.instructions[:self.place + 1]):
                way.take(place, Instruction("unpack", wanted=wanted) if place == pinned else it)
        except Unsafe:
            return False
        return True

    def mending_pin(self):
        """The first pin of some with which the instruction is safe, where an entry is not surely met."""
        for place, it in islice(self.pins(), MOST_PINS) if self.entry else ():
            if self.is_safe_with(place, it):
                yield f"{place_text(self.lane, place + 1)}: unpack {spelled(it)} makes this instruction safe"
                return

    def slot(self, name):
        return self.may.slots.get(name) or MaySlot(ABSENT, set(), set())

    def held(self, name, but_configured=False):
        """What may be held of a name, the lowest first."""
        slot = self.slot(name)
        if but_configured and slot.phase != CONFIGURED:
            return []
        return [it for it in self.universe.variants[name] if it in slot.current]

    def candidates(self):
        """The variants that an unpack may take, the lowest first."""
        return candidates(self.universe, self.rows, self.number, self.place)

    def members(self):
        """What the members may hold, as they are written and the lowest first."""
        return [it for name in self.it.names for it in self.held(name)]

    def names_for(self, entry, is_ahead=False):
        """What may be held of the names that could meet an entry."""
        names = names_like(self.universe, entry)
        for name in names:
            yield slot_line(self.universe, name, self.slot(name), entry, is_ahead)
        if not names:
            yield no_name(self.universe, entry)

    def may_be(self, entry):
        """The data of what may be held of the names that could meet an entry; of a configured one what does not satisfy it."""
        found = [spelled(it) for name in names_like(self.universe, entry) for it in self.held(name)
                 if self.slot(name).phase != CONFIGURED or not it.satisfies(entry)]
        return {"may_be": found} if found else {}

    def unmet(self, variants, fields, is_met, is_ahead=False):
        """The first entry of the variants' fields that is not surely met, with what could satisfy it."""
        found = [(it, field, entry) for it in variants for field in fields for entry in it.relations[field]
                 if not is_met(entry)]
        told = [f"{spelled(it)} {field}: {entry_text(entry)}" for it, field, entry in found]
        self.about, self.entry, self.further = [found[0][0]], found[0][2], told[1:]
        self.facts = entry_facts(*found[0]) | self.may_be(self.entry)
        return [told[0], *self.names_for(self.entry, is_ahead)]

    def is_met(self, entry):
        return is_surely(entry, self.may.configured())

    def excluded(self, one, other, field):
        """How one variant excludes another of another name, by the first entry; nothing where it does not."""
        for entry in one.relations[field]:
            if one.name != other.name and other.satisfies(entry):
                self.about = [one, other]
                self.facts = {"variant": spelled(one), "other": spelled(other)}
                return [f"{spelled(one)} {field}: {entry_text(entry)}", f"{spelled(other)} satisfies it"]
        return []

    def others(self, name, but_configured=False):
        return [it for other in self.universe.variants if other != name for it in self.held(other, but_configured)]

    def x1(self):
        name = self.it.wanted.name
        self.facts = {"package": name}
        sure = [it for it in self.universe.variants[name] if it in self.known]
        if not sure:
            yield f"surely in the archive: no version of {name}"
        for it in self.universe.variants[name]:
            if it in sure:
                yield f"surely in the archive: {spelled(it)}"
                continue
            found = published(self.rows.plan, it)
            if found is None:
                yield f"nobody publishes {spelled(it)}"
                continue
            number, place = found
            lane = self.rows.plan[number]
            if number == self.number:
                yield f"published later: {spelled(it)}, by this lane {behind(lane, place)}"
            else:
                yield f"may be there: {spelled(it)}, which lane {lane.name} publishes {behind(lane, place)}"
        wanted = (it for it in self.universe.variants[name] if self.it.wanted.in_relation(it.version))
        yield from next(filter(None, map(list, map(self.one_by_one, wanted))), [])

    def x2(self):
        if self.it.verb == "unpack":
            name = self.it.wanted.name
            return self.unmet(
                self.candidates(), ["Pre-Depends"], lambda entry: is_surely_pre_met(self.may, entry, name), True)
        return self.unmet(self.members(), ["Pre-Depends"], self.is_met)

    def x3(self):
        for one in self.candidates():
            for other in self.others(one.name):
                found = self.excluded(one, other, "Conflicts") or self.excluded(other, one, "Conflicts")
                if found:
                    self.about = [one, other]
                    self.facts = {"variant": spelled(one), "other": spelled(other)}
                    return found
        return []

    def x4(self):
        pairs = ((one, other) for one in self.candidates() for other in self.others(one.name, True))
        return next(filter(None, (self.excluded(one, other, "Breaks") for one, other in pairs)))

    def x5(self):
        more = self.it.recipe.scratch if self.it.recipe else max(it.size for it in self.candidates())
        self.facts = {"used": self.may.used(), "added": more, "capacity": self.lane.chroot.capacity}
        yield f"in use at most {self.may.used()} KiB, {more} more, capacity {self.lane.chroot.capacity}"
        held = [max(self.held(name), key=lambda it: it.size) for name in self.universe.variants if self.held(name)]
        for it in sorted(held, key=lambda it: -it.size)[:3]:
            if it.size > 0:
                yield f"{spelled(it)} takes {it.size} KiB"

    def x6(self):
        wrong = {"configure": lambda phase: phase in (ABSENT, CONFIGURED), "deconfigure": lambda phase: phase != CONFIGURED,
                 "remove": lambda phase: phase == ABSENT}[self.it.verb]
        name = next(name for name in self.it.names if wrong(self.may.phase(name)))
        self.facts = {"package": name}
        yield slot_line(self.universe, name, self.slot(name))

    def x7(self):
        sets = self.may.configured() + [self.slot(name).current for name in self.it.names]
        return self.unmet(self.members(), ["Depends"], lambda entry: is_surely(entry, sets))

    def x8(self):
        pairs = ((other, one) for one in self.members() for other in self.others(one.name))
        return next(filter(None, (self.excluded(one, other, "Breaks") for one, other in pairs)))

    def x9(self):
        names = self.it.names
        taken = [it for name in names for it in self.held(name, True)]
        left = self.may.configured(names)
        for owner in (it for name in self.universe.variants if name not in names for it in self.held(name, True)):
            for field in ("Depends", "Pre-Depends"):
                for entry in owner.relations[field]:
                    if any(it.satisfies(entry) for it in taken) and not is_surely(entry, left):
                        self.about, self.facts = [owner], entry_facts(owner, field, entry)
                        return [f"{spelled(owner)} {field}: {entry_text(entry)}"]
        return []

    def x10(self):
        for name in self.universe.variants:
            slot = self.slot(name)
            if slot.phase not in (ABSENT, CONFIGURED):
                self.facts = {"package": name}
                return [slot_line(self.universe, name, slot)]
            if any(not self.is_met(entry) for it in self.held(name) for entry in it.needs()):
                break
        return self.unmet(self.others(None), ["Depends", "Pre-Depends"], self.is_met)

    def x11(self):
        unmet = [entry for entry in self.it.recipe.needs if not self.is_met(entry)]
        told = [f"recipe {self.it.recipe.name} Build-Depends: {entry_text(entry)}" for entry in unmet]
        self.entry, self.further = unmet[0], told[1:]
        self.facts = {"recipe": self.it.recipe.name, "field": "Build-Depends", "entry": entry_text(self.entry)}
        self.facts |= self.may_be(self.entry)
        yield told[0]
        yield from self.names_for(self.entry)

    def x12(self):
        for it in self.others(None):
            for entry in self.it.recipe.clashes:
                if it.satisfies(entry):
                    self.about = [it]
                    self.facts = {"recipe": self.it.recipe.name, "variant": spelled(it)}
                    return [
                        f"recipe {self.it.recipe.name} Build-Conflicts: {entry_text(entry)}", f"{spelled(it)} satisfies it"]
        return []

    def x13(self):
        self.facts = {"recipe": self.it.recipe.name}
        yield f"recipe {self.it.recipe.name} is not surely built"
        yield self.builder()

    def builder(self):
        """Where the recipe is built: in one branch ahead, or later, or in another lane."""
        places = [(number, place) for number, lane in enumerate(self.rows.plan)
                  for place, it in enumerate(lane.instructions) if it.verb == "build" and it.recipe is self.it.recipe]
        own = [place for number, place in places if number == self.number]
        if own and own[0] < self.place:
            when = self.lane.place_before_branches(own[0]) + 1
            branch = "first" if own[0] < self.lane.first("else", when) else "second"
            return f"built in the {branch} branch alone of the when at {place_text(self.lane, when)}"
        if own:
            return f"this lane builds it later {behind(self.lane, own[0])}"
        if places:
            lane = self.rows.plan[places[0][0]]
            return f"lane {lane.name} builds it {behind(lane, places[0][1])}"
        return "no lane builds it"

    def x14(self):
        cost = cost_at(self.universe, self.rows, self.number, self.place)
        self.facts = {"spent": self.may.cost, "cost": cost, "budget": self.lane.budget}
        yield f"spent at most {self.may.cost}, {cost} more, budget {self.lane.budget}"
        whole = lane_cost(self.universe, self.rows, self.number)
        if whole is not None:
            self.facts["needs"] = whole
            yield f"this lane needs at most {whole}"

    def x15(self):
        self.about = [next(it for it in self.members() if it.is_essential)]
        self.facts = {"variant": spelled(self.about[0])}
        yield f"{spelled(self.about[0])} is Essential"
