"""Why a plan is refused, and what the waits of an accepted one wait for: FORMATS, section 15. The kinds of notes are those
of section 17."""

from core import ABSENT, CONFIGURED
from reasons import Reason, behind, entry_text, names_like, no_name, place_text, published, slot_line, spelled, where
from verdict import MaySlot, Unsafe, Walk, find_order, is_surely


class Note:
    """Lines that tell one thing of a plan, with its kind, and what they tell as data, by the names of its members in JSON.
    They are about an instruction of a lane, by its number, or about none; and of one that may trap about that trap."""

    def __init__(self, kind, lines, facts, lane=None, number=None, trap=None):
        self.kind, self.lines, self.facts, self.lane, self.number, self.trap = kind, lines, facts, lane, number, trap


def first_unsafe(rows, number):
    """The first unsafe instruction of a lane, or None; and the lane's way up to it."""
    way = Walk(rows, number)
    for place, it in enumerate(way.lane.instructions):
        try:
            way.take(place, it)
        except Unsafe as unsafe:
            return unsafe, way, place
    return None, way, len(way.lane.instructions)


def parting(universe, first, second):
    """The first name that two branches leave in different phases, and what may be held of it behind each, as lines."""
    for name in universe.variants:
        if first is not None and first.phase(name) != second.phase(name):
            slots = [may.slots.get(name) or MaySlot(ABSENT, set(), set()) for may in (first, second)]
            return {"package": name}, [f"behind the {words} branch {slot_line(universe, name, slot)}"
                                       for words, slot in zip(("first", "second"), slots)]
    return {}, []


def unsafe_note(universe, rows, number):
    """Of a lane its first unsafe instruction: the line of the refusal, its line in the plan and why. None of a safe lane."""
    unsafe, way, place = first_unsafe(rows, number)
    if unsafe is None:
        return None
    if unsafe.trap is None:
        kind, (facts, reasons) = "uneven", parting(universe, way.first, way.may)
    else:
        reason = Reason(universe, rows, number, place, way.may)
        kind, reasons = reason.told(unsafe.trap)
        facts = reason.facts
    lane, head = rows.plan[number], unsafe.text(trapping=401, uneven=403)
    lines = [head, where(lane, unsafe.instruction), *(f"  {line}" for line in reasons)]
    return Note(kind, lines, facts, lane, unsafe.instruction, unsafe.trap)


def unsafe_notes(universe, rows):
    """Those of each lane that has one."""
    return [it for it in (unsafe_note(universe, rows, number) for number in range(len(rows.plan))) if it is not None]


def waiting_place(lane, made):
    """The wait that a lane stands at once so many of its waits and outputs are made, or its end."""
    for place, it in enumerate(lane.instructions):
        if it.verb == "wait":
            if made == 0:
                return place
            made -= 1
        elif it.verb == "publish":
            made -= len(it.recipe.outputs)
    return len(lane.instructions)


# what is said of the lanes of a group, in the order of the groups
GROUPS = {
    "unpublished": "waits for what no lane publishes", "in-circle": "waits in a circle", "behind": "waits for stuck lanes",
}


class Stuck:
    """A plan whose lanes stand where none goes on any more."""

    def __init__(self, universe, plan):
        self.universe, self.plan = universe, plan
        order, _lanes = find_order(universe, plan)
        self.places = [waiting_place(lane, order.count(number)) for number, lane in enumerate(plan)]
        self.lanes = [number for number, lane in enumerate(plan) if self.places[number] < len(lane.instructions)]

    def entry(self, number):
        return self.plan[number].instructions[self.places[number]].entry

    def has_ahead(self, number, entry):
        """Whether a lane publishes what satisfies the entry, where it stands or behind."""
        ahead = self.plan[number].instructions[self.places[number]:]
        return any(it.satisfies(entry) for one in ahead if one.verb == "publish" for it in one.recipe.outputs)

    def waits_for(self, number):
        """The first lane that publishes what a stuck lane waits for, or None."""
        return next((it for it in self.lanes if self.has_ahead(it, self.entry(number))), None)

    def circle(self, number):
        """The lanes from one to itself, or None."""
        found = [number]
        while True:
            further = self.waits_for(found[-1])
            if further == number:
                return found
            if further is None or further in found:
                return None
            found.append(further)

    def group(self, number):
        if self.waits_for(number) is None:
            return "unpublished"
        return "in-circle" if self.circle(number) else "behind"

    def source(self, number, variant):
        """Who publishes a variant that lane `number` waits for."""
        found = published(self.plan, variant)
        if found is None:
            return f"nobody publishes {spelled(variant)}"
        lane = self.plan[found[0]]
        if found[0] == number:
            return f"{spelled(variant)}, which this lane publishes behind it {behind(lane, found[1])}"
        return f"{spelled(variant)}, which lane {lane.name} publishes {behind(lane, found[1])}"

    def sources(self, number):
        """What satisfies the entry of a stuck lane, with who publishes it; or what does not, of the names that could."""
        entry = self.entry(number)
        satisfying = [it for it in self.universe.all_variants() if it.satisfies(entry)]
        if satisfying:
            return [self.source(number, it) for it in satisfying]
        likely = [it for name in names_like(self.universe, entry) for it in self.universe.variants[name]]
        return [f"{spelled(it)} does not satisfy it" for it in likely] or [no_name(self.universe, entry)]

    def note(self, number):
        lane, place, group = self.plan[number], self.places[number], self.group(number)
        head = f"lane {lane.name} instruction {place + 1} {GROUPS[group]}"
        lines = [head, where(lane, place + 1), *(f"  {line}" for line in self.sources(number))]
        other = self.waits_for(number)
        return Note(group, lines, {} if other is None else {"waits_for": self.plan[other].name}, lane, place + 1)


def stuck_notes(universe, plan):
    """Of each lane that is stuck: where, why, and what could let it go on; then one circle of lanes."""
    stuck = Stuck(universe, plan)
    for group in GROUPS:
        for number in stuck.lanes:
            if stuck.group(number) == group:
                yield stuck.note(number)
    circle = next(filter(None, map(stuck.circle, stuck.lanes)), None)
    if circle:
        names = [plan[number].name for number in circle]
        line = ", ".join(f"{one} waits for {other}" for one, other in zip(names, names[1:] + names[:1]))
        yield Note("circle", [line], {"lane": names[0], "lanes": names})


def wait_note(universe, plan, number, place):
    """What a wait waits for, or None where nothing could let it pass."""
    lane, entry = plan[number], plan[number].instructions[place].entry
    satisfying = [it for it in universe.all_variants() if it.satisfies(entry)]
    head = f"lane {lane.name} instruction {place + 1} waits for"
    for it in satisfying:
        if it in universe.archive:
            line = f"{head} nothing: {spelled(it)} is in the archive from the start"
            return Note("wait", [line], {"variant": spelled(it)}, lane, place + 1)
    coming = [(it, published(plan, it)) for it in satisfying]
    coming = [(it, at) for it, at in coming if at is not None and not (at[0] == number and at[1] >= place)]
    if not coming:
        return None
    (first, (other, its_place)), more = coming[0], len(coming) - 1
    line = f"{head} {spelled(first)} of lane {plan[other].name} instruction {its_place + 1}"
    line += f", or {more} more" if more else ""
    return Note("wait", [line], {"variant": spelled(first), "more": more}, lane, place + 1)


def waits_notes(universe, plan):
    """What each wait of an accepted plan waits for, lane by lane and in each lane in order."""
    for number, lane in enumerate(plan):
        for place, it in enumerate(lane.instructions):
            note = wait_note(universe, plan, number, place) if it.verb == "wait" else None
            if note is not None:
                yield note


def left_unmet(universe, may, names):
    """The first unpacked variant outside a set, and its first entry that a member may satisfy and nothing configured
    outside the set surely does, or None."""
    taken = [it for name in names if name in may.slots for it in may.slots[name].current]
    left = may.configured(names)
    for name in universe.variants:
        if name in names or may.phase(name) in (ABSENT, CONFIGURED):
            continue
        for owner in (it for it in universe.variants[name] if it in may.slots[name].current):
            for field in ("Depends", "Pre-Depends"):
                for entry in owner.relations[field]:
                    if any(it.satisfies(entry) for it in taken) and not is_surely(entry, left):
                        return owner, field, entry
    return None


def left_lines(universe, rows):
    """The warnings of each `remove` that may leave an unpacked package with an entry that nothing meets, up to and with
    the instruction at which the walk over its lane ends."""
    for number, lane in enumerate(rows.plan):
        way = Walk(rows, number)
        for place, it in enumerate(lane.instructions):
            found = left_unmet(universe, way.may, it.names) if it.verb == "remove" else None
            if found is not None:
                owner, field, entry = found
                words = f"this may leave {spelled(owner)} unpacked without its {field}: {entry_text(entry)}"
                yield f"warning: {place_text(lane, place + 1)}: {words}"
            try:
                way.take(place, it)
            except Unsafe:
                break
