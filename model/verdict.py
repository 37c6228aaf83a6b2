"""Known rows, may maps, safe instructions, the order and the verdict: RULES, sections 7 to 12."""

from core import ABSENT, CONFIGURED, UNPACKED, first_trap, trap_text


def lets_on(it, variant):
    """Whether a wait passes, or the first branch of a `when` is taken, where the archive has the variant."""
    if it.verb == "when":
        return variant.name == it.wanted.name and it.wanted.in_relation(variant.version)
    return variant.satisfies(it.entry)


class Rows:
    """What may be published and what is known, by place: lane l with its first i instructions done."""

    def __init__(self, universe, plan):
        self.universe, self.plan = universe, plan
        self.initial = set(universe.archive)
        self.outputs = [
            [set(it.recipe.outputs) if it.verb == "publish" else set() for it in lane.instructions] for lane in plan
        ]
        self.known = [[set(universe.all_variants()) for _ in range(len(lane.instructions) + 1)] for lane in plan]

    def may_be_published(self, number, place):
        found = set(self.initial)
        for other, outputs in enumerate(self.outputs):
            found |= set().union(*(outputs if other != number else outputs[:place]))
        return found

    def facts(self, variant):
        """What is in the archive wherever the variant is."""
        for number, lane in enumerate(self.plan):
            for place, it in enumerate(lane.instructions):
                if it.verb == "publish" and variant in it.recipe.outputs:
                    made = it.recipe.outputs[: it.recipe.outputs.index(variant) + 1]
                    return self.known[number][place] | set(made)
        return self.initial

    def gives(self, number, place):
        """What the instruction behind a place gives."""
        it = self.plan[number].instructions[place]
        if it.verb == "publish":
            return set(it.recipe.outputs)
        if it.verb not in ("wait", "when"):
            return set()
        found = self.may_be_published(number, place)
        for variant in list(found):
            if lets_on(it, variant):
                found &= self.facts(variant)
        return found

    def row_after(self, number, place):
        """The most that can be known behind the first `place` instructions under the rows that stand."""
        if place == 0:
            return self.initial
        lane = self.plan[number]
        if lane.instructions[place - 1].verb in ("else", "end"):
            return self.known[number][lane.place_before_branches(place)]
        return self.known[number][place - 1] | self.gives(number, place - 1)

    def make_greatest(self):
        """From rows that hold everything down to the greatest ones that keep the rules."""
        changed = True
        while changed:
            changed = False
            for number, rows in enumerate(self.known):
                for place in range(len(rows)):
                    row = rows[place] & self.row_after(number, place)
                    changed |= row != rows[place]
                    rows[place] = row
        return self


class MaySlot:
    """A phase, the variants that a name may hold, and those that may be its last configured one (empty: none, or not
    known)."""

    def __init__(self, phase, current, last):
        self.phase, self.current, self.last = phase, current, last

    def largest(self):
        return max((variant.size for variant in self.current), default=0)


class MayMap:
    """What a lane's chroot may hold, its greatest cost, and the recipes built."""

    def __init__(self, lane):
        self.lane, self.cost, self.built = lane, 0, set()
        self.slots = {it.name: MaySlot(CONFIGURED, {it}, {it}) for it in lane.chroot.packages}

    def phase(self, name):
        return self.slots[name].phase if name in self.slots else ABSENT

    def configured(self, without=()):
        slots = self.slots.items()
        return [slot.current for name, slot in slots if slot.phase == CONFIGURED and name not in without]

    def others(self, name):
        return [variant for other, slot in self.slots.items() if other != name for variant in slot.current]

    def used(self):
        return sum(slot.largest() for slot in self.slots.values())

    def within(self, cost):
        return lambda: self.cost + cost > self.lane.budget

    def copy(self):
        """The same map, which is changed by itself."""
        found = MayMap(self.lane)
        found.cost, found.built = self.cost, set(self.built)
        found.slots = {name: MaySlot(it.phase, it.current, it.last) for name, it in self.slots.items()}
        return found

    def is_even(self, other):
        """Whether each name has the same phase in both maps."""
        return all(self.phase(name) == other.phase(name) for name in [*self.slots, *other.slots])

    def join(self, other):
        """Takes in what may be at the end of the other branch, where the phases are the same."""
        self.cost = max(self.cost, other.cost)
        self.built &= other.built
        for name, slot in self.slots.items():
            current, last = other.slots[name].current, other.slots[name].last
            slot.current = slot.current | current
            slot.last = slot.last | last if slot.last and last else set()


def is_surely(entry, sets):
    """Whether all of some set satisfies the entry."""
    return any(all(variant.satisfies(entry) for variant in current) for current in sets)


def is_surely_pre_met(may, entry, name):
    slots = [slot for other, slot in may.slots.items() if other != name]
    if is_surely(entry, [slot.current for slot in slots if slot.phase == CONFIGURED]):
        return True
    held = [slot.current | slot.last for slot in slots if slot.phase == UNPACKED and slot.last]
    return any(is_surely([alternative], held) for alternative in entry)


def needs_unmet(may, variants, field, more=()):
    sets = may.configured() + list(more)
    return any(not is_surely(entry, sets) for variant in variants for entry in variant.relations[field])


def unpack_risks(may, it, known, possible):
    wanted = [v for v in possible if v.name == it.wanted.name and it.wanted.in_relation(v.version)]
    sure = [v for v in wanted if v in known]
    may_come = {v for v in wanted if all(v.version.compare(low.version) >= 0 for low in sure)}
    name = it.wanted.name
    largest = max((variant.size for variant in may_come), default=0)
    cost = 1 + largest // 1024
    configured = [v for other in may.configured([name]) for v in other]
    risks = [
        ("X1", lambda: not sure),
        ("X14", may.within(cost)),
        ("X2", lambda: not all(
            is_surely_pre_met(may, entry, name) for v in may_come for entry in v.relations["Pre-Depends"])),
        ("X3", lambda: any(v.conflicts(other) for v in may_come for other in may.others(name))),
        ("X4", lambda: any(v.breaks(other) for v in may_come for other in configured)),
        ("X5", lambda: may.used() + largest > may.lane.chroot.capacity),
    ]

    def effect():
        last = may.slots[name].last if name in may.slots else set()
        may.slots[name] = MaySlot(UNPACKED, may_come, last)

    return risks, cost, effect


def configure_risks(may, it, _known, _possible):
    slots = [may.slots[name] for name in it.names if name in may.slots]
    members = [variant for slot in slots for variant in slot.current]
    risks = [
        ("X14", may.within(len(it.names))),
        ("X6", lambda: any(may.phase(name) != UNPACKED for name in it.names)),
        ("X2", lambda: needs_unmet(may, members, "Pre-Depends")),
        ("X7", lambda: needs_unmet(may, members, "Depends", [slot.current for slot in slots])),
        ("X8", lambda: any(other.breaks(v) for v in members for other in may.others(v.name))),
    ]

    def effect():
        for slot in slots:
            slot.phase, slot.last = CONFIGURED, slot.current

    return risks, len(it.names), effect


def is_needed(may, names):
    taken = [may.slots[name].current for name in names if may.phase(name) == CONFIGURED]
    left = may.configured(names)
    for entry in (entry for current in left for variant in current for entry in variant.needs()):
        if any(variant.satisfies(entry) for current in taken for variant in current) and not is_surely(entry, left):
            return True
    return False


def deconfigure_risks(may, it, _known, _possible):
    risks = [
        ("X14", may.within(len(it.names))),
        ("X6", lambda: any(may.phase(name) != CONFIGURED for name in it.names)),
        ("X9", lambda: is_needed(may, it.names)),
    ]

    def effect():
        for name in it.names:
            may.slots[name].phase = UNPACKED

    return risks, len(it.names), effect


def remove_risks(may, it, _known, _possible):
    risks = [
        ("X14", may.within(len(it.names))),
        ("X6", lambda: any(may.phase(name) == ABSENT for name in it.names)),
        ("X15", lambda: any(variant.is_essential for name in it.names for variant in may.slots[name].current)),
        ("X9", lambda: is_needed(may, it.names)),
    ]

    def effect():
        for name in it.names:
            del may.slots[name]

    return risks, len(it.names), effect


def build_risks(may, it, _known, _possible):
    present = [variant for slot in may.slots.values() for variant in slot.current]
    recipe = it.recipe

    def unsettled():
        if any(slot.phase != CONFIGURED for slot in may.slots.values()):
            return True
        return needs_unmet(may, present, "Pre-Depends") or needs_unmet(may, present, "Depends")

    risks = [
        ("X14", may.within(recipe.steps)),
        ("X10", unsettled),
        ("X11", lambda: any(not is_surely(entry, may.configured()) for entry in recipe.needs)),
        ("X12", lambda: any(variant.satisfies(entry) for entry in recipe.clashes for variant in present)),
        ("X5", lambda: may.used() + recipe.scratch > may.lane.chroot.capacity),
    ]
    return risks, recipe.steps, lambda: may.built.add(recipe.name)


def publish_risks(may, it, _known, _possible):
    cost = len(it.recipe.outputs)
    risks = [("X14", may.within(cost)), ("X13", lambda: it.recipe.name not in may.built)]
    return risks, cost, lambda: None


RISKS = {
    "unpack": unpack_risks, "configure": configure_risks, "deconfigure": deconfigure_risks, "remove": remove_risks,
    "build": build_risks, "publish": publish_risks, "wait": lambda *_: ([], 0, lambda: None),
}


class Unsafe(Exception):
    """An instruction that may trap, with its trap; or a `when` whose branches end in different phases, with none."""

    def __init__(self, lane, instruction, trap=None):
        super().__init__(lane, instruction, trap)
        self.lane, self.instruction, self.trap = lane, instruction, trap

    def text(self, trapping, uneven):
        """The line that tells of it, with the code of its kind."""
        if self.trap is None:
            return f"refused {uneven} lane {self.lane.name} instruction {self.instruction}"
        return f"refused {trapping} {trap_text(self.lane, self.instruction, self.trap)}"


class Walk:
    """The way through a lane, with its may map; in branches also the map ahead of both, and in the second one that at
    the end of the first."""

    def __init__(self, rows, number):
        self.rows, self.number, self.lane = rows, number, rows.plan[number]
        self.may, self.ahead, self.first = MayMap(self.lane), None, None

    def take(self, place, it):
        """Takes the instruction behind a place, if it is safe."""
        if it.verb == "when":
            self.ahead = self.may.copy()
        elif it.verb == "else":
            self.first, self.may = self.may, self.ahead
        elif it.verb == "end":
            if not self.may.is_even(self.first):
                raise Unsafe(self.lane, self.lane.place_before_branches(place) + 1)
            self.may.join(self.first)
        else:
            self.change(place, it)

    def change(self, place, it):
        known, possible = self.rows.known[self.number][place], self.rows.may_be_published(self.number, place)
        risks, cost, effect = RISKS[it.verb](self.may, it, known, possible)
        trap = first_trap(risks)
        if trap is not None:
            raise Unsafe(self.lane, place + 1, trap)
        effect()
        self.may.cost += cost


def walk(rows):
    """The cost of each lane; or raises the first instruction that is not safe."""
    costs = []
    for number, lane in enumerate(rows.plan):
        way = Walk(rows, number)
        for place, it in enumerate(lane.instructions):
            way.take(place, it)
        costs.append(way.may.cost)
    return costs


class Ordering:
    """Lanes by their waits and outputs alone, over an archive that grows."""

    def __init__(self, universe, plan):
        self.archive, self.left = set(universe.archive), []
        for lane in plan:
            items = []
            for it in lane.instructions:
                items += [("wait", it.entry)] if it.verb == "wait" else []
                items += [("output", variant) for variant in it.recipe.outputs] if it.verb == "publish" else []
            self.left.append(items)

    def passes(self, number):
        """Takes the next item of a lane, if it can be taken."""
        if not self.left[number]:
            return False
        kind, what = self.left[number][0]
        if kind == "wait" and not any(variant.satisfies(what) for variant in self.archive):
            return False
        if kind == "output":
            self.archive.add(what)
        del self.left[number][0]
        return True


def find_order(universe, plan):
    """The order, a number of a lane for each wait and output, and the lanes that are stuck."""
    ordering, order, before = Ordering(universe, plan), [], None
    while before != len(order):
        before = len(order)
        for number in range(len(plan)):
            while ordering.passes(number):
                order.append(number)
    return order, [lane for lane, left in zip(plan, ordering.left) if left]


def events(instructions):
    """How many steps they take."""
    return sum(len(it.recipe.outputs) if it.verb == "publish" else 1 for it in instructions)


def count(plan):
    """The greatest number of steps: of the two branches of a `when` the longer one counts."""
    found = 0
    for lane in plan:
        found += events(it for it in lane.instructions if it.verb not in ("else", "end"))
        for number, it in enumerate(lane.instructions, 1):
            if it.verb == "when":
                middle, end = lane.first("else", number), lane.first("end", number)
                found -= min(middle - number - 1, end - middle - 1)
    return found


def judge(universe, plan):
    """The lines of the verdict, and whether it accepts; with it the rows and the order."""
    rows = Rows(universe, plan).make_greatest()
    try:
        costs = walk(rows)
    except Unsafe as unsafe:
        return [unsafe.text(trapping=401, uneven=403)], False, rows, []
    order, stuck = find_order(universe, plan)
    if stuck:
        return ["refused 402 lanes " + " ".join(lane.name for lane in stuck)], False, rows, []
    written = ["accepted", f"lanes {len(plan)}", f"count {count(plan)}"]
    written += [f"lane {lane.name} cost {cost} budget {lane.budget}" for lane, cost in zip(plan, costs)]
    return written, True, rows, order
