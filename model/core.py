"""Chroots, instructions, steps and runs: RULES, sections 3 to 6."""

ABSENT, UNPACKED, CONFIGURED = "absent", "unpacked", "configured"
TRAPS = {
    "X1": "Missing", "X2": "PreDepends", "X3": "Conflict", "X4": "BreaksOther", "X5": "Full", "X6": "WrongState",
    "X7": "Depends", "X8": "Broken", "X9": "StillNeeded", "X10": "Unsettled", "X11": "BuildDepends",
    "X12": "BuildConflict", "X13": "NotBuilt", "X14": "OverBudget", "X15": "Essential",
}


class Slot:
    """What a chroot holds of a name: a variant and its phase, and the variant that was configured last, or None."""

    def __init__(self, variant, phase, last):
        self.variant, self.phase, self.last = variant, phase, last


class Standing:
    """A lane on its way: its place, outputs made of the next one, chroot, cost spent, recipes built."""

    def __init__(self, lane):
        self.lane, self.done, self.made, self.spent, self.built = lane, 0, 0, 0, set()
        self.slots = {it.name: Slot(it, CONFIGURED, it) for it in lane.chroot.packages}

    def next(self):
        instructions = self.lane.instructions
        return instructions[self.done] if self.done < len(instructions) else None

    def go_to(self, place):
        """Goes on to a place; one at the end of a branch is that behind both branches."""
        self.done = place
        if self.next() is not None and self.next().verb in ("else", "end"):
            self.done = self.lane.first("end", place)

    def used(self):
        return sum(slot.variant.size for slot in self.slots.values())

    def configured(self, without=()):
        slots = self.slots.items()
        return [slot.variant for name, slot in slots if slot.phase == CONFIGURED and name not in without]

    def present(self, without=()):
        return [slot.variant for name, slot in self.slots.items() if name not in without]

    def phase(self, name):
        return self.slots[name].phase if name in self.slots else ABSENT


def is_met(entry, variants):
    return any(variant.satisfies(entry) for variant in variants)


def is_pre_met(standing, entry, name):
    """Policy 7.2: configured, or unpacked with its present and its last configured variant, by one alternative."""
    for other, slot in standing.slots.items():
        for alternative in entry:
            held = [slot.variant] if slot.phase == CONFIGURED else [slot.variant, slot.last]
            if other != name and all(variant is not None and variant.satisfies([alternative]) for variant in held):
                return True
    return False


def pick(archive, wanted):
    """The highest variant of the name in the archive whose version is in the relation, or None."""
    found = [it for it in archive if it.name == wanted.name and wanted.in_relation(it.version)]
    best = None
    for variant in found:
        if best is None or variant.version.compare(best.version) > 0:
            best = variant
    return best


def first_trap(tests):
    return next((trap for trap, holds in tests if holds()), None)


def over_budget(standing, cost):
    return lambda: standing.spent + cost > standing.lane.budget


def unpack_traps(standing, variant, cost):
    name = variant.name
    return [
        ("X14", over_budget(standing, cost)),
        ("X2", lambda: not all(is_pre_met(standing, it, name) for it in variant.relations["Pre-Depends"])),
        ("X3", lambda: any(variant.conflicts(other) for other in standing.present([name]))),
        ("X4", lambda: any(variant.breaks(other) for other in standing.configured([name]))),
        ("X5", lambda: standing.used() + variant.size > standing.lane.chroot.capacity),
    ]


def configure_traps(standing, names):
    def members():
        return [standing.slots[name].variant for name in names]

    def settled():
        return standing.configured() + members()

    return [
        ("X14", over_budget(standing, len(names))),
        ("X6", lambda: any(standing.phase(name) != UNPACKED for name in names)),
        ("X2", lambda: not all(
            is_met(entry, standing.configured()) for it in members() for entry in it.relations["Pre-Depends"])),
        ("X7", lambda: not all(is_met(entry, settled()) for it in members() for entry in it.relations["Depends"])),
        ("X8", lambda: any(
            other.breaks(standing.slots[name].variant) for name in names for other in standing.present([name]))),
    ]


def is_still_needed(standing, names):
    before, after = standing.configured(), standing.configured(names)
    return any(is_met(entry, before) and not is_met(entry, after) for other in after for entry in other.needs())


def deconfigure_traps(standing, names):
    return [
        ("X14", over_budget(standing, len(names))),
        ("X6", lambda: any(standing.phase(name) != CONFIGURED for name in names)),
        ("X9", lambda: is_still_needed(standing, names)),
    ]


def remove_traps(standing, names):
    return [
        ("X14", over_budget(standing, len(names))),
        ("X6", lambda: any(standing.phase(name) == ABSENT for name in names)),
        ("X15", lambda: any(standing.slots[name].variant.is_essential for name in names)),
        ("X9", lambda: is_still_needed(standing, names)),
    ]


def build_traps(standing, recipe):
    def unsettled():
        configured = standing.configured()
        needs = [entry for variant in standing.present() for entry in variant.needs()]
        return len(configured) < len(standing.slots) or not all(is_met(entry, configured) for entry in needs)

    return [
        ("X14", over_budget(standing, recipe.steps)),
        ("X10", unsettled),
        ("X11", lambda: not all(is_met(entry, standing.configured()) for entry in recipe.needs)),
        ("X12", lambda: any(is_met(entry, standing.present()) for entry in recipe.clashes)),
        ("X5", lambda: standing.used() + recipe.scratch > standing.lane.chroot.capacity),
    ]


class Farm:
    """A state: the archive, what was published (lane and variant), and each lane on its way."""

    def __init__(self, universe, plan):
        self.archive, self.published = list(universe.archive), []
        self.lanes = [Standing(lane) for lane in plan]

    def is_blocked(self, standing):
        """Whether a lane has no turn: it is finished, or stands at a wait that no variant lets pass."""
        it = standing.next()
        return it is None or it.verb == "wait" and not is_met(it.entry, self.archive)

    def turn(self, standing):
        """One step of a lane that has a turn; the trap that it meets, if it does."""
        it = standing.next()
        if it.verb == "publish":
            return self.publish(standing, it.recipe)
        if it.verb == "when":
            return self.when(standing, it.wanted)
        trap = getattr(self, it.verb)(standing, it)
        if trap is None:
            standing.go_to(standing.done + 1)
        return trap

    def wait(self, _standing, _it):
        return None

    def when(self, standing, wanted):
        """Goes on in the first branch where the archive has what is wanted, else in the second."""
        place = standing.done + 1
        standing.go_to(place if pick(self.archive, wanted) else standing.lane.first("else", place))
        return None

    def unpack(self, standing, it):
        variant = pick(self.archive, it.wanted)
        if variant is None:
            return "X1"
        cost = 1 + variant.size // 1024
        trap = first_trap(unpack_traps(standing, variant, cost))
        if trap is None:
            last = standing.slots[variant.name].last if variant.name in standing.slots else None
            standing.slots[variant.name] = Slot(variant, UNPACKED, last)
            standing.spent += cost
        return trap

    def configure(self, standing, it):
        trap = first_trap(configure_traps(standing, it.names))
        if trap is None:
            for name in it.names:
                standing.slots[name] = Slot(standing.slots[name].variant, CONFIGURED, standing.slots[name].variant)
            standing.spent += len(it.names)
        return trap

    def deconfigure(self, standing, it):
        trap = first_trap(deconfigure_traps(standing, it.names))
        if trap is None:
            for name in it.names:
                standing.slots[name].phase = UNPACKED
            standing.spent += len(it.names)
        return trap

    def remove(self, standing, it):
        trap = first_trap(remove_traps(standing, it.names))
        if trap is None:
            for name in it.names:
                del standing.slots[name]
            standing.spent += len(it.names)
        return trap

    def build(self, standing, it):
        trap = first_trap(build_traps(standing, it.recipe))
        if trap is None:
            standing.built.add(it.recipe.name)
            standing.spent += it.recipe.steps
        return trap

    def publish(self, standing, recipe):
        if standing.made == 0:
            cost = len(recipe.outputs)
            not_built = ("X13", lambda: recipe.name not in standing.built)
            trap = first_trap([("X14", over_budget(standing, cost)), not_built])
            if trap is not None:
                return trap
            standing.spent += cost
        variant = recipe.outputs[standing.made]
        self.archive.append(variant)
        self.published.append((standing.lane, variant))
        standing.made += 1
        if standing.made == len(recipe.outputs):
            standing.done, standing.made = standing.done + 1, 0
        return None


def trap_text(lane, instruction, trap):
    return f"lane {lane.name} instruction {instruction} {trap} {TRAPS[trap]}"


def state_lines(universe, farm):
    """A state as it is printed (FORMATS, section 13)."""
    written = []
    for serial, (lane, variant) in enumerate(farm.published):
        written.append(f"published {serial} {lane.name} {variant.name} {variant.version.text}")
    for standing in farm.lanes:
        place = f"at {standing.done} spent {standing.spent} used {standing.used()}"
        written.append(f"lane {standing.lane.name} {place}")
        for name in universe.variants:
            if name in standing.slots:
                slot = standing.slots[name]
                written.append(f"  {name} {slot.variant.version.text} {slot.phase}")
    return written


def step(universe, plan, schedule):
    """What the turns of a schedule come to, up to the first trap, and then the state. A turn of a lane that has none,
    or of no lane, changes nothing."""
    farm = Farm(universe, plan)
    head = f"ran {len(schedule)}"
    for event, number in enumerate(schedule, 1):
        if number >= len(farm.lanes) or farm.is_blocked(farm.lanes[number]):
            continue
        standing = farm.lanes[number]
        trap = farm.turn(standing)
        if trap is not None:
            head = f"trap {event} {trap_text(standing.lane, standing.done + 1, trap)}"
            break
    return [head, *state_lines(universe, farm)], head.startswith("ran")
