"""A lane that is being written. Each line is made only where RULES, section 5, has no trap for it."""

from draft_farm import exact_text


class Stopped(Exception):
    """Why a chroot does not come to hold what is wanted."""


class NoOrder(Stopped):
    """No order of unpacks and configures was found: `stuck` are not configured, and `others` would serve entries of theirs
    that nothing configured meets."""

    def __init__(self, lane, wanted):
        done = lane.configured()
        self.stuck = [it for it in wanted if it not in done]
        unmet = [entry for it in self.stuck for entry in it.needs() if not lane.farm.is_met(entry, done)]
        self.others = [it for entry in unmet for it in lane.farm.meets(entry) if it not in self.stuck]


class NoWait(Stopped):
    """No wait tells for sure that a variant is there."""

    def __init__(self, variant):
        self.variant = variant


class Stays(Stopped):
    """A variant is Essential, and cannot be removed."""

    def __init__(self, variant):
        self.variant = variant


class Full(Stopped):
    """The chroot would have to hold so many KiB once a variant is unpacked."""

    def __init__(self, wanted, variant):
        self.wanted, self.variant = wanted, variant


class DraftLane:
    """What the chroot holds, what is known of the archive, and the lines. Of a name `held` has the variant, `is_ready`
    whether it is configured, `last` what was configured last."""

    def __init__(self, farm, chroot):
        self.farm, self.chroot = farm, chroot
        self.held = {it.name: it for it in chroot.packages}
        self.is_ready = {it.name: True for it in chroot.packages}
        self.last = dict(self.held)
        self.known, self.lines, self.cost, self.time = set(), [], 0, 0
        self.ends, self.cause, self.built = [], None, None

    def copy(self):
        other = DraftLane(self.farm, self.chroot)
        other.held, other.is_ready, other.last = dict(self.held), dict(self.is_ready), dict(self.last)
        other.known, other.lines, other.ends = set(self.known), list(self.lines), list(self.ends)
        other.cost, other.time, other.cause, other.built = self.cost, self.time, self.cause, self.built
        return other

    def used(self):
        return sum(it.size for it in self.held.values())

    def configured(self):
        return {it for name, it in self.held.items() if self.is_ready[name]}

    def is_sure(self, variant):
        return variant in self.farm.initial or variant in self.known

    def say(self, line, cost):
        self.lines.append(line)
        self.cost += cost
        self.time += cost

    def is_pre_met(self, entry, name):
        for alternative in entry if len(entry) == 1 else ():
            for it in self.farm.satisfying(alternative):
                if it.name != name and self.held.get(it.name) is it and self.last[it.name] in self.farm.meets(entry):
                    return True
        return any(it.name != name and it in self.configured() for it in self.farm.meets(entry))

    def hindering(self, variant):
        """What stands in the way of an unpack: names, or none of them where that is a Pre-Depends. None where nothing is."""
        names = {it.name for it in self.farm.conflicts[variant] if self.held.get(it.name) is it}
        names |= {it.name for it in self.farm.breaks[variant] if it in self.configured()}
        if names:
            return self.names_in_order(names)
        return None if all(self.is_pre_met(entry, variant.name) for entry in variant.relations["Pre-Depends"]) else []

    def names_in_order(self, names):
        return sorted(names, key=lambda name: self.farm.number[self.farm.universe.variants[name][0]])

    def unpack(self, variant):
        self.say(f"unpack {exact_text(variant)}", 1 + variant.size // 1024)
        self.held[variant.name], self.is_ready[variant.name] = variant, False
        self.last.setdefault(variant.name, None)

    def configure(self):
        """Configures all that can be configured together; False where that is nothing."""
        ready = self.configured()
        members = {it for name, it in self.held.items() if not self.is_ready[name]}
        while True:
            bad = {it for it in members if not self.can_configure(it, ready, members)}
            if not bad:
                break
            members -= bad
        if members:
            self.change("configure", {it.name for it in members})
        return bool(members)

    def can_configure(self, variant, ready, members):
        farm = self.farm
        if not all(farm.is_met(entry, ready) for entry in variant.relations["Pre-Depends"]):
            return False
        if not all(farm.is_met(entry, ready | members) for entry in variant.relations["Depends"]):
            return False
        return not any(variant in farm.breaks[it] for it in self.held.values())

    def change(self, verb, names):
        """Configures, deconfigures or removes a set."""
        names = self.names_in_order(names)
        self.say(" ".join([verb, *names]), len(names))
        for name in names:
            if verb == "remove":
                del self.held[name], self.is_ready[name], self.last[name]
                continue
            self.is_ready[name] = verb == "configure"
            if verb == "configure":
                self.last[name] = self.held[name]

    def with_needing(self, names):
        """A set and the configured names that need it, and those that need them."""
        names, ready = set(names), self.configured()
        while True:
            left = {it for it in ready if it.name not in names}
            more = {
                it.name
                for it in left
                if any(not self.farm.is_met(entry, left) and self.farm.is_met(entry, ready) for entry in it.needs())
            }
            if not more:
                return names
            names |= more

    def take_away(self, names):
        """Removes a set; what needs it is deconfigured first."""
        needing = self.with_needing(names) - names
        if needing:
            self.change("deconfigure", self.with_needing(needing))
        self.change("remove", names)

    def reach(self, wanted, waits):
        """Goes from a settled chroot to the settled one that holds exactly these variants. What is there for sure is unpacked
        first; then `waits` is asked for what is not. Stopped where it cannot."""
        names = {it.name for it in wanted}
        for held in self.farm.in_order(self.held.values()):
            if held.is_essential and held.name not in names:
                raise Stays(held)
        gone = self.not_needed(set(self.held) - names)
        if gone:
            self.change("remove", gone)
        clearings = len(wanted) + 1
        while True:
            todo = [it for it in wanted if self.held.get(it.name) is not it]
            if not todo:
                break
            if self.unpack_all(todo, names):
                continue
            unsure = [it for it in todo if not self.is_sure(it)]
            if unsure:
                waits(self, unsure)
            elif not self.configure():
                clearings -= 1
                if clearings < 0 or not self.clear(todo):
                    raise NoOrder(self, wanted)
        self.configure_on()
        rest = set(self.held) - names
        if rest:
            self.take_away(rest)
            self.configure_on()
        if not all(self.is_ready.values()):
            raise NoOrder(self, wanted)

    def configure_on(self):
        while self.configure():
            pass

    def unpack_all(self, todo, names):
        moved = False
        for variant in todo:
            if self.is_sure(variant) and self.hindering(variant) is None:
                wanted = self.used() + variant.size
                if wanted > self.chroot.capacity:
                    if not self.make_room(variant, names):
                        raise Full(wanted, variant)
                    return True
                self.unpack(variant)
                moved = True
        return moved

    def make_room(self, variant, names):
        """Removes what is not wanted, or else the other version of a variant; False where that is nothing."""
        gone = {name for name, it in self.held.items() if name not in names and not it.is_essential}
        old = self.held.get(variant.name)
        if not gone and old is not None and not old.is_essential:
            gone = {variant.name}
        if gone:
            self.take_away(gone)
        return bool(gone)

    def not_needed(self, gone):
        """Those of a set that the others do not need as they are now."""
        staying = [it for name, it in self.held.items() if name not in gone]
        there = set(staying)
        while staying:
            for entry in staying.pop().needs():
                if not self.farm.is_met(entry, there):
                    serving = [it for it in self.farm.meets(entry) if it.name in gone and self.held[it.name] is it]
                    for it in serving[:1]:
                        gone = gone - {it.name}
                        there.add(it)
                        staying.append(it)
        return gone

    def clear(self, todo):
        """Takes one thing out of the way of an unpack; False where there is none."""
        for variant in todo:
            for name in self.hindering(variant) or ():
                held = self.held[name]
                if held not in self.farm.conflicts[variant]:
                    self.change("deconfigure", self.with_needing({name}))
                    return True
                if not held.is_essential:
                    self.take_away({name})
                    return True
        return False
