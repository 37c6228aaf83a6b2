"""What a chroot is to hold for a build: a search that learns from its conflicts. Every variant is a variable, and a literal
is a variant with whether it is there."""


class OutOfFuel(Exception):
    pass


def fuel(farm):
    """After how many conflicts a search gives up."""
    return 2_000 + 20 * len(farm.variants)


class Search:
    """One search. `held` is what the chroot holds, configured; `usable` what may be chosen beside it; a lower `rank` is
    better. What would have served an entry that was looked at, and cannot be had, is `missing`. A loose search asks only for
    what holds at a build, however the chroot has come to it."""

    def __init__(self, farm, held, usable, rank, is_loose=False):
        self.farm, self.held, self.usable, self.rank, self.is_loose = farm, set(held), usable, rank, is_loose
        self.value, self.level, self.reason = {}, {}, {}
        self.trail, self.choices, self.done = [], [], 0
        self.asked = self.scanned = 0
        self.watching, self.added, self.missing = {}, set(), set()
        self.shut, self.broken = set(), None

    def find(self, keep, needs, clashes, more=()):
        """The variants of a settled chroot that meets the needs, or None. What is kept gives way where it must: to another
        version, or, where it is not Essential, to nothing. `more` are further clauses."""
        self.shut = {variant for entry in clashes for variant in self.farm.meets(entry)}
        essential = [self.farm.same_name(it) for it in keep if it.is_essential and not self.may_go(it)]
        clauses = [[(it, True) for it in some if self.is_open(it)] for some in essential]
        clauses += [[(it, True) for it in self.farm.meets(entry) if self.is_open(it)] for entry in needs]
        clauses += [[(it, holds) for it, holds in clause if not holds or self.is_open(it)] for clause in more]
        if not all(self.add(clause) for clause in clauses):
            return None
        left = fuel(self.farm)
        while True:
            conflict = self.propagate()
            if conflict is None:
                chosen = self.choice(keep, needs, more)
                if chosen is None:
                    return [variant for variant, holds in self.trail if holds]
                self.choices.append(len(self.trail))
                self.assign((chosen, True), None)
                continue
            if not self.choices:
                return None
            left -= 1
            if left < 0:
                raise OutOfFuel
            if not self.learn(conflict):
                return None

    def is_open(self, variant):
        """Whether a variant may be there."""
        if variant in self.shut:
            return False
        if self.is_usable(variant):
            return True
        self.missing.add(variant)
        return False

    def is_usable(self, variant):
        return variant in self.usable or variant in self.held

    def may_go(self, variant):
        """Whether an Essential package may leave the chroot: it is not there, or gives way to a version that is not Essential."""
        if variant not in self.held:
            return True
        return self.is_loose and any(not it.is_essential and self.is_usable(it) for it in self.farm.same_name(variant))

    def asked_by(self, variant, entry):
        """Who may serve an entry of a variant: itself its Depends, and its Pre-Depends where it is configured already; in a
        loose search also where another may have served that before. None where it serves it itself."""
        is_before = any(entry is it for it in variant.relations["Pre-Depends"]) and variant not in self.held
        found = self.farm.meets(entry)
        others = [it for it in found if it.name != variant.name] if is_before else found
        if variant in found and (not is_before or self.is_loose and any(map(self.is_usable, others))):
            return None
        return [it for it in others if self.is_open(it)]

    def helpers(self, found):
        """What is there before a set, and need not be in it: others that serve Pre-Depends, and versions that may go."""
        names = {it.name for it in found}
        left = [it for it in self.farm.in_order(self.held) if it.is_essential and it.name not in names]
        some = [[it for it in self.farm.same_name(variant) if not it.is_essential] for variant in left]
        for variant in found:
            for entry in variant.relations["Pre-Depends"] if variant not in self.held else ():
                others = [it for it in self.farm.meets(entry) if it.name != variant.name]
                some += [others] if not any(it in found for it in others) else []
        return [min(filter(self.is_usable, several), key=self.rank) for several in some]

    def holds(self, literal):
        """True, False, or None where it is open."""
        value = self.value.get(literal[0])
        return None if value is None else value == literal[1]

    def assign(self, literal, reason):
        self.value[literal[0]] = literal[1]
        self.level[literal[0]], self.reason[literal[0]] = len(self.choices), reason
        self.trail.append(literal)

    def add(self, clause):
        """A further clause; False where none of its literals can hold any more."""
        clause = sorted(clause, key=lambda it: (0, 0) if self.holds(it) is not False else (1, -self.level[it[0]]))
        self.broken = clause
        for literal in clause[:2] if len(clause) > 1 else ():
            self.watching.setdefault(literal, []).append(clause)
        if not clause or self.holds(clause[0]) is False:
            return False
        if self.holds(clause[0]) is None and all(self.holds(it) is False for it in clause[1:2]):
            self.assign(clause[0], clause)
        return True

    def propagate(self):
        """Draws what follows; gives a clause that does not hold, or None."""
        while self.done < len(self.trail):
            variant, holds = self.trail[self.done]
            self.done += 1
            conflict = self.visit((variant, not holds)) or (self.chosen(variant) if holds else None)
            if conflict is not None:
                return conflict
        return None

    def visit(self, false):
        """Goes through the clauses that watch a literal, which is false now."""
        clauses, self.watching[false] = self.watching.get(false, []), []
        for place, clause in enumerate(clauses):
            if clause[0] == false:
                clause[0], clause[1] = clause[1], clause[0]
            other = next((n for n, it in enumerate(clause) if n > 1 and self.holds(it) is not False), None)
            if self.holds(clause[0]) is not True and other is not None:
                clause[1], clause[other] = clause[other], clause[1]
                self.watching.setdefault(clause[1], []).append(clause)
                continue
            self.watching[false].append(clause)
            if self.holds(clause[0]) is False:
                self.watching[false] += clauses[place + 1 :]
                return clause
            if self.holds(clause[0]) is None:
                self.assign(clause[0], clause)
        return None

    def chosen(self, variant):
        """Draws what the choice of a variant excludes and asks for."""
        others = [it for it in self.farm.same_name(variant) if it is not variant]
        for other in others + self.farm.in_order(self.farm.excludes[variant]):
            clause = [(other, False), (variant, False)]
            if self.value.get(other):
                return clause
            if other not in self.value and self.is_usable(other):
                self.assign(clause[0], clause)
        for entry in variant.needs():
            if id(entry) not in self.added:
                found = self.asked_by(variant, entry)
                if found is None:
                    continue
                self.added.add(id(entry))
                if not self.add([(it, True) for it in found] + [(variant, False)]):
                    return self.broken
        return None

    def choice(self, keep, needs, more):
        """The variant that is chosen next: for what is kept, what is needed, what those that are chosen need, and last for
        a further clause. None where nothing is left."""
        for variant in keep[self.asked :]:
            others = [it for it in self.farm.same_name(variant) if it is not variant and self.is_open(it)]
            own = [variant] if self.is_open(variant) else []
            found = self.best(own + sorted(others, key=self.rank))
            if found is not None:
                return found
            self.asked += 1
        for entry in needs:
            found = self.best(sorted(filter(self.is_open, self.farm.meets(entry)), key=self.rank))
            if found is not None:
                return found
        while self.scanned < len(self.trail):
            variant, holds = self.trail[self.scanned]
            for entry in variant.needs() if holds else ():
                found = self.best(sorted(self.asked_by(variant, entry) or (), key=self.rank))
                if found is not None:
                    return found
            self.scanned += 1
        for clause in more:
            if not any(self.holds(it) for it in clause):
                for variant, holds in clause:
                    if holds and variant not in self.value and self.is_open(variant):
                        return variant
        return None

    def best(self, found):
        """The first that is open, where none is chosen."""
        if any(self.value.get(it) for it in found):
            return None
        return next((it for it in found if it not in self.value), None)

    def learn(self, conflict):
        """Adds a clause that follows from a conflict, by the first unique implication point, and goes back to where that
        says something. False where it cannot hold."""
        here, seen, learned, left = len(self.choices), set(), [], 0
        clause, place = conflict, len(self.trail)
        while True:
            for literal in clause:
                variant = literal[0]
                if variant not in seen and self.level[variant] > 0:
                    seen.add(variant)
                    left += self.level[variant] == here
                    learned += [literal] if self.level[variant] < here else []
            place -= 1
            while self.trail[place][0] not in seen or self.level[self.trail[place][0]] != here:
                place -= 1
            left -= 1
            if left == 0:
                break
            clause = self.reason[self.trail[place][0]]
        point = self.trail[place]
        back = max((self.level[it[0]] for it in learned), default=0)
        kept = self.choices[back]
        for variant, _ in self.trail[kept:]:
            del self.value[variant]
        del self.trail[kept:], self.choices[back:]
        self.done, self.asked, self.scanned = min(self.done, kept), 0, 0
        return self.add([(point[0], not point[1]), *learned])
