"""Which builds can be made, each after which others; and where some cannot, why."""

import heapq
from collections import Counter

from draft_farm import exact_text
from draft_search import OutOfFuel, Search

MOST_CAUSES = 10


class Refused(Exception):
    """The lines of a refusal."""

    def __init__(self, *lines):
        super().__init__(*lines)
        self.lines = list(lines)


class Look:
    """A look for what a chroot is to hold: `found`, or None; what helps it there; what was missing; and whether the search
    gave up. `asked` has the needs and clashes of a recipe."""

    def __init__(self, farm, asked, keep, held, usable, rank, more=(), is_loose=False):
        search = Search(farm, held, usable, rank, is_loose)
        keep = sorted(keep, key=lambda it: not it.is_essential)
        self.found, self.gave_up, self.helpers = None, False, []
        try:
            self.found = search.find(keep, asked.needs, asked.clashes, more)
        except OutOfFuel:
            self.gave_up = True
        self.missing = search.missing
        if self.found is not None:
            self.helpers = search.helpers(self.found)

    def all(self):
        """What is to be there at some time."""
        return self.found + self.helpers


def look(*asked):
    """A look; a loose one where there is no set that a chroot comes to directly."""
    first = Look(*asked)
    return first if first.found is not None else Look(*asked, is_loose=True)


class Order:
    """`wanted` are the recipes; `bases(recipe)` the base chroots over which one may be built, `before(recipe)` the one that
    stands before it in its lane, or None. `after` maps each recipe that is through to those whose outputs are installed for
    it, in an order in which they can be built, and `install` to what its chroot is to hold. Of those that are not through it
    is not known whether they can be built where the search `gave_up`."""

    def __init__(self, farm, wanted, bases, before):
        self.farm, self.wanted, self.bases, self.before = farm, wanted, bases, before
        self.after, self.install, self.gave_up = {}, {}, set()
        self.there, self.turn, self.waiting = set(farm.initial), {}, {}
        self.queue = list(range(len(wanted)))

    def work(self):
        """Tries each recipe, with as few waits as may be; loosely only where nothing else goes on."""
        self.try_queued()
        while self.try_loosely():
            self.try_queued()

    def try_queued(self):
        """Tries each recipe; again once one is built that gives what was missing."""
        while self.queue:
            place = heapq.heappop(self.queue)
            before = self.before(self.wanted[place])
            if before is not None and before not in self.after:
                self.waiting.setdefault(before, set()).add(place)
            else:
                self.find(place)

    def try_loosely(self):
        """Lets the first one through that has a loose set; False where none has."""
        for place, recipe in enumerate(self.wanted):
            before = self.before(recipe)
            if recipe not in self.after and (before is None or before in self.after):
                if self.find(place, is_loose=True):
                    return True
        return False

    def find(self, place, is_loose=False):
        """Looks for a chroot over each base chroot; where there is none, waits for what was missing."""
        recipe, giver, turn = self.wanted[place], self.farm.giver, self.turn
        self.gave_up.discard(recipe)
        for held in self.bases(recipe):
            rank = lambda it, held=held: (it not in held and it.is_essential, turn.get(it, 0))  # noqa: E731
            look = Look(self.farm, recipe, held, held, self.there, rank, is_loose=is_loose)
            if look.found is not None:
                self.gave_up.discard(recipe)
                self.install[recipe] = look.found
                self.after[recipe] = {giver[it] for it in look.all() if it in giver and it not in held}
                self.publish(recipe)
                return True
            if look.gave_up:
                self.gave_up.add(recipe)
            for variant in look.missing:
                if variant in giver:
                    self.waiting.setdefault(giver[variant], set()).add(place)
        return False

    def publish(self, recipe):
        """A recipe is through: what waits for it is tried again."""
        for variant in recipe.outputs:
            self.there.add(variant)
            self.turn[variant] = len(self.after)
        for place in sorted(self.waiting.pop(recipe, ())):
            if place not in self.queue and self.wanted[place] not in self.after:
                heapq.heappush(self.queue, place)

    def stuck(self):
        return [recipe for recipe in self.wanted if recipe not in self.after]

    def refusal(self):
        """The lines for all that is stuck: 800 for each recipe of which it is not known, 801 for each with a need that nothing
        can meet, or else circles."""
        return Reasons(self).lines()


class Reasons:
    """Why recipes are stuck."""

    def __init__(self, order):
        self.order, self.farm, self.stuck = order, order.farm, order.stuck()
        self.every = self.farm.initial | {it for recipe in order.wanted for it in recipe.outputs}
        # of each recipe that nothing can make possible the last entry that is told, where there is one
        self.causes = []

    def lines(self):
        graph, told, lines = {}, [], []
        for recipe in self.stuck:
            graph[recipe], is_known, held = self.found(recipe)
            if not graph[recipe]:
                told.append(recipe)
                lines += self.never(recipe, held) if is_known else self.unknown(recipe)
        if not lines:
            for found in circles(graph):
                told += found
                lines.append("refused 802 recipes " + " ".join(it.name for it in found))
                for recipe, after in zip(found, found[1:] + found[:1]):
                    lines += graph[recipe][after]
        lines += self.sums()
        rest = [recipe.name for recipe in self.stuck if recipe not in told]
        return lines + ([f"  behind these: {' '.join(rest)}"] if rest else [])

    def sums(self):
        """The entries with which the lines of several recipes end, those of most recipes first."""
        counts = Counter(" | ".join(map(str, entry)) for entry in self.causes)
        return [f"  {cause}: {count} recipes" for cause, count in counts.most_common(MOST_CAUSES) if count > 1]

    def found(self, recipe):
        """What a recipe is to be built after, if it could be built were all there; whether that is known; and the base chroot
        that was looked at last."""
        held, is_known = None, recipe not in self.order.gave_up
        for held in self.order.bases(recipe) if is_known else ():
            rank = lambda it, held=held: (it not in held and it.is_essential, self.far(recipe, it))  # noqa: E731
            last = look(self.farm, recipe, held, held, self.every, rank)
            edges = {} if last.found is None else self.edges(recipe, held, last.all())
            if edges:
                return edges, True, held
            is_known = is_known and last.found is None and not last.gave_up
        return {}, is_known, held

    def far(self, recipe, variant):
        """How far a variant is for a recipe: 1 if another recipe has to be built for it, 2 if the recipe itself has."""
        giver = self.farm.giver.get(variant)
        return (giver in self.stuck) + (giver is recipe)

    def unknown(self, recipe):
        return [f"refused 800 recipe {recipe.name}", "  the search was given up"]

    def edges(self, recipe, held, found):
        """The recipes that one is to be built after, and for each of them why."""
        edges = {}
        for variant in found:
            giver = self.farm.giver.get(variant)
            if giver in self.stuck and variant not in held:
                edges.setdefault(giver, self.through(recipe, variant, held, set(found)))
        before = self.order.before(recipe)
        if before in self.stuck:
            edges.setdefault(
                before, [f"  recipe {recipe.name} stands behind recipe {before.name} in its lane"]
            )
        return {giver: edges[giver] for giver in sorted(edges, key=list(self.farm.universe.recipes.values()).index)}

    def need(self, recipe, entry):
        place = next(place for place, it in enumerate(recipe.needs) if it is entry)
        return f"  recipe {recipe.name} {recipe.written[place]}"

    def through(self, recipe, variant, held, found):
        """The need of a recipe for which a variant is installed, and the variant."""
        last = f"    {exact_text(variant)} of recipe {self.farm.giver[variant].name}"
        for entry in recipe.needs:
            todo = [it for it in self.farm.meets(entry) if it in found]
            for it in todo:
                for other in it.needs() if it not in held else ():
                    todo += [at for at in self.farm.meets(other) if at in found and at not in todo]
            if variant in todo:
                return [self.need(recipe, entry), last]
        return [f"  recipe {recipe.name} over its base chroot", last]

    def never(self, recipe, held):
        lines = [f"refused 801 recipe {recipe.name}"]
        if held is None:
            return [*lines, "  the plan has no lane"]
        for entry in recipe.needs:
            if self.is_hopeless(entry, held, recipe.clashes):
                self.causes.append(entry)  # which the chain goes on from
                return [*lines, self.need(recipe, entry), *self.chain(entry, held, set())]
        return [*lines, "  each of its Build-Depends can be met, and not all together"]

    def is_hopeless(self, entry, held, clashes=()):
        try:
            return Search(self.farm, held, self.every, lambda it: 0, is_loose=True).find(held, [entry], clashes) is None
        except OutOfFuel:
            return False

    def chain(self, entry, held, seen):
        """Why an entry cannot be met: who would meet it, and what stands against that, down to what is missing."""
        self.causes[-1] = entry
        if not self.farm.meets(entry):
            alike = self.farm.alike(entry)
            return [f"    {exact_text(it)} does not satisfy it" for it in alike] or [
                "    no package is or provides that"
            ]
        lines = []
        for variant in self.farm.meets(entry):
            if variant in seen:
                continue
            seen.add(variant)
            if variant not in self.every and variant not in held:
                lines.append(f"    {exact_text(variant)} is not in the archive, and no build gives it")
                continue
            for other in variant.needs():
                if self.is_hopeless(other, held):
                    is_before = any(other is it for it in variant.relations["Pre-Depends"])
                    text = " | ".join(map(str, other))
                    lines.append(f"    {exact_text(variant)} {'Pre-' if is_before else ''}Depends: {text}")
                    return lines + self.chain(other, held, seen)
            lines.append(f"    {exact_text(variant)} cannot be there beside what stays in the chroot")
        return lines


def circles(graph):
    """A shortest circle of recipes, each built after the next, the first of these; then the same of the other recipes, until
    they have none."""
    left = dict(graph)
    while (found := circle(left)) is not None:
        yield found
        for recipe in found:
            del left[recipe]


def circle(graph):
    best = None
    for start in graph:
        back, todo = {start: None}, [start]
        for recipe in todo:
            for other in graph[recipe]:
                if other is start:
                    path = [recipe]
                    while back[path[-1]] is not None:
                        path.append(back[path[-1]])
                    best = path[::-1] if best is None or len(path) < len(best) else best
                elif other in graph and other not in back:
                    back[other] = recipe
                    todo.append(other)
    return best
