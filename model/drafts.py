"""Plans that are drafted: which lane makes which build, when, and all lines that it takes."""

from draft_farm import DraftFarm, exact_text
from draft_lanes import DraftLane, NoOrder, NoWait, Stays, Stopped
from draft_order import Look, Order, Refused, look
from plans import INSTRUCTIONS, read_plan

TRIES = 20


class Unplaced(Refused):
    """No lane takes a recipe. It may be otherwise once more is built, but for budgets."""

    def __init__(self, recipe, may_pass, lines):
        super().__init__(*lines)
        self.recipe, self.may_pass = recipe, may_pass


class Nothing:
    """What is asked where there is no recipe."""

    needs, clashes = (), ()


class Wish:
    """A lane that is wanted: its name, its base chroot, its budget or None, and its builds in order."""

    def __init__(self, name, chroot, budget, builds):
        self.name, self.chroot, self.budget, self.builds = name, chroot, budget, builds


class Placing:
    """`wishes` are the lanes, `free` the recipes that any of them may build."""

    def __init__(self, farm, wishes, free, order):
        self.farm, self.wishes, self.order = farm, wishes, order
        self.lanes = [DraftLane(farm, wish.chroot) for wish in wishes]
        self.pinned, self.free = [list(wish.builds) for wish in wishes], list(free)
        self.lane_of = {recipe: number for number, wish in enumerate(wishes) for recipe in wish.builds}
        self.number = {recipe: number for number, recipe in enumerate(order.after)}
        self.facts, self.time_of, self.turn, self.behind = {}, {}, {}, {}

    def work(self):
        """List scheduling: of the builds that can begin soonest the one with the most work behind it, in the lane in which
        it ends first. A build is placed behind all that it waits for, so waits are never circular."""
        levels, ends, failed = self.levels(), {}, {}
        while self.free or any(self.pinned):
            heads = self.free + [own[0] for own in self.pinned if own]
            ready = [self.ready(recipe, levels, ends) for recipe in heads if self.may_begin(recipe, ends, failed)]
            if not ready:
                raise min(failed.values(), key=lambda found: self.number[found[1].recipe])[1]
            _, _, _, soonest, recipe = min(ready, key=lambda found: found[:3])
            try:
                ends[recipe] = self.build_somewhere(recipe, soonest)
            except Unplaced as refused:
                if not refused.may_pass:
                    raise
                failed[recipe] = len(ends), refused
                continue
            failed.pop(recipe, None)
            (self.pinned[self.lane_of[recipe]] if recipe in self.lane_of else self.free).remove(recipe)

    def may_begin(self, recipe, ends, failed):
        is_tried = recipe in failed and failed[recipe][0] == len(ends)
        return not is_tried and all(other in ends for other in self.order.after[recipe])

    def lanes_for(self, recipe):
        return [self.lane_of[recipe]] if recipe in self.lane_of else range(len(self.lanes))

    def ready(self, recipe, levels, ends):
        soonest = max((ends[other] for other in self.order.after[recipe]), default=0)
        free = min(self.lanes[number].time for number in self.lanes_for(recipe))
        return max(soonest, free), -levels[recipe], self.number[recipe], soonest, recipe

    def levels(self):
        """For each recipe the cost from its begin to the end of the longest chain of builds behind it."""
        levels, behind = {}, {}
        for recipe in reversed(self.order.after):
            levels[recipe] = self.cost(recipe, {}) + behind.get(recipe, 0)
            for other in self.order.after[recipe]:
                behind[other] = max(behind.get(other, 0), levels[recipe])
        return levels

    def cost(self, recipe, held):
        """About what it costs to install what a recipe needs, to build it and to publish what it gives."""
        wanted = {it.name: it for it in self.order.install[recipe]}
        new = sum(2 + it.size // 1024 for name, it in wanted.items() if held.get(name) is not it)
        return new + sum(name not in wanted for name in held) + recipe.steps + len(recipe.outputs)

    def build_somewhere(self, recipe, soonest):
        """Adds a build to the first lane that takes it; when that ends."""
        first = None
        ends = lambda n: max(self.lanes[n].time, soonest) + self.cost(recipe, self.lanes[n].held)  # noqa: E731
        for number in sorted(self.lanes_for(recipe), key=lambda n: (ends(n), n)):
            try:
                lane = self.installed(recipe, number)
                self.check_budget(recipe, number, lane)
            except Unplaced as refused:
                first = first or refused
                continue
            self.build(recipe, lane)
            self.lanes[number] = lane
            return lane.time
        raise first

    def refusal(self, code, recipe, number, lines, may_pass=True):
        head = f"refused {code} recipe {recipe.name} lane {self.wishes[number].name}"
        return Unplaced(recipe, may_pass, [head, *lines])

    def too_small(self, recipe, number, wanted):
        chroot = self.wishes[number].chroot
        line = f"  nothing is found that fits: the first needs {wanted} KiB, chroot {chroot.name} has {chroot.capacity}"
        return self.refusal(804, recipe, number, [line])

    def kept(self, lane):
        """What a lane keeps if it can: its base packages, at the versions that they have come to, and what is Essential."""
        kept = [lane.held.get(it.name, it) for it in lane.chroot.packages]
        return kept + [it for it in lane.held.values() if it.is_essential and it not in kept]

    def installed(self, recipe, number):
        """The lane with what a recipe needs in its chroot. Where no order of unpacks and configures is found, what was stuck
        is not to be there together, or else something more."""
        lane, more, why = self.lanes[number], [], None
        for _ in range(TRIES):
            last = look(*self.asked(lane, recipe), more)
            if last.found is None:
                raise why or self.nothing(recipe, number, last.gave_up)
            wanted = sum(it.size for it in last.found) + recipe.scratch
            if wanted > lane.chroot.capacity:
                why = why or self.too_small(recipe, number, wanted)
                more.append(self.too_large(last.found, lane.chroot.capacity - recipe.scratch))
                continue
            tried = lane.copy()
            try:
                tried.reach(self.farm.in_order(last.found), self.wait)
                return tried
            except Stopped as stopped:
                tried = self.by_way(lane, last)
                if tried is not None:
                    return tried
                refused, clause = self.learned(recipe, number, stopped)
                why = why or refused
                more.append(clause)
        raise why

    def asked(self, lane, recipe):
        """What is asked of a look in a lane."""
        held = set(lane.held.values())

        def rank(it):
            far = 0 if it in held else 1 if lane.is_sure(it) else 2 + self.turn[it]
            return it not in held and it.is_essential, far

        return self.farm, recipe, self.kept(lane), held, self.farm.initial | set(self.facts), rank

    def by_way(self, lane, last):
        """The lane with what was looked for, to which it comes by way of what helps it there, with that or alone; None where
        it does not."""
        for some in (last.all(), last.helpers) if last.helpers else ():
            way = Look(*self.asked(lane, Nothing), [[(it, True)] for it in some])
            tried = lane.copy()
            try:
                for found in (way.found, last.found) if way.found is not None else ():
                    tried.reach(self.farm.in_order(found), self.wait)
            except Stopped:
                continue
            if way.found is not None:
                return tried
        return None

    def learned(self, recipe, number, stopped):
        """The refusal where a lane does not come to hold a set, and a clause by which another one is looked for."""
        if isinstance(stopped, Stays):
            lines = [f"  no order is found in which {exact_text(stopped.variant)} is removed"]
            return self.refusal(803, recipe, number, lines), [(it, True) for it in self.farm.same_name(stopped.variant)]
        if isinstance(stopped, NoOrder):
            lines = [f"  no order is found in which {exact_text(it)} is installed" for it in stopped.stuck]
            clause = [(it, False) for it in stopped.stuck] + [(it, True) for it in stopped.others]
            return self.refusal(803, recipe, number, lines), clause
        if isinstance(stopped, NoWait):
            lines = [f"  no wait tells for sure that {exact_text(stopped.variant)} is there"]
            return self.refusal(805, recipe, number, lines), [(stopped.variant, False)]
        return self.too_small(recipe, number, stopped.wanted), [(stopped.variant, False)]

    def too_large(self, found, room):
        """A clause that holds of each set that fits: the largest of this one are not there together."""
        clause = []
        for variant in sorted(self.farm.in_order(found), key=lambda it: -it.size):
            if room >= 0:
                clause.append((variant, False))
                room -= variant.size
        return clause

    def nothing(self, recipe, number, gave_up):
        if gave_up:
            return self.refusal(800, recipe, number, ["  the search was given up"])
        return self.refusal(808, recipe, number, ["  what it needs cannot be there with what the lane holds"])

    def check_budget(self, recipe, number, lane):
        """That the lane's budget suffices for a build, where the lane was not named for it."""
        cost, budget = lane.cost + recipe.steps + len(recipe.outputs), self.wishes[number].budget
        if recipe not in self.lane_of and budget is not None and cost > budget:
            raise self.refusal(806, recipe, number, [f"  costs {cost}, budget {budget}"], False)

    def build(self, recipe, lane):
        lane.say(f"build {recipe.name}", recipe.steps)
        lane.say(f"publish {recipe.name}", len(recipe.outputs))
        for number, variant in enumerate(recipe.outputs, 1):
            self.facts[variant] = lane.known | set(recipe.outputs[:number])
            self.time_of[variant], self.turn[variant] = lane.time, len(self.facts) - 1
        lane.known |= set(recipe.outputs)
        lane.ends.append((recipe, lane.cost))
        self.behind[recipe] = lane.cause or lane.built
        lane.cause, lane.built = None, recipe

    def wait(self, lane, lacking):
        """Waits until all is there for sure: first for what is published last, since its lane knew of others."""
        while lacking:
            variant = max(lacking, key=self.turn.get)
            giver = self.farm.giver[variant]
            later = giver.outputs[giver.outputs.index(variant) :]
            sure = next((it for it in later if not any(map(self.may_come, self.farm.twins(it)))), None)
            if sure is None:
                raise NoWait(variant)
            lane.lines.append(f"wait {exact_text(sure)}")
            lane.known |= self.facts[sure]
            if self.time_of[sure] > lane.time:
                lane.time, lane.cause = self.time_of[sure], giver
            lacking = [it for it in lacking if not lane.is_sure(it)]

    def overrun(self):
        """The lines on the first lane that costs more than its budget, and the build that does; nothing where none does."""
        for lane, wish in zip(self.lanes, self.wishes):
            over = [] if wish.budget is None else [it for it, cost in lane.ends if cost > wish.budget]
            if over:
                return [f"refused 806 lane {wish.name}", f"  costs {lane.cost}, budget {wish.budget}"], over[:1]
        return [], []

    def may_come(self, variant):
        return variant in self.farm.initial or self.farm.giver.get(variant) in self.number


def in_order(farm, wishes, free):
    lane_of = {recipe: number for number, wish in enumerate(wishes) for recipe in wish.builds}
    before = {recipe: other for wish in wishes for other, recipe in zip(wish.builds, wish.builds[1:])}

    def bases(recipe):
        some = [wishes[lane_of[recipe]]] if recipe in lane_of else wishes
        return list(dict.fromkeys(tuple(wish.chroot.packages) for wish in some))

    order = Order(farm, [recipe for wish in wishes for recipe in wish.builds] + free, bases, before.get)
    order.work()
    return order


def without(wishes, free, left):
    kept = [Wish(it.name, it.chroot, it.budget, [r for r in it.builds if r not in left]) for it in wishes]
    return kept, [recipe for recipe in free if recipe not in left]


def placed(farm, wishes, free, is_partial):
    """Lanes in which all builds are placed, and the lines on what was left out; Refused."""
    told, gone = [], []
    while True:
        order = in_order(farm, wishes, free)
        stuck = order.stuck()
        if stuck:
            told += order.refusal()
            left = [recipe for recipe in stuck if order.before(recipe) not in stuck]
        else:
            placing = Placing(farm, wishes, free, order)
            try:
                placing.work()
                lines, left = placing.overrun()
                if not left:
                    return placing, told + ([f"left out: {' '.join(it.name for it in gone)}"] if gone else [])
                told += lines
            except Unplaced as refused:
                told, left = told + refused.lines, [refused.recipe]
        if not is_partial:
            raise Refused(*told)
        gone += left
        wishes, free = without(wishes, free, left)


def comments(placing):
    """The number of builds and the makespan, and the critical path."""
    ends = {recipe: placing.time_of[recipe.outputs[-1]] for recipe in placing.behind}
    makespan = max((lane.time for lane in placing.lanes), default=0)
    yield f"# {len(ends)} builds, makespan {makespan}"
    in_lanes = [line.split(" ")[1] for lane in placing.lanes for line in lane.lines if line.startswith("publish ")]
    by_name = {recipe.name: recipe for recipe in ends}
    path, recipe = [], max((by_name[name] for name in in_lanes), key=ends.get, default=None)
    while recipe is not None:
        path.append(recipe.name)
        recipe = placing.behind[recipe]
    if path:
        yield "# critical path: " + " ".join(path[::-1])


def written(placing):
    """The lines of a plan; Refused where there are too many instructions."""
    yield from comments(placing)
    yield "plan 1"
    for lane, wish in zip(placing.lanes, placing.wishes):
        budget = lane.cost if wish.budget is None else wish.budget
        yield f"lane {wish.name} chroot {wish.chroot.name} budget {budget}"
        yield from (f"  {line}" for line in lane.lines)
        yield "end"
    count = sum(len(lane.lines) for lane in placing.lanes)
    if count > INSTRUCTIONS:
        raise Refused("refused 807", f"  the plan has {count} instructions, at most {INSTRUCTIONS}")


def sketch(universe, text):
    """The lanes of a plan, each with the recipes that it builds, a recipe's first build alone; or the first fault. A lane
    without a budget, as `after` writes it, has the one that it costs."""
    seen, wishes = set(), []
    for lane in read_plan(universe, text, is_sketch=True):
        builds = [it.recipe for it in lane.instructions if it.verb == "build"]
        own = [it for it in dict.fromkeys(builds) if it not in seen]
        seen.update(own)
        wishes.append(Wish(lane.name, lane.chroot, lane.budget, own))
    return wishes


def draft(universe, text=None, lanes=0, takes_rest=False, is_partial=False):
    """The lines of a plan by a sketch's text or a number of lanes, and lines on what was left out; Refused, or Fault."""
    chroots = list(universe.chroots.values())
    if not chroots:
        raise Refused("refused 809", "  the farm has no base chroot")
    if text is None:
        wishes = [Wish(f"lane{n + 1}", chroots[n % len(chroots)], None, []) for n in range(lanes)]
    else:
        wishes = sketch(universe, text)
    named = {recipe for wish in wishes for recipe in wish.builds}
    rest = [it for it in universe.recipes.values() if it not in named]
    placing, told = placed(DraftFarm(universe), wishes, rest if takes_rest or text is None else [], is_partial)
    return list(written(placing)), told
