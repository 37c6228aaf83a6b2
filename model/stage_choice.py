"""Which of some builds to make, over sets alone: a small set of them that leads to an end."""

import heapq

MOST_LANDMARKS = 400


class Build:
    """A build of a source: it can be made once all that it needs is given by builds before it. The fewest dear ones are
    chosen, and of all the least sum of weights."""

    def __init__(self, source, needs, gives, weight, is_dear):
        self.source, self.needs, self.gives = source, frozenset(needs), frozenset(gives)
        self.weight, self.is_dear = weight, is_dear


def askers(builds):
    """Who needs a thing, by that thing."""
    found = {}
    for place, build in enumerate(builds):
        for it in build.needs:
            found.setdefault(it, []).append(place)
    return found


class Making:
    """What is made so far of the builds that are open."""

    def __init__(self, builds, asking):
        self.builds, self.asking = builds, asking
        self.left, self.made, self.given = [len(build.needs) for build in builds], set(), set()

    def copy(self):
        other = Making.__new__(Making)
        other.builds, other.asking = self.builds, self.asking
        other.left, other.made, other.given = list(self.left), set(self.made), set(self.given)
        return other

    def make(self, places, is_open):
        """Makes those of some places that can be, and what is open and can be then."""
        todo = [place for place in places if self.left[place] == 0]
        for place in todo:  # grows while it is gone through
            if place not in self.made:
                self.made.add(place)
                for it in self.builds[place].gives - self.given:
                    self.given.add(it)
                    for other in self.asking.get(it, ()):
                        self.left[other] -= 1
                        if self.left[other] == 0 and other in is_open:
                            todo.append(other)
        return self


def made_of(builds, places):
    """What can be made of these places, one after another."""
    return Making(builds, askers(builds)).make(sorted(places), places)


def order_of(builds, places):
    """Those of some places that can be made, in an order in which they can be: of those that can be next, the first place."""
    asking, left, given = askers(builds), {place: len(builds[place].needs) for place in places}, set()
    ready, order = sorted(place for place in places if left[place] == 0), []
    while ready:
        order.append(heapq.heappop(ready))
        for it in builds[order[-1]].gives - given:
            given.add(it)
            for other in asking.get(it, ()):
                if other in left:
                    left[other] -= 1
                    if left[other] == 0:
                        heapq.heappush(ready, other)
    return order


def rounds_of(builds, order):
    """How many rounds it takes to make all of an order, where all that can be made is made in each."""
    left, given, count = list(order), set(), 0
    while left:
        now = [place for place in left if builds[place].needs <= given]
        left = [place for place in left if place not in now]
        given = given.union(*(builds[place].gives for place in now))
        count += 1
    return count


def are_reached(builds, order):
    """Whether each build of an order needs only what builds before it give."""
    given = set()
    for place in order:
        if not builds[place].needs <= given:
            return False
        given |= builds[place].gives
    return True


class Landmarks:
    """The fewest dear builds. A set of them that does not lead to the end, with all that are not dear, is made as large as it
    can be; of those outside of it one must be chosen, a landmark. A small set that hits all landmarks is the next one to
    begin with."""

    def __init__(self, builds, end):
        self.builds, self.end, self.asking = builds, end, askers(builds)
        self.dear = [place for place, build in enumerate(builds) if build.is_dear]
        self.cheap = set(range(len(builds))) - set(self.dear)
        self.uses = {place: sum(len(self.asking.get(it, ())) for it in builds[place].gives) for place in self.dear}

    def find(self):
        """The dear builds with which the end is reached, or None where too many landmarks do not tell."""
        marks, chosen = [], set()
        while len(marks) < MOST_LANDMARKS:
            mark = self.landmark(chosen, self.order(marks))
            if mark is None:
                return chosen
            marks.append(mark)
            chosen = hitting(marks)
        return None

    def order(self, marks):
        """In which order to try: by turns those first that are in few landmarks, and those that give what many need."""
        if len(marks) % 2:
            return sorted(self.dear, key=lambda it: (-self.uses[it], it))
        return sorted(self.dear, key=lambda it: (sum(it in mark for mark in marks), self.uses[it], it))

    def landmark(self, chosen, order):
        """Those of which one must be chosen beside some, or None where these lead to the end."""
        is_open = self.cheap | chosen
        now = Making(self.builds, self.asking).make(sorted(is_open), is_open)
        if self.end in now.made:
            return None
        outside = set()
        for place in order:
            if place not in is_open:
                is_open.add(place)
                then = now.copy().make([place], is_open) if now.left[place] == 0 else now
                if self.end in then.made:
                    is_open.discard(place)
                    outside.add(place)
                else:
                    now = then
        return outside


def hitting(marks):
    """A small set that has one of each: time and again what is in most of those that are left, then without what is needless."""
    left, chosen = list(marks), set()
    while left:
        count = {}
        for place in (it for mark in left for it in mark):
            count[place] = count.get(place, 0) + 1
        chosen.add(min(count, key=lambda it: (-count[it], it)))
        left = [mark for mark in left if not mark & chosen]
    for place in sorted(chosen):
        if all(mark & (chosen - {place}) for mark in marks):
            chosen.discard(place)
    return chosen


def cheapest(builds, places, end):
    """A set for the end: that of a build is itself and the sets of those that give what it needs, each thing from the first that
    gave it. Of those that can be made the one whose set weighs least is next."""
    asking, left, giver, own, ready = askers(builds), [len(build.needs) for build in builds], {}, {}, []

    def add(place):
        own[place] = {place}.union(*(own[giver[it]] for it in builds[place].needs))
        heapq.heappush(ready, (sum(builds[it].weight for it in own[place]), place))

    for place in sorted(places):
        if left[place] == 0:
            add(place)
    while end not in own:
        _, place = heapq.heappop(ready)
        for it in builds[place].gives:
            if it not in giver:
                giver[it] = place
                for other in asking.get(it, ()):
                    left[other] -= 1
                    if left[other] == 0 and other in places:
                        add(other)
    return own[end]


def cone(builds, places, end):
    """What the end needs of a set, each thing from the first that gives it in the set's order."""
    giver = {}
    for place in order_of(builds, places):
        for it in builds[place].gives:
            giver.setdefault(it, place)
    found, todo = {end}, [end]
    for place in todo:  # grows while it is gone through
        more = {giver[it] for it in builds[place].needs} - found
        found |= more
        todo += more
    return found


def without_needless(builds, places, end):
    """Leaves out what the end does not need: one after another the dear builds, and those of a source that has another, the
    heaviest first and of these the last; and each time what nobody needs then."""
    kept = cone(builds, places, end)
    count = {}
    for place in kept:
        count[builds[place].source] = count.get(builds[place].source, 0) + 1
    for place in sorted(kept, key=lambda it: (-builds[it].weight, -it)):
        is_tried = builds[place].is_dear or count[builds[place].source] > 1
        if is_tried and place in kept and end in made_of(builds, kept - {place}).made:
            kept = cone(builds, kept - {place}, end)
    return kept


def choose(builds, end):
    """The places of a small set that leads to the end, in the order of places, or None where all together do not."""
    every = set(range(len(builds)))
    if end not in made_of(builds, every).made:
        return None
    few = Landmarks(builds, end).find()
    dear = {place for place in every if builds[place].is_dear}
    tried = [every] if few is None else [every - dear | few, every]
    found = [sorted(without_needless(builds, cheapest(builds, places, end), end)) for places in tried]
    return min(found, key=lambda places: (sum(builds[it].weight for it in places), places))
