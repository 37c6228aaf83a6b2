"""Why targets cannot be had: a need that nothing meets, or a circle; and what would break it."""

from imports import shown
from stage_choice import Build, choose, made_of

PRICE = 1_000_000_000_000
MOST_LINES = 10


def spelled(entry):
    """An entry with its restrictions."""
    return " | ".join(map(spelled_alternative, entry))


def spelled_alternative(it):
    text = str(it)
    if it.architectures is not None:
        text += f" [{' '.join('!' * negated + word for word, negated in it.architectures)}]"
    for items in it.profiles:
        text += f" <{' '.join('!' * negated + word for word, negated in items)}>"
    return text


class Obstacles:
    """What keeps the goals from being made. `goals` maps each to the builds that would do; what is asked for is a goal or the
    number of a package."""

    def __init__(self, ways, builds, goals, forbidden):
        self.ways, self.builds, self.goals, self.forbidden = ways, builds, goals, forbidden
        made = made_of(builds, set(range(len(builds))))
        self.there = made.given
        self.edges, self.least, self.hopeless = {}, {}, []
        self.look([goal for goal in goals if goal not in self.there])

    def ways_for(self, asked):
        """The builds that give what is asked for."""
        if asked in self.goals:
            return self.goals[asked]
        name = self.ways.packages[asked].source
        own = [way for way in self.ways.own if way.source.name == name]
        return [way for way in [*own, *self.ways.of_source.get(name, [])] if asked in way.gives and way not in self.forbidden]

    def lacking(self, need):
        return sorted(need.numbers - self.there)

    def lacks(self, way):
        """The needs of a build that are not there."""
        return [need for need in way.rows if need.unmet or self.lacking(need)]

    def is_hopeless(self, need):
        return need.unmet is not None or any(not self.ways_for(number) for number in self.lacking(need))

    def least_way(self, asked):
        """Of the builds for what is asked the one that lacks least."""
        def rank(way):
            needs = self.lacks(way)
            packages = sum(len(self.lacking(need)) for need in needs)
            return sum(map(self.is_hopeless, needs)), len(needs), packages, len(way.profiles)
        return min(self.ways_for(asked), key=rank)

    def look(self, todo):
        """From the goals on, what is asked for and lacks something."""
        for asked in todo:  # grows while it is gone through
            if asked in self.edges:
                continue
            self.edges[asked] = {}
            if not self.ways_for(asked):
                continue
            way = self.least[asked] = self.least_way(asked)
            for need in self.lacks(way):
                for number in self.lacking(need):
                    if self.ways_for(number):
                        self.edges[asked].setdefault(number, need)
                        todo.append(number)

    def lines(self):
        found = list(self.hopeless_lines())
        return found or [*self.circle_lines(), *self.droppable_lines(), *self.before_lines()]

    def hopeless_lines(self):
        """708, for each source that has it."""
        told = set()
        for asked in self.edges:
            way = self.least.get(asked)
            name = asked.source if way is None else way.source.name
            first = None if way is None else next(filter(self.is_hopeless, self.lacks(way)), None)
            if name not in told and (way is None or first is not None):
                told.add(name)
                yield f"refused 708 source {name}"
                yield from [self.no_final_line(asked)] if way is None else self.why(way, first)

    def no_final_line(self, goal):
        """Of a source that no build gives all of that targets ask for, the first package that such a build does not give."""
        finals = [way for way in self.ways.of_source[goal.source] if way.kind != "staged"]
        number = next((it for it in sorted(goal.numbers) if not any(it in way.outputs for way in finals)), None)
        what = "all that is asked for" if number is None else self.ways.packages[number]
        return f"  no build that is whole or light gives {what}"

    def why(self, way, need):
        """The lines on a need that nothing meets."""
        if need.unmet and need.unmet[0] is None:
            yield f"{told_need(way, need)} is met by nothing"
        elif need.unmet:
            yield told_need(way, need)
            yield f"    {need.unmet[0]} Depends: {shown(need.unmet[1])} is met by nothing"
        else:
            number = next(number for number in self.lacking(need) if not self.ways_for(number))
            yield told_need(way, need)
            yield f"    {self.ways.packages[number]} is given by no build of source {self.ways.packages[number].source}"

    def circle_lines(self):
        circle = shortest_circle(self.edges, lambda asked: self.least[asked].source.name)
        yield f"refused 709 sources {' '.join(self.least[asked].source.name for asked in circle)}"
        for asked, after in zip(circle, circle[1:] + circle[:1]):
            yield told_need(self.least[asked], self.edges[asked][after])
            yield f"    {self.ways.packages[after]} of source {self.ways.packages[after].source}"

    def chosen_with(self, more):
        """Of further builds, each with what it stands for, those that would do; None where all would not. They are the dear ones."""
        every = [Build(it.source, it.needs, it.gives, it.weight, False) for it in self.builds]
        end = len(every) - 1
        places = choose(every[:end] + [build for build, _ in more] + every[end:], end + len(more))
        return None if places is None else [more[place - end][1] for place in places if end <= place < end + len(more)]

    def droppable(self):
        """Needs that would suffice if a profile dropped them, each with its build: all that a build lacks, and then without
        those that need not be dropped."""
        more = []
        for way in [*(it for ways in self.ways.of_source.values() for it in ways)]:
            needs = self.lacks(way)
            if needs and way.gives and way not in self.forbidden:
                more.append((self.build_without(way, needs), (way, needs)))
        found = self.chosen_with(more)
        if found is None:
            return None
        for place, (way, needs) in enumerate(found):
            for need in needs:
                rest = [it for it in found[place][1] if it is not need]
                tried = found[:place] + [(way, rest)] + found[place + 1 :]
                found = tried if not need.unmet and self.suffice(tried) else found
        found.sort(key=lambda pair: (len(pair[1]), pair[0].source.name))
        return [(way, need) for way, needs in found for need in needs]

    def build_without(self, way, dropped):
        needs = frozenset().union(*(need.numbers for need in way.rows if need not in dropped))
        return Build(way.source.name, needs, way.gives, PRICE * len(dropped), True)

    def suffice(self, more):
        builds = [*(self.build_without(way, needs) for way, needs in more), *self.builds]
        return len(builds) - 1 in made_of(builds, set(range(len(builds)))).made

    def droppable_lines(self):
        found = self.droppable()
        if found:
            yield f"  droppable by a profile {'this' if len(found) == 1 else f'these {len(found)}'} would suffice:"
            yield from (f"  {told_need(way, need, False)}" for way, need in found[:MOST_LINES])
            if len(found) > MOST_LINES:
                yield f"    and {len(found) - MOST_LINES} more"

    def before(self):
        """Sources that would suffice if their packages were there at the beginning."""
        more = [
            (Build(name, (), ways[0].gives, PRICE, True), name) for name, ways in sorted(self.ways.of_source.items())
            if ways and ways[0].gives - self.there
        ]
        return self.chosen_with(more)

    def before_lines(self):
        names = self.before()
        if names:
            which = "this source" if len(names) == 1 else f"these {len(names)} sources"
            yield f"  or with {which} built before: {' '.join(names)}"


def told_need(way, need, has_profiles=True):
    """A need of a build as the source writes it."""
    profiles = f" <{' '.join(way.profiles)}>" if has_profiles and way.profiles and way.recipe is None else ""
    who = f"source {way.name}" if way.recipe is None else f"recipe {way.name}"
    return f"  {who}{profiles} {need.field}: {spelled(need.written)}"


def shortest_circle(edges, name_of):
    """A shortest circle, begun at its first name; of equal ones the first by names."""
    found = []
    for start in edges:
        back, todo = {start: None}, [start]
        for asked in todo:  # grows while it is gone through
            if start in edges[asked]:
                path = [asked]
                while back[path[-1]] is not None:
                    path.append(back[path[-1]])
                found.append(path[::-1])
                break
            for other in edges[asked]:
                if other not in back:
                    back[other] = asked
                    todo.append(other)
    turned = [circle[place:] + circle[:place] for circle in found for place in range(len(circle))]
    return min(turned, key=lambda circle: (len(circle), list(map(name_of, circle))))
