"""The builds that are chosen for targets, as an explicit wish, and what is told of them."""

from imports import Refused, read_builds, shown
from near_names import near_text
from relations import reduce_field
from stage_builds import Ways
from stage_choice import Build, are_reached, choose, order_of, rounds_of
from stage_obstacles import Obstacles
from universe import MODES

WEIGHTS = {"whole": 1_000, "light": 1_001, "staged": 10_001_000}


class Goal:
    """What the answer must have: a build of a source that is not staged and gives some packages, by number; or a recipe of the
    wish."""

    def __init__(self, source, numbers, own=None):
        self.source, self.numbers, self.own = source, frozenset(numbers), own

    def is_met_by(self, way):
        if self.own is not None:
            return way is self.own
        is_final = way.source.name == self.source and way.kind != "staged" and bool(way.outputs)
        return is_final and self.numbers <= way.outputs


def read_members(wish, target):
    """What targets are made of at the end, and the lines on entries that no package meets."""
    todo = [(None, entry) for entry in reduce_field(wish.targets or [], wish.architectures)]
    seen, found, lines = set(), {}, []
    for who, entry in todo:  # grows while it is gone through
        if shown(entry) in seen:
            continue
        seen.add(shown(entry))
        it = target.best(entry)
        if it is None:
            asked = "" if who is None else f", which {who} needs"
            near = near_text([one.name for one in entry], sorted(target.unread))
            lines.append(f"  no package of the indexes meets {shown(entry)}{asked}{near}")
        elif id(it) not in found:
            found[id(it)] = it
            todo += [(it, other) for other in it.needs()]
    return list(found.values()), lines


class Answer:
    """The choice for a wish. `order` has the builds that are chosen, each behind those that give what it needs."""

    def __init__(self, wish, beginning, target, sources):
        self.wish, self.ways, self.notes = wish, Ways(wish, beginning, target, sources), []
        members, unmet = read_members(wish, target)
        own, refused = read_builds(wish, target, sources)
        is_built = [it for it in members if not (self.ways.mode == "arch" and it.is_for_all)]
        self.members, self.wanted = is_built, {}
        unmet += [self.no_source(it) for it in is_built if self.ways.source_of(it.source) is None]
        if unmet or refused:
            raise Refused(*([f"refused 706 wish line {wish.head_line}", *unmet] if unmet else []), *refused)
        for build in own:
            self.ways.drop(build)
        for build in own:
            self.ways.add_own(build)
        for it in is_built:
            self.wanted.setdefault(it.source, set()).add(self.ways.number_of(it))
        self.ways.grow([number for numbers in self.wanted.values() for number in sorted(numbers)])
        self.forbidden = []
        self.find()
        self.notes += self.unmet_archive(beginning)

    def no_source(self, it):
        return f"  no source in the Sources indexes gives {it}{near_text([it.source], sorted(self.ways.sources.unread))}"

    def unmet_archive(self, beginning):
        for entry in reduce_field(self.wish.archive or [], self.wish.architectures):
            if beginning.best(entry) is None:
                yield f"Archive: {shown(entry)} is met by nothing"

    def forbid(self, name):
        """Chooses again, without a recipe of the answer."""
        way = next((way for way in self.order if way.recipe is None and self.names[way] == name), None)
        if way is None:
            self.notes.append(f"--forbid {name}: no recipe that was chosen has this name")
        else:
            self.forbidden.append(way)
            self.find()

    def find(self):
        """Chooses; with `Finish: all` again, until each source that is staged is also built whole or light."""
        goals = [Goal(name, numbers) for name, numbers in self.wanted.items()]
        goals += [Goal(way.source.name, (), way) for way in self.ways.own]
        while True:
            self.choose(goals)
            done = {way.source.name for way in self.order if way.kind != "staged"}
            staged = sorted({way.source.name for way in self.order if way.kind == "staged"} - done)
            if self.wish.finish != "all" or not staged:
                break
            goals += [Goal(name, ()) for name in staged]
        self.names = names_of(self.order)

    def choose(self, goals):
        ways = self.ways.choosable(self.forbidden)
        builds = [
            Build(way.source.name, way.needs, [*way.gives, *(goal for goal in goals if goal.is_met_by(way))],
                  WEIGHTS[way.kind], way.kind == "staged" and way.recipe is None)
            for way in ways
        ]
        builds.append(Build("", goals, (), 0, False))
        places = choose(builds, len(ways))
        if places is None:
            every = [way for ways in [self.ways.own, *self.ways.of_source.values()] for way in ways]
            fitting = {goal: [way for way in every if goal.is_met_by(way) and way not in self.forbidden] for goal in goals}
            raise Refused(*Obstacles(self.ways, builds, fitting, self.forbidden).lines())
        order = order_of(builds, places)
        assert are_reached(builds, order) and len(order) == len(places)
        self.depth = rounds_of(builds, order[:-1])
        self.order = [ways[place] for place in order[:-1]]
        self.asked = {way for way in self.order if self.is_asked(way)}

    def is_asked(self, way):
        """Whether a build is one that the targets ask for."""
        return way.source.name in self.wanted and Goal(way.source.name, self.wanted[way.source.name]).is_met_by(way)

    def listed(self):
        """The builds in the order of the wish that tells of them: the staged ones first, so that they get the first versions."""
        return sorted(self.order, key=lambda way: way.kind != "staged")

    def wish_text(self):
        """The explicit wish."""
        wish = self.wish
        rows = [f"Architecture-Names: {' '.join(wish.own_names)}", f"Mode: {wish.mode}"]
        rows += [f"Profiles: {' '.join(wish.profiles)}"] if wish.profiles else []
        for way in self.listed():
            rows += ["", f"Recipe: {self.names[way]}", f"Source: {way.source.name} (= {way.source.version.text})"]
            rows += [f"Mode: {way.mode}"] if way.mode != wish.mode else []
            rows += [f"Profiles: {' '.join(way.profiles)}".strip()] if way.profiles or wish.profiles else []
            rows += self.rest_of(way)
        for chroot in wish.chroots:
            packages = ", ".join(map(shown, chroot.packages))
            rows += ["", f"Chroot: {chroot.name}", f"Capacity: {chroot.capacity}", f"Packages: {packages}".strip()]
        return "".join(f"{row}\n" for row in rows)

    def rest_of(self, way):
        """The other fields of a recipe: those that the wish has; of a build that no target asks for only what is not there yet."""
        recipe, numbers = way.recipe, sorted(way.outputs)
        if recipe is not None:
            rows = [] if recipe.steps is None else [f"Steps: {recipe.steps}"]
            rows += [] if recipe.scratch is None else [f"Scratch: {recipe.scratch}"]
            rows += [] if recipe.outputs is None else [f"Outputs: {', '.join(recipe.outputs)}"]
            return rows + ([f"Drops: {' '.join(recipe.drops)}"] if recipe.drops else [])
        lacking = [self.ways.packages[it] for it in numbers if not self.ways.beginning.has(self.ways.packages[it])]
        is_whole = way in self.asked or len(lacking) in (0, len(numbers))
        return [] if is_whole else [f"Outputs: {', '.join(sorted(it.name for it in lacking))}"]

    def table(self):
        """The lines that tell of the choice."""
        edges = self.whole_graph()
        sizes = sorted((len(group) for group in strong_components(edges) if len(group) > 1), reverse=True)
        loops = sum(name in others for name, others in edges.items())
        count = {kind: [way for way in self.order if way.kind == kind] for kind in WEIGHTS}
        final = {way.source.name for way in self.order if way.kind != "staged"}
        again = {way.source.name for way in count["staged"]} & final
        sources = set(self.wanted) | {way.source.name for way in self.ways.own}
        yield f"targets {len(self.wish.targets or [])} packages {len(self.members)} sources {len(sources)}"
        yield f"whole {len(edges)} sources, {len(sizes)} strong components: {' '.join(map(str, sizes)) or 'none'}; {loops} need themselves"
        yield (f"builds {len(self.order)} staged {len(count['staged'])} light {len(count['light'])} "
               f"sources {len({way.source.name for way in self.order})} again {len(again)}")
        yield f"depth {self.depth}"
        for way in self.listed():
            if way.kind != "whole":
                yield f"{way.kind} {way.source.name} <{' '.join(way.profiles)}> drops {', '.join(self.dropped(way)) or 'nothing'}"

    def dropped(self, way):
        """The needs that the profiles of a build take away."""
        base = self.ways.base if way.recipe is None else self.wish.profiles
        for part in MODES[way.mode]:
            for written in way.source.relations["Build-Depends" + part]:
                before = reduce_field([written], self.wish.architectures, base)
                if before and not reduce_field([written], self.wish.architectures, way.profiles):
                    yield shown(before[0])

    def whole_graph(self):
        """From the sources of the targets on, if all were built whole: which source needs packages of which."""
        edges, todo = {}, list(self.wanted)
        for name in todo:  # grows while it is gone through
            if name not in edges:
                whole = self.ways.of_source.get(name, [])[:1]
                edges[name] = {self.ways.packages[it].source for way in whole for it in way.needs}
                todo += sorted(edges[name])
        return edges


def names_of(order):
    """The names of the recipes: that of the source, with `-stage` for a staged build and `-light` for a light one beside a whole
    one; where one is taken, with the next number from 2 on."""
    names = {way: way.recipe.name for way in order if way.recipe is not None}
    whole = {way.source.name for way in order if way.kind == "whole"}
    for way in sorted((way for way in order if way.recipe is None), key=lambda way: way.kind != "staged"):
        is_beside = way.kind == "light" and way.source.name in whole
        stem = way.source.name + ("-stage" if way.kind == "staged" else "-light" if is_beside else "")
        name, number = stem, 1
        while name in names.values():
            number += 1
            name = f"{stem}{number}"
        names[way] = name
    return names


def strong_components(edges):
    """The strong components of a graph: the nodes from which each of the others can be reached."""
    finished, seen = [], set()
    for start in edges:
        walk(start, edges, seen, finished)
    back = {node: [] for node in edges}
    for node, others in edges.items():
        for other in others:
            back[other].append(node)
    groups, seen = [], set()
    for start in reversed(finished):
        groups.append(walk(start, back, seen, []))
    return groups


def walk(start, edges, seen, finished):
    """Adds what is reached of what is not yet seen, each node behind what it leads to."""
    work = [] if start in seen else [(start, iter(edges[start]))]
    seen.add(start)
    while work:
        node, rest = work[-1]
        other = next((it for it in rest if it not in seen), None)
        if other is None:
            finished.append(work.pop()[0])
        else:
            seen.add(other)
            work.append((other, iter(edges[other])))
    return finished
