"""The builds that targets may take: what is there at the beginning, which package meets an entry, and what each build of a source
needs and gives."""

from imports import chosen_source, listed, shown
from indexes import best
from relations import Alternative, reduce_field
from universe import MODES

# the profiles under which what is still given has the same contents (BuildProfileSpec)
SAME_CONTENTS = {"nocheck", "noinsttest", "noudeb"}
KINDS = ["whole", "light", "staged"]
MOST_PROFILES = 6


class Beginning:
    """What is there at the beginning: all of the archive's index, or else what `Archive` and the base chroots take of it and, in
    mode arch, what is for all architectures."""

    def __init__(self, wish, archive, target):
        self.index, self.essential, self.closed = archive, archive.essential, {}
        self.unreadable = [] if archive is target else archive.unreadable
        self.has_all_else = wish.every_build[0] == "arch"
        self.members = None if wish.archive is None else set(map(id, self.closure(wish)))

    def closure(self, wish):
        entries = reduce_field(wish.archive, wish.architectures)
        entries += [[Alternative(name)] for name in sorted(self.essential)]
        entries += [entry for chroot in wish.chroots for entry in reduce_field(chroot.packages, wish.architectures)]
        return closure(entries, self.index.best)

    def versions(self, name):
        found = self.index.versions(name)
        if self.members is None:
            return found
        return [it for it in found if id(it) in self.members or self.has_all_else and it.is_for_all]

    def has(self, it):
        return any(other.version.compare(it.version) == 0 for other in self.versions(it.name))

    def best(self, entry):
        providers = lambda name: [it for one in self.index.provided.get(name, ()) for it in self.versions(one)]  # noqa: E731
        return best(entry, self.versions, providers)

    def is_closed(self, it):
        """Whether a variant that is there can be installed by what is there alone."""
        if id(it) not in self.closed:
            found = [it, *closure(it.needs(), self.best)]
            self.closed[id(it)] = all(self.best(entry) is not None for one in found for entry in one.needs())
        return self.closed[id(it)]


def closure(entries, best_of):
    """The best for some entries, and for what these need."""
    entries, seen, found = list(entries), set(), {}
    for entry in entries:  # grows while it is gone through
        it = None if shown(entry) in seen else best_of(entry)
        seen.add(shown(entry))
        if it is not None and id(it) not in found:
            found[id(it)] = it
            entries += it.needs()
    return list(found.values())


class Need:
    """An entry of a build: its field, the entry as the source has it and what is left of it; `it` meets it, and for that some
    packages are to be given, by number. `unmet` is what nothing meets: None, or what needs it, if not the build, and the entry."""

    def __init__(self, field, written, entry, it, numbers, unmet):
        self.field, self.written, self.entry, self.it, self.numbers, self.unmet = field, written, entry, it, numbers, unmet


class Way:
    """A build of a source. `recipe` is that of the wish, where it is one of its own. `outputs` are the numbers of what it
    gives, and `gives` of these what others may have of it."""

    def __init__(self, source, mode, profiles, kind, recipe=None):
        self.source, self.mode, self.profiles, self.kind, self.recipe = source, mode, profiles, kind, recipe
        self.name = source.name if recipe is None else recipe.name

    def fill(self, rows, outputs, gives):
        self.rows, self.outputs, self.gives = rows, outputs, gives
        self.needs = frozenset().union(*(need.numbers for need in rows))
        return self

    def is_possible(self):
        return bool(self.outputs) and not any(need.unmet for need in self.rows)

    def is_no_worse(self, other):
        is_so = KINDS.index(self.kind) <= KINDS.index(other.kind)
        return is_so and self.needs <= other.needs and self.outputs >= other.outputs


def kind_of(more):
    """The kind of a build that has further profiles."""
    return "whole" if not more else "light" if set(more) <= SAME_CONTENTS else "staged"


def named_profiles(source, mode):
    """The profiles that the build relations and the Package-List of a source name."""
    entries = [entry for part in MODES[mode] for entry in source.relations["Build-Depends" + part]]
    named = {word for entry in entries for it in entry for items in it.profiles for word, _ in items}
    for mark in (source.paragraph.get("Package-List") or "").split():
        if mark.startswith("profile="):
            named |= {term.removeprefix("!") for terms in mark[8:].split(",") for term in terms.split("+")}
    return named


def sets_of(words):
    """The sets of some words, the smaller ones first; of many words each alone and all."""
    if len(words) > MOST_PROFILES:
        return [(), *((word,) for word in words), tuple(words)]
    found = [tuple(word for place, word in enumerate(words) if mask >> place & 1) for mask in range(2 ** len(words))]
    return sorted(found, key=lambda some: (len(some), [words.index(word) for word in some]))


class Ways:
    """All builds that may be chosen for a wish. `packages` are those that have a number."""

    def __init__(self, wish, beginning, target, sources):
        self.wish, self.beginning, self.target, self.sources = wish, beginning, target, sources
        self.mode, self.base = wish.every_build
        self.packages, self.numbers, self.met, self.under = [], {}, {}, {}
        self.grown, self.of_source, self.own, self.dropped, self.notes = {}, {}, [], {}, []

    def number_of(self, it):
        """The number of a package; one of the same name and version has the same."""
        same = self.numbers.setdefault(it.name, [])
        for number in same:
            if self.packages[number].version.compare(it.version) == 0:
                return number
        same.append(len(self.packages))
        self.packages.append(it)
        return same[-1]

    def chosen_for(self, entry):
        """The package that meets an entry: the best of what is there, where that can be installed by what is there alone; else
        the best of the target's index; else the best of what is there."""
        if shown(entry) not in self.met:
            there = self.beginning.best(entry)
            is_closed = there is not None and self.beginning.is_closed(there)
            self.met[shown(entry)] = there if is_closed else self.target.best(entry) or there
        return self.met[shown(entry)]

    def is_there(self, it):
        """Whether a package is there at the beginning, where no recipe of the wish gives it with fewer needs, or none has to."""
        return self.beginning.has(it) and (self.number_of(it) not in self.dropped or self.beginning.is_closed(it))

    def needs_of(self, it):
        """What a package needs: where a recipe of the wish drops some of it, what is left."""
        return it.needs() if self.is_there(it) else self.dropped.get(self.number_of(it), it.needs())

    def below(self, it):
        """What is to be given for a package to be installed, itself too, by number; and what nothing meets: None, or what needs
        it and the entry."""
        if id(it) not in self.under:
            numbers, unmet = set(), None
            found = {id(it): it}
            todo = [it]
            for one in todo:  # grows while it is gone through
                if id(one) in self.under:
                    numbers |= self.under[id(one)][0]
                    unmet = unmet or self.under[id(one)][1]
                    continue
                if not self.is_there(one):
                    numbers.add(self.number_of(one))
                for entry in self.needs_of(one):
                    other = self.chosen_for(entry)
                    if other is None:
                        unmet = unmet or (one, entry)
                    elif id(other) not in found:
                        found[id(other)] = other
                        todo.append(other)
            self.under[id(it)] = frozenset(numbers), unmet
        return self.under[id(it)]

    def source_of(self, name):
        """A source in the version that is built, and its packages in the target's index; None where the indexes lack it."""
        if name not in self.grown:
            fitting = self.sources.versions(name)
            self.grown[name] = chosen_source(fitting, self.target.made(name))[:2] if fitting else None
        return self.grown[name]

    def needs(self, source, mode, profiles):
        """The entries of a build."""
        for part in MODES[mode]:
            for written in source.relations["Build-Depends" + part]:
                for entry in reduce_field([written], self.wish.architectures, profiles):
                    it = self.chosen_for(entry)
                    numbers, unmet = (frozenset(), (None, entry)) if it is None else self.below(it)
                    yield Need("Build-Depends" + part, written, entry, it, numbers, unmet)

    def further_profiles(self, source):
        """Those of the wish's stages that a source names, and for `pkg` all of its own."""
        named = named_profiles(source, self.mode)
        found = [word for word in self.wish.stages if word in named]
        if "pkg" in self.wish.stages:
            found += sorted(word for word in named if word.startswith(f"pkg.{source.name}."))
        found = [word for word in dict.fromkeys(found) if word not in self.base]
        if len(found) > MOST_PROFILES:
            self.notes.append(f"source {source.name} names {len(found)} of the profiles: each alone is tried, and all")
        return found

    def ways_of(self, name):
        """All builds of a source."""
        if self.source_of(name) is None:
            return []
        source, here = self.source_of(name)
        ways = []
        for more in sets_of(self.further_profiles(source)):
            profiles = [*self.base, *more]
            names = listed(source, self.wish.architectures, profiles, self.mode)
            given = [here[it] for it in dict.fromkeys(sorted(here) if names is None else names) if it in here]
            way = Way(source, self.mode, profiles, kind_of(more))
            outputs = frozenset(map(self.number_of, given))
            ways.append(way.fill(list(self.needs(source, self.mode, profiles)), outputs, outputs - set(self.dropped)))
        return ways

    def drop(self, build):
        """What a recipe of the wish gives is had of it alone, where it says that this needs less."""
        for it in {id(it): it for it, _ in build.dropped()}.values():
            self.dropped.setdefault(self.number_of(it), build.needs_of(it))

    def add_own(self, build):
        """The build of a recipe of the wish."""
        recipe = build.wish
        way = Way(build.source, recipe.mode, recipe.profiles, kind_of(set(recipe.profiles) - set(self.wish.profiles)), recipe)
        outputs = frozenset(map(self.number_of, build.outputs))
        self.own.append(way.fill(list(self.needs(build.source, recipe.mode, recipe.profiles)), outputs, outputs))

    def grow(self, numbers):
        """All builds of the sources of some packages, of the wish's recipes, and of what these need."""
        todo = [*numbers, *(it for way in self.own for it in sorted(way.needs))]
        for number in todo:  # grows while it is gone through
            name = self.packages[number].source
            if name not in self.of_source:
                self.of_source[name] = self.ways_of(name)
                todo += [it for way in self.of_source[name] for it in sorted(way.needs)]

    def choosable(self, forbidden):
        """The builds to choose of: each whose needs something meets and that gives something, without those that are forbidden,
        and those for which there is another that is no worse in kind, needs no more and gives no less; by name and kind."""
        found = [way for way in self.own if way.is_possible()]
        for ways in self.of_source.values():
            kept = []
            for way in sorted(ways, key=lambda it: KINDS.index(it.kind)):
                is_allowed = way.is_possible() and way not in forbidden
                if is_allowed and not any(other.is_no_worse(way) for other in kept):
                    kept = [*(other for other in kept if not way.is_no_worse(other)), way]
            found += kept
        return sorted(found, key=lambda it: (it.name, KINDS.index(it.kind)))
