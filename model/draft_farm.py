"""What those that look for a plan ask of a universe: who meets an entry, who excludes whom, who gives what."""

from relations import Alternative


class DraftFarm:
    """A universe with look-ups. Variants stand in the order of their names and versions; of an entry those that meet its
    first alternative come first, and of each alternative those of its own name, the highest version first, before those
    that provide it."""

    def __init__(self, universe):
        self.universe = universe
        self.variants = universe.all_variants()
        self.number = {variant: number for number, variant in enumerate(self.variants)}
        self.giver = {variant: recipe for recipe in universe.recipes.values() for variant in recipe.outputs}
        self.initial = set(universe.archive)
        self._providers, self._met = {}, {}
        for variant in self.variants:
            for [item] in variant.relations["Provides"]:
                self._providers.setdefault(item.name, []).append(variant)
        self.conflicts = {variant: set() for variant in self.variants}
        self.breaks = {variant: set() for variant in self.variants}
        for variant in self.variants:
            self._exclude(variant)
        self.excludes = {variant: self.conflicts[variant] | self.breaks[variant] for variant in self.variants}
        for variant in self.variants:
            for other in self.breaks[variant]:
                self.excludes[other].add(variant)

    def _exclude(self, variant):
        for entry in variant.relations["Conflicts"]:
            for other in self.meets(entry):
                if other.name != variant.name:
                    self.conflicts[variant].add(other)
                    self.conflicts[other].add(variant)
        for entry in variant.relations["Breaks"]:
            self.breaks[variant].update(other for other in self.meets(entry) if other.name != variant.name)

    def same_name(self, variant):
        return self.universe.variants[variant.name]

    def satisfying(self, alternative):
        if alternative.qualifier is not None:
            return []
        same = reversed(self.universe.variants.get(alternative.name, []))
        own = [it for it in same if alternative.in_relation(it.version)]
        others = [it for it in self._providers.get(alternative.name, []) if it.provides(alternative)]
        return list(dict.fromkeys(own + others))

    def meets(self, entry):
        if id(entry) not in self._met:
            found = [variant for alternative in entry for variant in self.satisfying(alternative)]
            self._met[id(entry)] = entry, list(dict.fromkeys(found))
        return self._met[id(entry)][1]

    def alike(self, entry):
        """Who is or provides what an entry names, in any version."""
        names = (alternative.name for alternative in entry)
        both = (self.universe.variants.get(name, []) + self._providers.get(name, []) for name in names)
        return list(dict.fromkeys(variant for found in both for variant in found))

    def is_met(self, entry, variants):
        return not variants.isdisjoint(self.meets(entry))

    def twins(self, variant):
        """Who else satisfies `NAME (= VERSION)` of a variant."""
        exact = Alternative(variant.name)
        exact.operator, exact.version = "=", variant.version
        return [other for other in self.satisfying(exact) if other is not variant]

    def in_order(self, variants):
        return sorted(variants, key=self.number.get)


def exact_text(variant):
    return f"{variant.name} (= {variant.version.text})"
