"""Which build of an accepted plan needs which, in its timed run (docs/FORMATS.md, section 19)."""

from fault_notes import shown as escaped
from json_answers import json_line, shown
from plan_graph import quoted
from timeline import TimedRun


class NeedsRun(TimedRun):
    """A timed run with what was in the chroot at the first build of each recipe: the recipes that gave it."""

    def __init__(self, universe, plan):
        self.giver = {output: recipe.name for recipe in universe.recipes.values() for output in recipe.outputs}
        self.taken, self.needs = [{} for _ in plan], {}
        super().__init__(universe, plan)

    def add(self, event):
        super().add(event)
        taken, slots = self.taken[event.number], self.farm.lanes[event.number].slots
        if event.it.verb == "unpack":
            name = event.it.wanted.name
            taken[name] = slots[name].variant
        if event.it.verb == "build" and event.it.recipe.name not in self.needs:
            held = [variant for name, variant in taken.items() if name in slots]
            self.needs[event.it.recipe.name] = {self.giver[it] for it in held if it in self.giver}


def built_names(universe, plan):
    """The recipes that a lane builds, in the order of the farm."""
    built = {it.recipe.name for lane in plan for it in lane.instructions if it.verb == "build"}
    return [name for name in universe.recipes if name in built]


def without_detours(needs):
    """The needs of each, without those that something else that it needs comes after. They are in the order of the run,
    in which what is needed comes first."""
    behind, left = {}, {}
    for name, of in needs.items():
        far = set().union(*(behind[other] for other in of))
        behind[name], left[name] = of | far, of - far
    return left


class Needs:
    """What is drawn: names in the order of the farm, and pairs, of what is needed and what needs it. Of some recipes it is
    these, each need of theirs and each need that they meet."""

    def __init__(self, universe, plan, marked):
        names, needs = built_names(universe, plan), NeedsRun(universe, plan).needs
        self.marked = [it for it in names if it in marked]
        left = needs if marked else without_detours(needs)
        pairs = [(other, name) for name in names for other in names if other in left.get(name, ())]
        self.pairs = [it for it in pairs if not marked or set(it) & set(marked)]
        self.names = [it for it in names if not marked or it in marked or any(it in pair for pair in self.pairs)]

    def lines(self):
        yield "digraph needs {"
        yield "  rankdir=LR;"
        yield "  nodesep=0.1;"
        yield "  ranksep=0.3;"
        yield "  node [shape=box, fontsize=10, height=0.2, margin=0.05];"
        yield "  edge [arrowsize=0.6];"
        for name in self.names:
            yield f"  {quoted(name)}{' [style=bold]' if name in self.marked else ''};"
        for other, name in self.pairs:
            yield f"  {quoted(other)} -> {quoted(name)};"
        yield "}"

    def members(self):
        nodes = [{"marked": name in self.marked, "recipe": shown(name)} for name in self.names]
        return {"nodes": nodes, "edges": [{"from": shown(other), "to": shown(name)} for other, name in self.pairs]}


def needs_answer(universe, plan, marked, is_json):
    """The lines that draw the needs of a plan, or of these recipes of it, and the status."""
    built = built_names(universe, plan)
    other = next((it for it in marked if it not in built), None)
    if other is None:
        drawn = Needs(universe, plan, marked)
        return [json_line(drawn.members())] if is_json else list(drawn.lines()), 0
    if is_json:
        return [json_line({"code": 461, "recipe": shown(other), "verdict": "refused"})], 1
    why = "no lane builds it" if other in universe.recipes else "the farm has no such recipe"
    return [f"refused 461 recipe {escaped(other)}", f"  {why}"], 1
