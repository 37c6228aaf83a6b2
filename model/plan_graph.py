"""The plan as a graph: its builds, and the waits that join them."""

from json_answers import shown


class Node:
    """A build with its publish: the recipe, the lane, and the numbers of the first instruction of each, or None."""

    def __init__(self, lane, recipe):
        self.lane, self.recipe, self.build, self.publish = lane, recipe, None, None


def nodes_of(plan):
    found = {}
    for lane in plan:
        for number, it in enumerate(lane.instructions, 1):
            if it.verb in ("build", "publish"):
                node = found.setdefault((lane.name, it.recipe.name), Node(lane, it.recipe))
                if getattr(node, it.verb) is None:
                    setattr(node, it.verb, number)
    return found


def waits_of(plan):
    """Each wait that an output satisfies, with the publishes of these outputs: a lane, an instruction, nodes."""
    nodes = nodes_of(plan)
    for lane in plan:
        for number, it in enumerate(lane.instructions, 1):
            if it.verb == "wait":
                found = [
                    node for node in nodes.values()
                    if node.publish and any(output.satisfies(it.entry) for output in node.recipe.outputs)]
                yield lane, number, it, found


def next_node(plan, lane, number):
    """The build or publish that a lane comes to behind an instruction: what its wait holds up."""
    nodes = nodes_of(plan)
    for it in lane.instructions[number:]:
        if it.verb in ("build", "publish"):
            return nodes[lane.name, it.recipe.name]
    return None


def quoted(text):
    return '"' + text.replace("\\", "\\\\").replace('"', '\\"') + '"'


def graph_edges(plan, run, stuck):
    """The edges of a plan: from what is published to the build that its wait holds up, with how each is drawn."""
    on_path = {(it.number, it.place) for it in run.path() if it.waited()} if run else set()
    idle = {(it.number, it.place) for it in run.events if it.waited()} if run else set()
    numbers = {lane.name: number for number, lane in enumerate(plan)}
    for lane, number, it, sources in waits_of(plan):
        target = next_node(plan, lane, number)
        for source in sources if target else ():
            at = numbers[lane.name], number - 1
            styles = ["dashed"] if len(sources) > 1 else []
            is_circle = lane.name in stuck and source.lane.name in stuck
            styles += ["bold"] if at in on_path or is_circle else []
            colour = "grey" if run and at not in idle else "black"
            yield source, target, str(it)[len("wait "):], styles, colour


def graph_lines(plan, run, stuck=()):
    """The plan as dot: a box for each build and its publish, in a cluster for each lane, an edge for each wait."""
    nodes = nodes_of(plan)
    bold = {(it.lane.name, it.it.recipe.name) for it in run.path() if it.it.verb == "build"} if run else set()
    yield "digraph plan {"
    yield "  rankdir=LR;"
    yield "  newrank=true;"
    yield "  node [shape=box];"
    for number, lane in enumerate(plan):
        yield f"  subgraph cluster_{number} {{"
        yield f"    label={quoted(lane.name)};"
        before = None
        for (name, recipe), node in nodes.items():
            if name == lane.name:
                style = ", style=bold" if (name, recipe) in bold else ""
                yield f"    {quoted(f'{name} {recipe}')} [label={quoted(recipe)}{style}];"
                if before:
                    yield f"    {quoted(before)} -> {quoted(f'{name} {recipe}')} [color=grey, arrowhead=none];"
                before = f"{name} {recipe}"
        yield "  }"
    for source, target, entry, styles, colour in graph_edges(plan, run, stuck):
        begin, end = (quoted(f"{it.lane.name} {it.recipe.name}") for it in (source, target))
        style = f', style={quoted(",".join(styles))}' if styles else ""
        yield f"  {begin} -> {end} [label={quoted(entry)}, color={colour}{style}];"
    yield "}"


def named(node):
    return {"lane": shown(node.lane.name), "recipe": shown(node.recipe.name)}


def graph_members(plan, run, stuck=()):
    """The same as nodes and edges, for one JSON object."""
    nodes = [
        named(it) | {"build": it.build, "publish": it.publish}
        for it in nodes_of(plan).values()]
    edges = [
        {"from": named(a), "to": named(b), "entry": shown(entry), "bold": "bold" in styles, "alternatives": "dashed" in styles, "idle": colour == "black"}
        for a, b, entry, styles, colour in graph_edges(plan, run, stuck)]
    return {"nodes": nodes, "edges": edges}
