#!/usr/bin/env python3
"""Random chains of runs: a farm is drafted and driven, stops at some place, and goes on by what `after` makes of its journal,
leg by leg to its end. Of each leg its history has to be right, and no recipe may be published twice or built again once its
build has ended.

  model/leg_farms.py FIRST LAST     the farms of these seeds; says what came of them
"""

import random
import sys

from core import pick
from draft_order import Refused as NoDraft
from drafts import draft
from journals import Journal, Life, digest
from legs import Leg, history
from plans import read_plan
from rest_farm import RestFarm
from rest_recipes import Wishes
from statuses import Status
from texts import FILES
from universe import read_universe
from verdict import judge


def relations(draw, names, number, version):
    lines = []
    if number and draw.random() < 0.6:
        found = draw.sample(names[:number], draw.randint(1, min(2, number)))
        lines.append("Depends: " + ", ".join(it + draw.choice(["", "", " (>= 1)", " (<< 3)"]) for it in found))
    if number and version == 2 and draw.random() < 0.1:
        lines.append(f"Pre-Depends: {names[0]}")
    if draw.random() < 0.15:
        lines.append(f"{draw.choice(['Conflicts', 'Breaks'])}: {draw.choice(names)} (<< {draw.choice([1, 2])})")
    return lines


def package(draw, names, number, version):
    size = f"Installed-Size: {draw.choice([0, 10, 3000])}"
    return [f"Package: {names[number]}", f"Version: {version}", size, *relations(draw, names, number, version)]


def some_texts(draw):
    """Packages of which builds give a second version, in two base chroots."""
    names = [f"p{number}" for number in range(draw.randint(4, 9))]
    there = [number for number in range(len(names)) if number == 0 or draw.random() < 0.7]
    packages, sources, recipes = [package(draw, names, it, 1) for it in there], [], []
    left = draw.sample(range(1, len(names)), len(names) - 1)
    while left:
        given = [left.pop() for _ in range(min(len(left), draw.randint(1, 2)))]
        packages += [package(draw, names, it, 2) for it in given]
        needs = [names[it] + draw.choice(["", "", "", " (>= 2)"]) for it in draw.sample(range(len(names)), 2) if it not in given]
        name = f"s{len(sources)}"
        sources.append([f"Package: {name}", "Version: 1", f"Build-Depends: {', '.join(needs[:draw.randint(0, 2)])}"])
        outputs = ", ".join(f"{names[it]} (= 2)" for it in given)
        recipes.append([f"Recipe: {name}", f"Source: {name} (= 1)", f"Steps: {draw.randint(1, 50)}", f"Outputs: {outputs}"])
    head = ["Architecture-Names: riscv64", "Archive: " + ", ".join(f"{names[it]} (= 1)" for it in there)]
    chroots = [["Chroot: base", "Capacity: 99999999", f"Packages: {names[0]} (= 1)"], ["Chroot: empty", "Capacity: 99999999"]]
    blocks = {"packages": packages, "sources": sources, "farm": [head, *recipes, *chroots]}
    return {name: "\n".join("".join(f"{line}\n" for line in block) for block in found) for name, found in blocks.items()}


def with_plan(texts, sketch):
    """The texts with a plan that is drafted, by two lanes or by the sketch of `after`."""
    lines, _ = draft(read_universe(texts), sketch, 0 if sketch else 2, takes_rest=True)
    return texts | {"plan": "".join(f"{line}\n" for line in lines)}


def entries_now(life):
    """The entries that may come next."""
    for name, standing in life.lanes.items():
        if name in life.asked:
            yield f"done {name} {life.asked[name]}"
            yield f"failed {name} {life.asked[name]}"
        elif standing.next() is not None and name not in life.opened:
            yield f"ask {name} 0"
        elif standing.next() is not None:
            while standing.next() is not None and standing.next().verb == "wait" and not life.farm.is_blocked(standing):
                life.farm.turn(standing)
            it, number = standing.next(), standing.done + 1
            if it is not None and it.verb == "unpack":
                held = pick(life.farm.archive, it.wanted)
                yield f"pick {name} {number} {held.name} {held.version.text}"
            elif it is not None and it.verb != "wait":
                yield f"ask {name} {number}"


def some_journal(draw, texts, most):
    """The journal of a drive that stops after so many entries, and the recipes whose builds have ended in it."""
    universe = read_universe(texts)
    life, lines, built = Life(universe, read_plan(universe, texts["plan"])), [], []
    while len(lines) < most:
        found = [it for it in entries_now(life) if not it.startswith("failed ") or draw.random() < 0.1]
        found = [it for it in found if (it.split(" ")[1], int(it.split(" ")[2])) not in life.failed]
        if not found:
            break
        line = draw.choice(found)
        verb, lane, number = line.split(" ")[:3]
        it = life.instruction(lane, int(number)) if int(number) else None
        built += [it.recipe] if verb == "done" and it and it.verb == "build" else []
        assert life.entry(line.split(" ")), line
        lines.append(line)
    head = ["journal 1", *(f"{name} {digest(texts[name])}" for name in FILES), f"run {draw.getrandbits(64):016x}"]
    return "".join(f"{line}\n" for line in [*head, *lines]), built


def chain(seed):
    """The legs of a farm, or None where no plan can be drafted for it."""
    draw = random.Random(seed)
    try:
        texts = with_plan(some_texts(draw), None)
    except NoDraft:
        return None
    wanted, legs, built = len(read_universe(texts).recipes), [], set()
    while True:
        universe = read_universe(texts)
        assert judge(universe, read_plan(universe, texts["plan"]))[1], "not accepted"
        journal, now = some_journal(draw, texts, draw.randint(0, 60) if len(legs) < 8 else 10_000)
        really = {it.name for it in now if it.words[2] != "built"}
        assert not built & really and len(really) + len(built) <= wanted, "built twice"
        built |= really
        legs.append((texts, journal))
        found = Journal(texts, journal)
        life = Life(universe, read_plan(universe, texts["plan"])).follow(found)
        list(Status(found, life).lines())
        told, status = history([Leg(*it) for it in legs])
        assert status == 0, told
        if told[-1] == "finished":
            assert len(built) == wanted and not list(life.built()), "not all is built"
            return legs
        rest = RestFarm(texts, life, found, {}, Wishes())
        assert len(rest.recipes.left) + len(rest.recipes.done) == len(universe.recipes)
        texts = with_plan({name: rest.made[name] for name in FILES[:3]}, rest.made["sketch"])


def main(first, last):
    found = [chain(seed) for seed in range(first, last)]
    legs = [it for it in found if it is not None]
    print(f"{len(legs)} farms, {sum(map(len, legs))} legs to the end, {found.count(None)} farms without a plan")


if __name__ == "__main__":
    main(int(sys.argv[1]), int(sys.argv[2]))
