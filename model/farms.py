"""Random farms: four texts, a schedule and changes of a certificate, the same for the same seed.

A plan is drawn turn by turn over a state of the farm, mostly of instructions that meet no trap there, so that many
plans are accepted. Some texts are then changed by a line or a byte, so that refusals of every kind come too. Plans have
branches where that is asked for; a seed then stands for another farm.
"""

import random

from certificates import certificate
from core import UNPACKED, Farm, Slot, Standing
from plans import NOT_IN_BRANCHES, Lane, read_plan
from texts import FILES, Fault
from universe import read_universe
from verdict import Rows, find_order

VERSIONS = ["0.9", "1", "1.0-0", "1.5~rc1", "1.5", "2-1", "2-1.1", "1:0", "0:3", "14-1~stage1"]
NAMES = ["aa", "bb", "cc", "dd", "libc6", "g++", "w.w"]
OPERATORS = ["<<", "<=", "=", ">=", ">>"]
SIZES = [0, 1, 1023, 1024, 3000]


class Draw(random.Random):
    def often(self, chance):
        return self.random() < chance

    def some(self, items, most):
        return self.sample(items, min(len(items), self.randint(0, most)))


def relation(draw, operators=OPERATORS):
    return f" ({draw.choice(operators)} {draw.choice(VERSIONS)})"


def alternative(draw, names):
    qualifier = draw.choice(["", "", "", "", "", ":any", ":native", ":odd"])
    return draw.choice(names) + qualifier + (relation(draw) if draw.often(0.5) else "")


def entries(draw, names, most, several=3):
    found = []
    for _ in range(draw.randint(0, most)):
        found.append(" | ".join(alternative(draw, names) for _ in range(draw.randint(1, several))))
    return ", ".join(found)


def restricted(draw, entry):
    lists = ["", "", " [riscv64]", " [!riscv64]", " <stage1>", " <!stage1>", " [any] <stage1 !nodoc> <cross>"]
    return entry + draw.choice(lists)


def fields(pairs):
    return "".join(f"{name}: {value}\n" for name, value in pairs if value)


def package(draw, name, version, names, pre_depends):
    virtual = [*names, "vv"]
    provides = [it + (relation(draw, ["="]) if draw.often(0.5) else "") for it in draw.some(virtual, 2)]
    few = draw.often(0.5)
    return fields([
        ("Package", name),
        ("Version", version),
        ("Installed-Size", draw.choice(["", *map(str, SIZES)])),
        ("Essential", draw.choice(["", "", "", "", "no", "yes"])),
        ("Pre-Depends", entries(draw, virtual, 1) if draw.often(pre_depends) else ""),
        ("Depends", entries(draw, virtual, 2) if few else ""),
        ("Conflicts", entries(draw, virtual, 1, 1) if draw.often(0.2) else ""),
        ("Breaks", entries(draw, virtual, 2, 1) if draw.often(0.3) else ""),
        ("Provides", ", ".join(provides) if draw.often(0.4) else ""),
    ])


def spelled(variants):
    return ", ".join(f"{name} (= {version})" for name, version in variants)


def farm_text(draw, variants, sources):
    """The head, recipes and base chroots of a farm over these variants and sources."""
    left = list(variants)
    draw.shuffle(left)
    recipes = []
    for number in range(draw.randint(0, min(3, len(left)))):
        outputs = [left.pop() for _ in range(min(len(left), draw.choice([1, 1, 2, 3])))]
        if outputs:
            recipes.append(fields([
                ("Recipe", f"r{number}"),
                ("Source", f"{draw.choice(sources)} (= 1)"),
                ("Mode", draw.choice(["", "full", "arch", "indep"])),
                ("Profiles", draw.choice(["", "stage1", "stage1 nodoc"])),
                ("Steps", str(draw.randint(0, 40))),
                ("Scratch", draw.choice(["", "100", "1000"])),
                ("Outputs", spelled(outputs)),
            ]))
    chroots = []
    for number in range(draw.randint(1, 2)):
        held = draw.some(left, 2) if draw.often(0.25) else []
        capacity = str(draw.choice([2048, 4096, 8192, 100000]))
        chroots.append(fields([("Chroot", f"c{number}"), ("Capacity", capacity), ("Packages", spelled(held))]))
    head = fields([("Architecture-Names", "riscv64 any linux-any"), ("Archive", spelled(left))])
    return "\n".join([head, *recipes, *chroots])


def universe_texts(draw, pre_depends):
    names = draw.sample(NAMES, draw.randint(1, 5))
    variants = [(name, version) for name in names for version in draw.sample(VERSIONS, draw.choice([1, 1, 2, 3]))]
    draw.shuffle(variants)
    sources = [f"src{number}" for number in range(draw.randint(1, 2))]
    build = [entries(draw, [*names, "vv"], 2) for _ in sources]
    listed = variants + ([draw.choice(variants)] if draw.often(0.02) else [])
    packages = "\n".join(package(draw, name, version, names, pre_depends) for name, version in listed)
    described = [
        fields([
            ("Package", source),
            ("Version", "1"),
            ("Build-Depends", ", ".join(restricted(draw, it) for it in needs.split(", ")) if needs else ""),
            ("Build-Depends-Arch", entries(draw, names, 1) if draw.often(0.2) else ""),
            ("Build-Depends-Indep", entries(draw, names, 1) if draw.often(0.2) else ""),
            ("Build-Conflicts", entries(draw, names, 1, 1) if draw.often(0.5) else ""),
        ])
        for source, needs in zip(sources, build)
    ]
    return {"packages": packages, "sources": "\n".join(described), "farm": farm_text(draw, variants, sources)}


def random_line(draw, universe, standing):
    """The text of an instruction, of those that come to mind in this chroot."""
    names, present = list(universe.variants), list(standing.slots)
    verbs = ["unpack"] * 4 + ["configure"] * 4 + ["wait", "deconfigure", "remove", "remove"]
    verbs += ["build", "publish"] * 2 if universe.recipes else []
    verb = draw.choice(verbs)
    if verb == "unpack":
        return f"unpack {draw.choice(names)}" + (relation(draw) if draw.often(0.5) else "")
    if verb == "wait":
        return "wait " + " | ".join(alternative(draw, names) for _ in range(draw.choice([1, 1, 2])))
    if verb in ("build", "publish"):
        return f"{verb} {draw.choice(list(universe.recipes))}"
    wanted = "unpacked" if verb == "configure" else "configured"
    fitting = [name for name in present if standing.slots[name].phase == wanted] or present or names
    return " ".join([verb, *draw.sample(fitting, draw.randint(1, min(2, len(fitting))))])


def read_lines(universe, standing, lines):
    """The instructions of lines, as if they stood alone in a lane with this chroot."""
    written = ["plan 1", f"lane a chroot {standing.lane.chroot.name} budget 1", *lines, "end"]
    [lane] = read_plan(universe, "\n".join(written))
    return lane.instructions


def is_good(universe, farm, standing, line, published):
    """Whether the instruction of a line can be read, has not been published, and meets no trap where the lane stands."""
    try:
        [it] = read_lines(universe, standing, [line])
    except Fault:
        return None
    if it.verb == "publish" and it.recipe in published:
        return None
    standing.lane.instructions.append(it)
    trapped = not farm.is_blocked(standing) and Trial(farm, standing).trap() is not None
    blocked = farm.is_blocked(standing)
    standing.lane.instructions.pop()
    return None if trapped or blocked else it


class Trial:
    """A turn of a lane that leaves no trace."""

    def __init__(self, farm, standing):
        self.farm, self.standing = farm, standing

    def trap(self):
        farm, standing = self.farm, self.standing
        kept = (list(farm.archive), list(farm.published), standing.done, standing.made, standing.spent,
                set(standing.built), {name: (it.variant, it.phase, it.last) for name, it in standing.slots.items()})
        trap = farm.turn(standing)
        farm.archive, farm.published, standing.done, standing.made, standing.spent, standing.built, slots = kept
        kind = type(next(iter(standing.slots.values()))) if standing.slots else None
        if kind:
            standing.slots = {name: kind(*it) for name, it in slots.items()}
        return trap


def copied(standing):
    """The same lane at the same place, which goes on by itself."""
    lane = Lane(standing.lane.name, standing.lane.chroot, standing.lane.budget)
    lane.instructions = list(standing.lane.instructions)
    copy = Standing(lane)
    copy.done, copy.spent, copy.built = standing.done, standing.spent, set(standing.built)
    copy.slots = {name: Slot(it.variant, it.phase, it.last) for name, it in standing.slots.items()}
    return copy


def goes_on(farm, standing, instructions):
    """Puts instructions behind those of a lane, and tells whether it comes to its end without a trap."""
    standing.lane.instructions += instructions
    while standing.next() is not None:
        if farm.turn(standing) is not None:
            return False
    return True


def random_branch(draw, universe, archive, standing, begun):
    """Lines for a branch, of `begun` and some more those that meet no trap over an archive where a lane stands; and the
    phases behind them."""
    farm, lane, written = Farm(universe, []), copied(standing), []
    farm.archive = archive
    for line in begun + [None] * draw.choice([0, 0, 1, 2, 4]):
        line = line or random_line(draw, universe, lane)
        it = None if line.split()[0] in NOT_IN_BRANCHES else is_good(universe, farm, lane, line, ())
        if it is not None:
            goes_on(farm, lane, [it])
            written.append(line)
    return written, {name: slot.phase for name, slot in lane.slots.items()}


def telling_lines(universe, standing):
    """Lines that leave no more than a last configured variant, or a recipe built, so that phases stay."""
    unpacked = [name for name in standing.slots if standing.phase(name) == UNPACKED]
    return [[f"configure {it}", f"deconfigure {it}"] for it in unpacked] + [[f"build {it}"] for it in universe.recipes]


def random_when(draw, universe, farm, standing, wild):
    """The lines of a `when` with two branches, mostly with the same phases behind both; none where no such were drawn.
    One branch is drawn over all that the archive may ever have; the other over what it has, mostly of like lines."""
    names, outputs = list(universe.variants), [it for recipe in universe.recipes.values() for it in recipe.outputs]
    wanted = draw.choice(names) + (relation(draw) if draw.often(0.7) else "")
    begun = draw.choice([[], [f"unpack {wanted}"], *telling_lines(universe, standing)])
    first, phases = random_branch(draw, universe, [*universe.archive, *outputs], standing, begun)
    for _ in range(8):
        like = [it if it.split()[0] != "unpack" else f"unpack {it.split()[1]}" for it in first]
        like = [it + relation(draw) if it.startswith("unpack") and draw.often(0.5) else it for it in like]
        second, others = random_branch(draw, universe, farm.archive, standing, like if draw.often(0.7) else [])
        if others == phases or draw.often(wild):
            break
    else:
        return []
    branches = [first, second] if draw.often(0.5) else [second, first]
    for branch in branches:
        if draw.often(wild):
            branch.insert(draw.randint(0, len(branch)), random_line(draw, universe, standing))
    first, second = ([f"  {it}" for it in branch] for branch in branches)
    return [f"when {wanted}", *first, "else", *second, "end"]


def add_when(draw, universe, farm, standing, wild):
    """The lines of a `when` for a lane, which has then gone on behind it; mostly none where it would trap."""
    lines = random_when(draw, universe, farm, standing, wild)
    try:
        instructions = read_lines(universe, standing, lines)
    except Fault:
        return lines
    if not goes_on(farm, copied(standing), instructions):
        return lines if draw.often(wild) else []
    goes_on(farm, standing, instructions)
    return lines


def plan_text(draw, universe, has_branches):
    """A plan of up to three lanes, drawn over a state of the farm."""
    bases = list(universe.chroots.values())
    budgets = [draw.choice([5, 100, 1000000, 1000000, 1000000]) for _ in range(draw.randint(0, 3))]
    lanes = [Lane(f"l{number}", draw.choice(bases), budget) for number, budget in enumerate(budgets) if bases]
    farm, published, written = Farm(universe, lanes), set(), [[] for _ in lanes]
    wild = draw.choice([0, 0.01, 0.05, 0.2])
    for _ in range(draw.randint(0, 40 * len(lanes))):
        number = draw.randrange(len(lanes))
        standing = farm.lanes[number]
        if has_branches and draw.often(0.2):
            lines = add_when(draw, universe, farm, standing, wild)
            written[number] += ["\n  ".join(lines)] if lines else []
            continue
        line = random_line(draw, universe, standing)
        it = is_good(universe, farm, standing, line, published)
        if it is None:
            if draw.often(wild):
                written[number].append(line)
            continue
        standing.lane.instructions.append(it)
        written[number].append(line)
        published |= {it.recipe} if it.verb == "publish" else set()
        while standing.next() is not None and farm.turn(standing) is None:
            pass
    text = "plan 1\n"
    for lane, found in zip(lanes, written):
        if draw.often(0.2) and found:
            cut = draw.randint(1, len(found))
            text += f"block b-{lane.name}\n" + "".join(f"{it}\n" for it in found[:cut]) + "end\n"
            found = [f"use b-{lane.name}", *found[cut:]]
        text += f"lane {lane.name} chroot {lane.chroot.name} budget {lane.budget}\n"
        text += "".join(f"  {it}\n" for it in found) + "end\n"
    return text


def changed(draw, text):
    """A text with a line or a byte changed."""
    found = text.split("\n")
    place = draw.randrange(len(found))
    kind = draw.choice(["drop", "twice", "byte", "byte", "byte", "cut"])
    if kind == "drop":
        del found[place]
    elif kind == "twice":
        found.insert(place, draw.choice(found))
    elif kind == "byte" and text:
        at = draw.randrange(len(text))
        return text[:at] + draw.choice("0a1 \n\t%:,|()[]<>!=~-.#AZ_") + text[at + 1 :]
    else:
        return text[: draw.randrange(len(text) + 1)]
    return "\n".join(found)


def changed_rows(draw, text):
    """A certificate with something more, or less, in a row, or with its order changed."""
    found = text.split("\n")
    place = draw.randrange(len(found))
    items = [item for line in found if ": " in line for item in line.split(": ", 1)[1].split(", ")]
    head, colon, row = found[place].partition(":")
    if not colon:
        other = draw.randrange(len(found))
        found[place], found[other] = found[other], found[place]
    elif row and draw.often(0.6):
        left = row.strip().split(", ")
        left.remove(draw.choice(left))
        found[place] = head + colon + "".join(f" {item}," for item in left)[: -1 or None]
    elif items:
        found[place] = f"{found[place]}{',' if row else ''} {draw.choice(items)}"
    return "\n".join(found)


class RandomFarm:
    """The farm of a seed: its four texts, and a schedule for its plan."""

    def __init__(self, seed, has_branches=False):
        draw = self.draw = Draw(seed)
        self.texts = universe_texts(draw, pre_depends=0.6 if has_branches else 0.2)
        try:
            universe = read_universe(self.texts)
            self.texts["plan"] = plan_text(draw, universe, has_branches)
        except Fault:
            self.texts["plan"] = "plan 1\n"
        if draw.often(0.3):
            file = draw.choice([*FILES, *FILES, "plan", "plan"] if has_branches else FILES)
            self.texts[file] = changed(draw, self.texts[file])
        self.schedule = [draw.choice([0, 0, 1, 1, 2, 3]) for _ in range(draw.randint(0, 60))]

    def certificate(self):
        """The certificate that the plan would have if it were accepted, mostly with something changed."""
        universe = read_universe(self.texts)
        plan = read_plan(universe, self.texts["plan"])
        rows, order = Rows(universe, plan).make_greatest(), find_order(universe, plan)[0]
        text = "".join(f"{line}\n" for line in certificate(universe, plan, rows, order))
        if self.draw.often(0.5):
            return changed_rows(self.draw, text)
        return changed(self.draw, text) if self.draw.often(0.3) else text
