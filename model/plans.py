"""The plan text and its listing: FORMATS, sections 11 and 13."""

from relations import NEED, read_alternative, read_field, reduce_field
from texts import TEXT_LIMIT, Fault, is_word, lines, number

LANES, INSTRUCTIONS = 64, 65_536
NOT_IN_BRANCHES = ("publish", "wait", "use", "when")


class Instruction:
    """A verb with what it names: `names` for configure, deconfigure and remove; `recipe` for build and publish;
    `wanted`, an alternative, for unpack and when; `entry` for wait; nothing for else and for the end of branches."""

    def __init__(self, verb, names=(), recipe=None, wanted=None, entry=None):
        self.verb, self.names, self.recipe = verb, names, recipe
        self.wanted, self.entry = wanted, entry

    def __str__(self):
        if self.wanted:
            return f"{self.verb} {self.wanted}"
        if self.entry:
            return self.verb + " |".join(f" {alternative}" for alternative in self.entry)
        return " ".join([self.verb, *self.names, *([self.recipe.name] if self.recipe else [])])


class Lane:
    """A lane. Its instruction of number n is `instructions[n - 1]`; at place n the next one is `instructions[n]`. For
    each instruction `lines` has its line, and the line of the `use` in the lane that brings it in, or None."""

    def __init__(self, name, chroot, budget):
        self.name, self.chroot, self.budget, self.instructions = name, chroot, budget, []
        self.lines, self.first_line, self.last_line = [], None, None

    def first(self, verb, place):
        """The number of the first instruction of a verb behind a place. So the `else` and the `end` of a `when` are
        found, since no branch holds another."""
        return next(n for n, it in enumerate(self.instructions, 1) if n > place and it.verb == verb)

    def place_before_branches(self, place):
        """The place just before the last `when` ahead of a place."""
        return max(n for n, it in enumerate(self.instructions[:place]) if it.verb == "when")


class Plan(list):
    """The lanes of a plan, and the line that says `plan 1`."""

    def __init__(self, lanes, first_line):
        super().__init__(lanes)
        self.first_line = first_line


class Block:
    def __init__(self, name):
        self.name, self.instructions, self.lines = name, [], []


class Reader:
    """What has been read of a plan: its lanes and blocks, and what is open: a lane or block, and in it perhaps the
    branch behind a `when` or behind its `else`. `first_lines` has the lines that began these, the innermost last."""

    def __init__(self, universe, is_sketch):
        self.universe, self.is_sketch, self.lanes, self.blocks = universe, is_sketch, [], {}
        self.open, self.branch, self.first_lines = None, None, []
        self.published = set()

    def read(self, content, line):
        head, *rest = content.replace("\t", " ").split(" ", 1)
        text = rest[0] if rest else ""
        found = [piece for piece in text.replace("\t", " ").split(" ") if piece]
        if head == "lane":
            self.begin_lane(found)
            self.open.first_line = line
            self.first_lines.append(line)
        elif head == "block":
            self.begin_block(found)
            self.first_lines.append(line)
        elif self.open is None or self.branch and head in NOT_IN_BRANCHES:
            raise Fault(302)
        elif head == "else" and not found:
            self.otherwise(line)
        elif head == "end" and not found:
            self.end(line)
            self.first_lines.pop()
        elif head == "use":
            block = self.used(found)
            is_lane = isinstance(self.open, Lane)
            self.add(block.instructions, [(own, line if is_lane else None) for own, _ in block.lines])
        else:
            self.add([read_instruction(self.universe, head, text, found)], [(line, None)])
            if head == "when":
                self.branch = "when"
                self.first_lines.append(line)

    def begin_lane(self, found):
        has_budget = len(found) == 5 and found[3] == "budget"
        is_lane = has_budget or self.is_sketch and len(found) == 3
        if self.open is not None or not is_lane or found[1] != "chroot":
            raise Fault(302)
        name, chroot, budget = found[0], found[2], number(found[4]) if has_budget else None
        if not is_word(name) or not is_word(chroot) or has_budget and budget is None:
            raise Fault(302)
        if chroot not in self.universe.chroots:
            raise Fault(303)
        if any(lane.name == name for lane in self.lanes):
            raise Fault(308)
        self.open = Lane(name, self.universe.chroots[chroot], budget)
        self.lanes.append(self.open)
        if len(self.lanes) > LANES:
            raise Fault(309)

    def begin_block(self, found):
        if self.open is not None or len(found) != 1 or not is_word(found[0]):
            raise Fault(302)
        if found[0] in self.blocks:
            raise Fault(308)
        self.open = Block(found[0])

    def otherwise(self, line):
        if self.branch != "when":
            raise Fault(302)
        self.add([Instruction("else")], [(line, None)])
        self.branch = "else"

    def end(self, line):
        """Ends the second branch, if one is open, or else the lane or block."""
        if self.branch == "when":
            raise Fault(302)
        if self.branch == "else":
            self.add([Instruction("end")], [(line, None)])
            self.branch = None
            return
        if isinstance(self.open, Block):
            self.blocks[self.open.name] = self.open
        else:
            self.open.last_line = line
        self.open = None

    def used(self, found):
        if len(found) != 1 or not is_word(found[0]):
            raise Fault(302)
        if found[0] not in self.blocks:
            raise Fault(305)
        return self.blocks[found[0]]

    def add(self, instructions, numbers):
        if isinstance(self.open, Lane):
            for instruction in instructions:
                if instruction.verb == "publish":
                    if instruction.recipe in self.published:
                        raise Fault(307)
                    self.published.add(instruction.recipe)
        self.open.instructions += instructions
        self.open.lines += numbers
        together = self.lanes if isinstance(self.open, Lane) else [self.open]
        if sum(len(it.instructions) for it in together) > INSTRUCTIONS:
            raise Fault(309)


def read_instruction(universe, verb, text, found):
    """An instruction, or the first fault of its line."""
    if verb in ("configure", "deconfigure", "remove"):
        if not found or not all(is_word(word) for word in found):
            raise Fault(302)
        if not all(word in universe.variants for word in found):
            raise Fault(303)
        if len(set(found)) < len(found):
            raise Fault(304)
        return Instruction(verb, names=found)
    if verb in ("build", "publish"):
        if len(found) != 1 or not is_word(found[0]):
            raise Fault(302)
        if found[0] not in universe.recipes:
            raise Fault(303)
        return Instruction(verb, recipe=universe.recipes[found[0]])
    if verb in ("unpack", "when"):
        wanted = read_piece(text)
        if wanted.name not in universe.variants:
            raise Fault(303)
        return Instruction(verb, wanted=wanted)
    if verb == "wait":
        return Instruction(verb, entry=read_entry(text, universe.architectures))
    raise Fault(302)


def read_piece(text):
    try:
        wanted = read_alternative(text, NEED)
    except Fault:
        raise Fault(302) from None
    if wanted.qualifier is not None:
        raise Fault(302)
    return wanted


def read_entry(text, architectures):
    try:
        entries = read_field(text, NEED)
    except Fault:
        raise Fault(302) from None
    if len(entries) != 1 or "," in text:
        raise Fault(302)
    [entry] = reduce_field(entries, architectures)
    return entry


def read_plan(universe, text, is_sketch=False):
    """The lanes of a plan, or its first fault. A lane of a sketch may have no budget."""
    if len(text) > TEXT_LIMIT:
        raise Fault(105, 0, "plan")
    reader, begun = Reader(universe, is_sketch), None
    for line, content in enumerate(lines(text), 1):
        if content.startswith("#") or content.strip(" \t") == "":
            continue
        content = content.strip(" \t")
        if not begun:
            if content.replace("\t", " ").split(" ")[0] != "plan" or content[4:].strip(" \t") != "1":
                raise Fault(301, line, "plan")
            begun = line
            continue
        try:
            reader.read(content, line)
        except Fault as fault:
            raise Fault(fault.code, line, "plan") from None
    if not begun:
        raise Fault(301, 0, "plan")
    if reader.open is not None:
        raise Fault(306, reader.first_lines[-1], "plan")
    return Plan(reader.lanes, begun)


def listing(plan):
    """The plan with its blocks put in."""
    return [content for _, _, content in numbered(plan)]


def numbered(plan):
    """The lines of the listing, each with the number of its instruction and its line in the plan, or None."""
    yield None, plan.first_line, "plan 1"
    for lane in plan:
        yield None, lane.first_line, f"lane {lane.name} chroot {lane.chroot.name} budget {lane.budget}"
        indent = "  "
        for place, it in enumerate(lane.instructions):
            if it.verb in ("else", "end"):
                indent = "  "
            yield place + 1, lane.lines[place][0], f"{indent}{it}"
            if it.verb in ("when", "else"):
                indent = "    "
        yield None, lane.last_line, "end"
