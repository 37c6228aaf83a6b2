"""Certificates, printed and checked: FORMATS, section 14; why one is refused: section 16."""

from explain import where
from fault_notes import SENTENCES, escaped, SHOWN
from relations import PROVIDE, read_field
from texts import BLANKS, TEXT_LIMIT, Fault, lines, number, pieces
from verdict import Ordering, Rows, Unsafe, walk


def places(plan):
    """The lanes and numbers of the instructions that have a line: each wait, publish and `when`."""
    found = []
    for lane_number, lane in enumerate(plan):
        for place, it in enumerate(lane.instructions, 1):
            if it.verb in ("wait", "publish", "when"):
                found.append((lane_number, place))
    return found


def certificate(universe, plan, rows, order):
    """The lines of the certificate with these rows and this order."""
    written = ["cert 1"]
    for lane, place in places(plan):
        known = rows.known[lane][place] - rows.initial
        items = [f"{it.name} (= {it.version.text})" for it in universe.all_variants() if it in known]
        written.append(f"known {plan[lane].name} {place}:" + (" " + ", ".join(items) if items else ""))
    return written + [f"order {plan[lane].name}" for lane in order]


def read_row(universe, text):
    """The variants of a line, in the order of names and versions, none of the initial archive."""
    every = universe.all_variants()
    found = []
    for [item] in read_field(text, PROVIDE):
        variant = item.version and universe.find(item.name, item.version)
        if variant is None or item.qualifier is not None or variant in universe.archive:
            raise Fault(451)
        if found and every.index(variant) <= every.index(found[-1]):
            raise Fault(451)
        found.append(variant)
    return set(found)


def read_known(universe, content, lane, place):
    """The row of a line `known LANE NUMBER: ..` that speaks of this lane and this place."""
    head, _, rest = content.replace("\t", " ").partition(" ")
    name, _, rest = rest.lstrip(" ").partition(" ")
    numeral, colon, items = rest.lstrip(" ").partition(":")
    if head != "known" or name != lane.name or not colon or number(numeral) != place:
        raise Fault(451)
    try:
        return read_row(universe, items)
    except Fault:
        raise Fault(451) from None


def content_lines(text):
    """The lines that are neither blank nor comments, with their numbers, without the blanks at their ends."""
    kept = [(line, content.strip(BLANKS)) for line, content in enumerate(lines(text), 1) if not content.startswith("#")]
    return [(line, content) for line, content in kept if content]


def read(universe, plan, text):
    """The rows behind each wait, publish and `when`, and the order; or 451 at its line."""
    if len(text) > TEXT_LIMIT:
        raise Fault(451, 0)
    left, listed, order = content_lines(text), {}, []
    past = len(lines(text)) + 1
    for expected in ["head", *places(plan)]:
        line, content = left.pop(0) if left else (past, "")
        try:
            if expected == "head":
                if pieces(content) != ["cert", "1"]:
                    raise Fault(451)
            else:
                lane, place = expected
                listed[expected] = read_known(universe, content, plan[lane], place)
        except Fault:
            raise Fault(451, line) from None
    names = [lane.name for lane in plan]
    for line, content in left:
        found = pieces(content)
        if len(found) != 2 or found[0] != "order" or found[1] not in names:
            raise Fault(451, line)
        order.append(names.index(found[1]))
    return listed, order


def rows_of(universe, plan, listed):
    """The rows at every place: a lane knows what its last line lists, and the initial archive. What the line of a
    `when` lists it knows in the first branch alone."""
    rows = Rows(universe, plan)
    for lane_number, known in enumerate(rows.known):
        lane, row = plan[lane_number], rows.initial
        for place in range(len(known)):
            if (lane_number, place) in listed:
                row = rows.initial | listed[lane_number, place]
            elif place > 0 and lane.instructions[place - 1].verb in ("else", "end"):
                row = known[lane.place_before_branches(place)]
            known[place] = row
    return rows


def first_too_much(rows):
    """The first place whose row has more than its lane can know there."""
    for lane_number, known in enumerate(rows.known):
        for place, row in enumerate(known):
            if not row <= rows.row_after(lane_number, place):
                return f"lane {rows.plan[lane_number].name} instruction {place}"
    return None


def first_bad_item(universe, plan, order):
    """The number of the first item of the order that can make no step, or one more than their number."""
    ordering = Ordering(universe, plan)
    for item, lane in enumerate(order, 1):
        if not ordering.passes(lane):
            return item
    return len(order) + 1 if any(ordering.left) else None


def expected_note(plan, text, line):
    """What should stand at a line of the certificate."""
    place = sum(number < line for number, _ in content_lines(text))
    if place == 0:
        return "  it is `cert 1`"
    if place > len(places(plan)):
        return "  it is `order LANE`, of a lane of the plan"
    lane, number = places(plan)[place - 1]
    return f"  it begins with `known {plan[lane].name} {number}:`, and lists variants that are not in Archive, in their order"


def next_step(plan, order, number):
    """The number of the first wait or publish of a lane that these items of an order leave, or None."""
    left = order.count(number)
    for place, it in enumerate(plan[number].instructions, 1):
        left -= len(it.recipe.outputs) if it.verb == "publish" else it.verb == "wait"
        if left < 0:
            return place
    return None


class Told:
    """Lines below the refusal of a certificate."""

    def __init__(self, plan, text):
        self.plan, self.text, self.lines = plan, text, []

    def cert_line(self, number):
        """A line of the certificate, by its number."""
        found = lines(self.text)
        if 0 < number <= len(found):
            self.lines.append(f"cert line {number}: {escaped(found[number - 1][:SHOWN])}")

    def row_line(self, lane, place):
        """The line that says what a lane knows behind its first instructions."""
        while place and (lane, place) not in places(self.plan):
            it = self.plan[lane].instructions[place - 1]
            place = self.plan[lane].place_before_branches(place) if it.verb in ("else", "end") else place - 1
        if place:
            self.cert_line(content_lines(self.text)[places(self.plan).index((lane, place)) + 1][0])

    def instruction(self, lane, number):
        self.lines.append(where(self.plan[lane], number))

    def sentence(self, code):
        self.lines.append(f"  {SENTENCES[code]}")


def order_notes(told, order, item):
    """Why an item of the order can make no step, or what the order leaves."""
    plan, behind = told.plan, 1 + len(places(told.plan))
    if item <= len(order):
        told.cert_line(content_lines(told.text)[behind + item - 1][0])
        lanes = [order[item - 1]]
    else:
        lanes = [lane for lane in range(len(plan)) if next_step(plan, order, lane)][:1]
    for lane in lanes:
        number = next_step(plan, order[: item - 1], lane)
        told.lines += [where(plan[lane], number)] if number else []
    told.sentence(454)
    if item > len(order):
        told.lines.append("  the order ends before this")
    elif next_step(plan, order[: item - 1], lanes[0]) is None:
        told.lines.append(f"  lane {plan[lanes[0]].name} has no step left")


def notes(universe, plan, text, line):
    """Why a certificate is refused, by the line that answers it: FORMATS, section 16."""
    told, words = Told(plan, text), line.split(" ")
    if words[1] == "451":
        told.cert_line(int(words[3]))
        told.sentence(451 if words[3] != "0" else 105)
        return told.lines + ([expected_note(plan, text, int(words[3]))] if words[3] != "0" else [])
    listed, order = read(universe, plan, text)
    if words[1] == "454":
        order_notes(told, order, int(words[3]))
        return told.lines
    lane, number = [lane.name for lane in plan].index(words[3]), int(words[5])
    told.row_line(lane, number if words[1] == "452" else number - 1)
    told.instruction(lane, number)
    told.sentence(int(words[1]))
    if words[1] == "452":
        rows = rows_of(universe, plan, listed)
        more = rows.known[lane][number] - rows.row_after(lane, number)
        first = next(it for it in universe.all_variants() if it in more)
        told.lines.append(f"  {first.name} (= {first.version.text}) need not be there")
    return told.lines


def check(universe, plan, text):
    """The line that answers a certificate, and whether it is one."""
    try:
        listed, order = read(universe, plan, text)
    except Fault as fault:
        return f"refused 451 line {fault.line}", False
    rows = rows_of(universe, plan, listed)
    too_much = first_too_much(rows)
    if too_much:
        return f"refused 452 {too_much}", False
    try:
        walk(rows)
    except Unsafe as unsafe:
        return unsafe.text(trapping=453, uneven=455), False
    bad = first_bad_item(universe, plan, order)
    return ("certified", True) if bad is None else (f"refused 454 item {bad}", False)
