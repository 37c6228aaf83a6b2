"""The timed run of an accepted plan: when each event begins and ends, what holds it up, and the chain that its end hangs
on. Each event takes its cost in steps as time; each output of a publish takes one step, and is in the archive when that
step ends. Of what happens at one moment outputs come first, then whatever begins, each in the order of the lanes."""

from core import Farm
from json_answers import shown
from reasons import place_text, spelled

LONGEST, SLACK, PATH, BAR = 5, 10, 40, 80


class Event:
    """An instruction of a lane, or one output of a publish. `free` is the end of the event before it in its lane, or 0, and
    from `free` to `begin` the lane waits. `by` is the output that lets a wait pass, or None where it passes at the start."""

    def __init__(self, number, lane, place, free, begin, end, output, by):
        self.number, self.lane, self.place, self.it = number, lane, place, lane.instructions[place]
        self.free, self.begin, self.end, self.output, self.by = free, begin, end, output, by
        self.before, self.slack = None, 0

    def waited(self):
        return self.begin - self.free


class TimedRun:
    """The events in the order of the run, those of each lane, and the greatest end. The run begins with a farm as it
    stands, else at the plan's beginning."""

    def __init__(self, universe, plan, farm=None):
        self.universe, self.plan, self.farm = universe, plan, farm or Farm(universe, plan)
        self.at_start = list(self.farm.archive)
        self.events, self.of_lane = [], [[] for _ in plan]
        self.begins, self.asleep = [0] * len(plan), set()
        while True:
            ready = [n for n, it in enumerate(self.farm.lanes) if it.next() is not None and n not in self.asleep]
            if not ready:
                break
            self.turn(min(ready, key=self.moment))
        self.end = max((event.end for event in self.events), default=0)
        self.find_slack()

    def moment(self, number):
        """When the next event of a lane counts: an output where it ends, anything else where it begins."""
        is_output = self.farm.lanes[number].next().verb == "publish"
        return self.begins[number] + is_output, not is_output, number

    def turn(self, number):
        standing = self.farm.lanes[number]
        if self.farm.is_blocked(standing):
            self.asleep.add(number)
            return
        place, spent, it = standing.done, standing.spent, standing.next()
        assert self.farm.turn(standing) is None
        begin = self.begins[number]
        is_output = it.verb == "publish"
        end = begin + (1 if is_output else standing.spent - spent)
        output = self.farm.published[-1][1] if is_output else None
        by = self.first_passing(it.entry) if it.verb == "wait" else None
        self.add(Event(number, standing.lane, place, self.free(number), begin, end, output, by))

    def add(self, event):
        lane = self.of_lane[event.number]
        event.before = lane[-1] if lane else None
        lane.append(event)
        self.events.append(event)
        self.begins[event.number] = event.end
        for number in sorted(self.asleep if event.output else ()):
            if event.output.satisfies(self.farm.lanes[number].next().entry):
                self.asleep.remove(number)
                self.begins[number] = event.end

    def free(self, number):
        return self.of_lane[number][-1].end if self.of_lane[number] else 0

    def first_passing(self, entry):
        """The output that satisfies an entry first, of those that do so at one moment the last one in the order of the
        run; or None where the archive had a variant from the start."""
        if any(variant.satisfies(entry) for variant in self.at_start):
            return None
        found = [event for event in self.events if event.output and event.output.satisfies(entry)]
        return [event for event in found if event.end == found[0].end][-1]

    def find_slack(self):
        """How much later each event could end, all else going on as it does, and the run not end later."""
        latest = {}
        for event in reversed(self.events):
            last = latest.get(event, self.end)
            event.slack = last - event.end
            begin = last - (event.end - event.begin)
            for ahead in (event.before, event.by):
                if ahead is not None:
                    latest[ahead] = min(latest.get(ahead, self.end), begin)

    def path(self):
        """The chain that the end hangs on, the first event first."""
        event = next((it for it in self.events if it.end == self.end), None)
        found = []
        while event is not None:
            found.append(event)
            event = event.by if event.waited() else event.before
        return found[::-1]


def lane_line(lane, events):
    end = events[-1].end if events else 0
    idle = sum(event.waited() for event in events)
    return f"lane {lane.name} ends at {end} busy {end - idle} idle {idle}"


def waits_for(event):
    return f"{spelled(event.by.output)} of lane {event.by.lane.name}"


def idle_line(event):
    at = f"instruction {event.place + 1} ({place_text(event.lane, event.place + 1)})"
    return f"  idle {event.free} to {event.begin} at {at}, waits for {waits_for(event)}"


def idle_lines(run):
    for lane, events in zip(run.plan, run.of_lane):
        found = sorted((it for it in events if it.waited()), key=lambda it: -it.waited())[:LONGEST]
        if found:
            yield f"lane {lane.name}"
            yield from map(idle_line, found)


def path_lines(run):
    """A line for each stretch of a lane, and one for each wait that joins two."""
    stretches = []
    for event in run.path():
        if not stretches or event.waited():
            stretches.append([])
        stretches[-1].append(event)
    for stretch in stretches:
        first, last = stretch[0], stretch[-1]
        if first.waited():
            yield f"  lane {first.lane.name} waits for {waits_for(first)} at instruction {first.place + 1}"
        span = (
            f"instruction {first.place + 1}" if first.place == last.place
            else f"instructions {first.place + 1} to {last.place + 1}")
        yield f"  lane {first.lane.name} {span}, {last.end - first.begin}"


def shortened(lines, is_full):
    if is_full or len(lines) <= PATH:
        return lines
    half = PATH // 2
    return [*lines[:half], f"  .. {len(lines) - 2 * half} lines", *lines[-half:]]


def bound_lines(run):
    work = [sum(it.end - it.begin for it in events) for events in run.of_lane]
    yield f"no sooner than {max(work, default=0)}, the dearest lane"
    yield f"no sooner than {-(-sum(work) // max(len(work), 1))}, all work by {len(work)} lanes"


def slack_lines(run):
    builds = sorted((it for it in run.events if it.it.verb == "build"), key=lambda it: (it.slack, it.begin - it.end))
    for event in builds[:SLACK]:
        at = f"lane {event.lane.name} instruction {event.place + 1}"
        yield f"build {event.it.recipe.name} takes {event.end - event.begin} slack {event.slack}, {at}"


def mark_of(event):
    return "#" if event.it.verb == "build" else "="


def bar_line(run, number, width):
    """A mark for each part of the time that the run takes: what takes most of it, a wait before an install before a
    build where they take the same."""
    lane, events = run.plan[number], run.of_lane[number]
    shares = [{} for _ in range(width)]
    for event in events:
        for mark, begin, end in ((".", event.free, event.begin), (mark_of(event), event.begin, event.end)):
            for part in range(begin * width // max(run.end, 1), width):
                low, high = max(begin * width, part * run.end), min(end * width, (part + 1) * run.end)
                if high <= low:
                    break
                shares[part][mark] = shares[part].get(mark, 0) + high - low
    bar = "".join(max(".=#", key=lambda it: share.get(it, 0)) if share else " " for share in shares)
    names = max(len(it.name) for it in run.plan)
    return f"{lane.name:<{names}} {bar}".rstrip(" ")


def text_lines(run, bars=False, is_full=False):
    yield f"ends at {run.end}"
    for lane, events in zip(run.plan, run.of_lane):
        yield lane_line(lane, events)
    if bars:
        names = max((len(it.name) for it in run.plan), default=0)
        for number in range(len(run.plan)):
            yield bar_line(run, number, max(BAR - names - 1, 1))
    else:
        yield from idle_lines(run)
    yield f"critical path {run.end}"
    yield from shortened(list(path_lines(run)), is_full)
    yield from bound_lines(run)
    yield from slack_lines(run)


def event_members(event):
    """An event as JSON; an idle stretch is from `free` to `begin`."""
    members = {"begin": event.begin, "end": event.end, "instruction": event.place + 1, "verb": event.it.verb}
    members |= {"recipe": shown(event.it.recipe.name)} if event.it.recipe else {}
    members |= {"output": spelled(event.output)} if event.output else {}
    members |= {"free": event.free, "waits_for": waits_members(event)} if event.waited() else {}
    return members


def waits_members(event):
    return {"lane": shown(event.by.lane.name), "instruction": event.by.place + 1, "variant": spelled(event.by.output)}


def json_members(run):
    """The facts of a timed run, for one JSON object."""
    lanes = []
    for lane, events in zip(run.plan, run.of_lane):
        end = events[-1].end if events else 0
        idle = sum(event.waited() for event in events)
        members = {"name": shown(lane.name), "end": end, "busy": end - idle, "idle": idle}
        lanes.append(members | {"events": [event_members(event) for event in events]})
    path = [{"lane": shown(it.lane.name), "instruction": it.place + 1, "begin": it.begin, "end": it.end} for it in run.path()]
    return {"end": run.end, "lanes": lanes, "path": path}
