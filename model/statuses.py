"""Where a run stands, by its journal, and when what is left of it ends, if its plan is accepted.

What is open is not done: it is taken whole, and neither a lane's place nor what it has spent counts it. What is left is the
timed run from here on, all lanes at time 0 (RULES, section 14).
"""

from copy import copy

from core import Farm, is_met
from json_answers import shown
from plans import Instruction
from reasons import spelled
from relations import Alternative
from rest_items import item_text
from timeline import TimedRun, mark_of
from universe import is_settled
from verdict import judge

WIDTH = 80


def time_text(seconds):
    return f"{seconds // 3600}:{seconds // 60 % 60:02}:{seconds % 60:02}"


def exactly(variant):
    """An unpack of this variant, and no other."""
    wanted = Alternative(variant.name)
    wanted.operator, wanted.version = "=", variant.version
    return Instruction("unpack", wanted=wanted)


def resting_farm(life):
    """The farm where nothing that is open has begun. An unpack that is open takes what it has picked."""
    farm = Farm(life.universe, life.plan)
    farm.archive, farm.published = list(life.farm.archive), list(life.farm.published)
    for place, standing in enumerate(life.farm.lanes):
        found = farm.lanes[place] = copy(standing)
        if standing.lane.name in life.picked:
            variant, (found.done, found.spent, found.slots) = life.picked[standing.lane.name]
            found.lane = copy(standing.lane)
            found.lane.instructions = list(standing.lane.instructions)
            found.lane.instructions[found.done] = exactly(variant)
        found.slots, found.built = {name: copy(it) for name, it in found.slots.items()}, set(found.built)
    return farm


def what_comes(farm, standing):
    """The number of the instruction that a lane comes to: one that is asked of the driver, or a wait that does not pass
    now. None at the lane's end."""
    ahead = copy(standing)
    while ahead.next() is not None and ahead.next().verb in ("wait", "when") and not farm.is_blocked(ahead):
        farm.turn(ahead)
    return None if ahead.next() is None else ahead.done + 1


def waited_for(farm, entry):
    """The first output still to come that satisfies an entry, and its lane; or None."""
    for other in farm.lanes:
        for it in other.lane.instructions[other.done:]:
            for variant in it.recipe.outputs if it.verb == "publish" else ():
                if variant.satisfies(entry):
                    return variant, other.lane
    return None


def chroot_text(life, standing):
    """What is known of a lane's chroot."""
    if standing.lane.name not in life.opened:
        return "not there"
    unpacked = sum(slot.phase == "unpacked" for slot in standing.slots.values())
    if unpacked:
        return f"{unpacked} of {len(standing.slots)} unpacked"
    return "settled" if is_settled([slot.variant for slot in standing.slots.values()]) else "not settled"


def open_members(life, lane, number):
    """What is open in a lane."""
    state = "failed" if (lane, number) in life.failed else "gave" if (lane, number) in life.gave else "asked"
    members = {"state": state, "instruction": number, "text": str(life.instruction(lane, number)) if number else "open"}
    members |= {"since": life.since[lane]} if life.seconds is not None else {}
    return members | ({"gave": [item_text(it) for it in life.gave[lane, number]]} if state == "gave" else {})


def next_members(life, farm, standing):
    """What a lane with nothing open comes to."""
    if standing.next() is None:
        return {"state": "finished"}
    if standing.lane.name not in life.opened:
        return {"state": "next", "instruction": 0, "text": "open"}
    number = what_comes(farm, standing)
    if number is None:
        return {"state": "finished"}
    it = standing.lane.instructions[number - 1]
    members = {"state": "next", "instruction": number, "text": str(it)}
    if it.verb == "wait" and not is_met(it.entry, farm.archive):
        found = waited_for(farm, it.entry)
        members |= {"state": "waits"}
        members |= {"waits_for": {"variant": spelled(found[0]), "lane": shown(found[1].name)}} if found else {}
    return members


def lane_members(life, farm, standing):
    name = standing.lane.name
    members = {"name": shown(name), "at": standing.done, "of": len(standing.lane.instructions), "spent": standing.spent}
    is_open = name in life.asked
    members |= open_members(life, name, life.asked[name]) if is_open else next_members(life, farm, standing)
    return members | {"chroot": chroot_text(life, standing)}


def built_names(life):
    """What is built and not published, in the order of the plan."""
    builds = [it.recipe.name for lane in life.plan for it in lane.instructions if it.verb == "build"]
    return [name for name in dict.fromkeys(builds) if name in life.built()]


class Status:
    """The facts of a run: `members` as JSON has them, and the timed run of what is left."""

    def __init__(self, journal, life):
        farm = resting_farm(life)
        self.life, self.lanes = life, [lane_members(life, farm, it) for it in farm.lanes]
        self.rest = TimedRun(life.universe, life.plan, farm) if judge(life.universe, life.plan)[1] else None
        for members, events in zip(self.lanes, self.rest.of_lane if self.rest else []):
            if members["state"] != "finished":
                members["left"] = sum(event.end - event.begin for event in events)
                members["ends"] = events[-1].end
        published = [it.recipe for lane in life.plan for it in lane.instructions if it.verb == "publish"]
        self.members = {
            "published": [{"lane": shown(lane.name), "variant": spelled(it)} for lane, it in life.farm.published],
            "recipes": len(published),
            "steps": sum(it.steps for it in life.published), "of_steps": sum(it.steps for it in published),
            "unpublished": [shown(name) for name in built_names(life)], "done": life.done, "lanes": self.lanes,
        }
        self.members = {"run": journal.run} | self.members if journal else self.members
        self.members |= {"ended": journal.next_run} if journal and journal.next_run else {}
        self.members |= {"seconds": life.seconds} if life.seconds is not None else {}
        if self.rest:
            self.builds = [it.it.recipe.name for it in self.rest.path() if it.it.verb == "build"]
            self.members |= {"ends": self.rest.end, "path": list(map(shown, self.builds))}

    def pace_text(self):
        """How long what is left takes at the pace of the builds that are done."""
        seconds, steps = self.life.build_seconds, self.life.build_steps
        if self.life.seconds is None or not steps or not self.rest.end:
            return ""
        return f", about {time_text(self.rest.end * seconds // steps)} at {seconds // steps} seconds a step"

    def lines(self):
        it = self.members
        first = f"run {it['run']}" if "run" in it else "not begun"
        yield first + (f" ended, {it['ended']} goes on from it" if "ended" in it else "")
        yield f"published {len(self.life.published)} of {it['recipes']} recipes, {it['steps']} of {it['of_steps']} steps"
        if built_names(self.life):
            yield f"built and not published {' '.join(built_names(self.life))}"
        yield f"done {it['done']}" + (f" in {time_text(it['seconds'])}" if "seconds" in it else "")
        for lane, members in zip(self.life.plan, self.lanes):
            yield lane_line(lane, members)
        if "ends" in it:
            yield f"ends in {it['ends']}{self.pace_text()}"
        if "ends" in it and self.builds:
            yield f"critical path: {' '.join(self.builds)}"

    def bars(self):
        """A bar for each lane: what it has spent, then the timed run of what is left, in 80 columns."""
        names = max((len(lane.name) for lane in self.life.plan), default=0)
        room, spent = max(20, WIDTH - names - 1), max((it["spent"] for it in self.lanes), default=0)
        whole = max(1, spent + (self.rest.end if self.rest else 0))
        start = round(spent * room / whole)
        of_lane = self.rest.of_lane if self.rest else [[] for _lane in self.lanes]
        for lane, members, events in zip(self.life.plan, self.lanes, of_lane):
            past = round(members["spent"] * room / whole)
            marks = [rest_mark(events, (column - start + 0.5) * whole / room) for column in range(start, room)]
            yield f"{lane.name:{names}} {'+' * past}{' ' * (start - past)}{''.join(marks)}".rstrip()


def rest_mark(events, moment):
    """What a lane does at a moment from now."""
    event = next((it for it in events if it.free <= moment < it.end), None)
    return " " if event is None else "." if moment < event.begin else mark_of(event)


def lane_line(lane, it):
    """The line of a lane, by its members."""
    line = f"lane {lane.name} at {it['at']} of {it['of']} spent {it['spent']}"
    if it["state"] == "finished":
        return f"{line} finished"
    line += f" {it['state']} {it['instruction']} {it['text']}"
    line += f" since {time_text(it['since'])}" if "since" in it else ""
    line += f": {', '.join(it['gave'])}" if "gave" in it else ""
    if it["state"] == "waits":
        told = it.get("waits_for")
        line += f", for {told['variant']} of lane {told['lane']}" if told else ", for what no lane publishes any more"
    return f"{line}, left {it['left']}, ends in {it['ends']}" if "ends" in it else line
