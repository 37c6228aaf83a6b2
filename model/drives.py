"""Drives whose driver does at once what it is asked for: FORMATS, section 21."""

import hashlib
import random

from core import Farm, pick, state_lines
from texts import FILES


def run_name(texts, nanoseconds):
    """The name of a run of four texts that began so many nanoseconds after 1970."""
    digests = "".join(hashlib.sha256(texts[name].encode("latin-1")).hexdigest() for name in FILES)
    return f"{hashlib.sha256(digests.encode()).hexdigest()[:16]}-{nanoseconds:016x}"


def variant_words(variants):
    return [word for it in variants for word in (it.name, it.version.text)]


def request(farm, standing):
    """What a lane asks for at its instruction; None where it asks nobody."""
    it = standing.next()
    words = {
        "unpack": lambda: variant_words([pick(farm.archive, it.wanted)]),
        "build": lambda: [it.recipe.name, *it.recipe.words, ",", *variant_words(it.recipe.outputs)],
        "publish": lambda: [it.recipe.name, *variant_words(it.recipe.outputs)],
    } | dict.fromkeys(
        ("configure", "deconfigure", "remove"),
        lambda: variant_words(standing.slots[name].variant for name in it.names),
    )
    return [it.verb, *words[it.verb]()] if it.verb in words else None


def take(farm, standing):
    """Takes a lane behind its instruction, and gives the words by which the driver was asked for it, or None."""
    head = [standing.lane.name, str(standing.done + 1), standing.lane.chroot.name]
    asked = request(farm, standing)
    for _ in range(len(standing.next().recipe.outputs) if asked and asked[0] == "publish" else 1):
        farm.turn(standing)
    return asked and [*head, *asked]


def drive(universe, plan, choose):
    """The words of each request of an accepted plan, where of the lanes that can go on the one that is chosen does; and
    the end."""
    farm = Farm(universe, plan)
    asked = [
        [it.lane.name, "0", it.lane.chroot.name, "open", *variant_words(it.lane.chroot.packages)]
        for it in farm.lanes if it.next()
    ]
    while ready := [it for it in farm.lanes if not farm.is_blocked(it)]:
        words = take(farm, choose(ready))
        asked += [words] if words else []
    return [" ".join(words) for words in asked], ["finished", *state_lines(universe, farm)]


def first(ready):
    return ready[0]


def some_requests(universe, plan, runs=40):
    """Requests of an accepted plan, of runs in different orders."""
    return {line for seed in range(runs) for line in drive(universe, plan, random.Random(seed).choice)[0]}
