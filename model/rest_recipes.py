"""Which recipes are left of a farm once its run has stopped. The first row that holds:

    --without R                                 it is given up
    its name was published, by this run or an   it is done: nobody asks for another version unasked
      earlier one (`Done`), without --again R
    all its outputs are in the archive,         it is done
      without --again R
    some of them are there, or withdrawn        refused 721
    its build has ended, without --again R      it is left with `Mode: built` and `Steps: 0`, and without `Scratch`
    any other                                   it is left as it is

A build has ended by `--built R`; or if the run has built it, its publish is open, it gave other outputs, or the old farm has
it with `Mode: built`; and then only if Source, Mode and Profiles are those of the old farm. If it gave other outputs and
`Outputs` is the old one, its outputs become what it gave.
"""

from rest_items import Items, Refused, item_text, listed, names_in


class Wishes:
    """The words of `after` beside its files. `of_recipes` has the words on recipes in their order: option, name."""

    def __init__(self, of_recipes=(), withdraw=(), came=()):
        self.of_recipes, self.withdraw, self.came = list(of_recipes), list(withdraw), list(came)

    def named(self, option):
        return [name for word, name in self.of_recipes if word == option]


class Left:
    """The recipes of a farm text, sorted: `left`, `given_up`, `done`; `built` of those that are left; `newer` and `lost`
    have a variant that is wanted of a recipe that is done, or is withdrawn of it."""

    def __init__(self, life, old_farm, farm, wishes, there, archive, withdrawn):
        self.life, self.wishes, self.archive, self.withdrawn = life, wishes, archive, withdrawn
        self.old, self.new = old_farm.named("Recipe"), farm.named("Recipe")
        self.done_before = names_in(old_farm.head, "Done")
        self.published = list(dict.fromkeys([*self.done_before, *(it.name for it in life.published)]))
        self.open = {it[1].name: (it[0], lane) for lane in life.lanes for it in [life.open_recipe(lane)] if it}
        self.gave = {life.instruction(*at).recipe.name: items for at, items in life.gave.items()}
        self.old_pending = Items(it for it in listed(old_farm.head, "Pending") if it not in there)
        self.left, self.given_up, self.done, self.built, self.newer, self.lost = [], [], [], [], [], []
        self.outputs = {name: self.outputs_of(name, paragraph) for name, paragraph in self.new.items()}
        self.judge_words()
        for name, paragraph in self.new.items():
            self.sort(name, paragraph)
        for name in self.left:
            self.judge_pending(name)

    def asks_again(self, name):
        return name in self.wishes.named("--again")

    def outputs_of(self, name, paragraph):
        """The outputs of a recipe: as its build gave them, where the farm text still has the old ones."""
        own = listed(paragraph, "Outputs")
        is_old = name in self.old and texts_of(own) == texts_of(listed(self.old[name], "Outputs"))
        return self.gave[name] if name in self.gave and is_old and self.has_ended(name, paragraph) else own

    def judge_words(self):
        for option, name in self.wishes.of_recipes:
            options = {word for word, other in self.wishes.of_recipes if other == name}
            why = None
            if name not in self.new:
                why = "the farm has no such recipe"
            elif option != "--again" and name in self.published:
                why = "it is published"
            elif len(options) > 1:
                why = "two words say two things of it"
            elif option == "--again" and is_mode_built(self.new[name]):
                why = "the farm does not say how it is built: its Mode is built"
            if why:
                raise Refused(f"refused 722 recipe {name}", f"  {why}")

    def sort(self, name, paragraph):
        """Puts a recipe where it belongs."""
        outputs, again = self.outputs[name], self.asks_again(name)
        known = [it for it in outputs if it in self.archive]
        lost = [it for it in outputs if it in self.withdrawn]
        if name in self.wishes.named("--without"):
            self.given_up.append(name)
        elif name in self.published and not again:
            self.done.append(name)
            self.note_done(name, [it for it in outputs if it not in known and it not in lost], lost)
        elif outputs and len(known) == len(outputs) and not again:
            self.done.append(name)
        elif known:
            others = [it for it in outputs if it not in known]
            told = [f"  {item_text(it)} is in the archive" for it in known] + [f"  {item_text(it)} is not" for it in others]
            raise Refused(f"refused 721 recipe {name}", *told)
        elif lost:
            told = (f"  {item_text(it)} was withdrawn; another version is to be built" for it in lost)
            raise Refused(f"refused 721 recipe {name}", *told)
        else:
            self.leave(name, paragraph)

    def note_done(self, name, newer, lost):
        if newer:
            self.newer.append((name, newer[0]))
        elif lost:
            self.lost.append((name, lost[0]))

    def leave(self, name, paragraph):
        self.left.append(name)
        if not self.asks_again(name) and self.counts_as_built(name, paragraph):
            self.built.append(name)
        elif is_mode_built(paragraph):
            raise Refused(f"refused 722 recipe {name}", "  its Mode is built, and no build of it has ended")

    def counts_as_built(self, name, paragraph):
        return name in self.wishes.named("--built") or self.has_ended(name, paragraph)

    def has_ended(self, name, paragraph):
        """Whether its build has ended by the journal or by the old farm, and is the one that is wanted."""
        if name not in self.old or not is_same_build(self.old[name], paragraph):
            return False
        is_open_publish = self.open.get(name, ("",))[0] == "publish"
        return name in self.life.built() or is_open_publish or name in self.gave or is_mode_built(self.old[name])

    def pending(self):
        """What an open publish may have put into the archive, of this run or an earlier one, and where."""
        for verb, lane in self.open.values():
            for it in self.life.open_recipe(lane)[1].outputs if verb == "publish" else ():
                yield (it.name, it.version), f"its publish is open in lane {lane}"
        for item in self.old_pending:
            yield item, "its publish was open in an earlier run"

    def is_its_own(self, name, item):
        """Whether a recipe that is left is the build whose publish was open."""
        is_open = self.open.get(name, ("",))[0] == "publish"
        was_open = name in self.old and is_mode_built(self.old[name]) and item in Items(listed(self.old[name], "Outputs"))
        return name in self.built and self.has_ended(name, self.new[name]) and (is_open or was_open)

    def judge_pending(self, name):
        """No other build gives what an open publish may have put into the archive."""
        mine = Items(self.outputs[name])
        for item, why in self.pending():
            if item in mine and not self.is_its_own(name, item):
                raise Refused(f"refused 725 recipe {name}", f"  {item_text(item)} may be in the archive by now: {why}")


def texts_of(items):
    return [(name, version.text) for name, version in items]


def is_mode_built(paragraph):
    return paragraph.get("Mode") == "built"


def source_of(paragraph):
    """The source of a recipe, as its items are; those that are none by their text."""
    items = listed(paragraph, "Source")
    return items or (paragraph.get("Source") or "")


def is_same_source(one, other):
    left, right = source_of(one), source_of(other)
    if isinstance(left, str) or isinstance(right, str) or len(left) != len(right):
        return left == right
    return all(item in Items([mine]) for item, mine in zip(left, right))


def is_same_build(old, new):
    """Whether two recipes are of one source, mode and profiles. The mode counts for nothing where one is `built`."""
    modes = [paragraph.get("Mode") or "full" for paragraph in (old, new)]
    profiles = [set(names_in(paragraph, "Profiles")) for paragraph in (old, new)]
    return is_same_source(old, new) and (modes[0] == modes[1] or "built" in modes) and profiles[0] == profiles[1]
