"""Which word of a plan's line is not known: FORMATS, section 16."""

from near_names import MOST_NEAR, near_text
from relations import NEED, read_alternative
from texts import pieces
from universe import read_universe


def provider_of(universe, word):
    """The first variant that provides a name."""
    variants = universe.all_variants()
    return next((it for it in variants if any(item.name == word for [item] in it.relations["Provides"])), None)


def package_note(universe, word, where, shown):
    provider = provider_of(universe, word)
    if provider:
        return f"{word} is virtual: {provider.name} (= {provider.version.text}) provides it"
    return f"no package is called `{shown(word)}`{where}{near_text([word], universe.variants, '-')}"


def chroot_note(universe, word, shown):
    names = list(universe.chroots)
    near = near_text([word], names, "-")
    has = f"the farm has {', '.join(names[:MOST_NEAR])}" if names else "the farm has none"
    return f"no base chroot is called `{shown(word)}`{near or '; ' + has}"


def unknown_word(universe, content):
    """The first word of a plan's line that is not known, what it names and, of several packages, its place in the line."""
    [head, *found], text = pieces(content), content.strip(" \t").replace("\t", " ").partition(" ")[2]
    if head == "lane":
        return found[2], "chroot", None
    if head in ("build", "publish"):
        return found[0], "recipe", None
    if head in ("unpack", "when"):
        return read_alternative(text, NEED).name, "package", None
    place, word = next((place, word) for place, word in enumerate(found, 1) if word not in universe.variants)
    return word, "package", place if len(found) > 1 else None


def word_note(texts, content, shown):
    """The line on the first word of a plan's line that is not known, and the word as data."""
    universe = read_universe(texts)
    word, what, place = unknown_word(universe, content)
    if what == "chroot":
        note = chroot_note(universe, word, shown)
    elif what == "recipe":
        note = f"no recipe is called `{shown(word)}`{near_text([word], universe.recipes, '-')}"
    else:
        note = package_note(universe, word, f" (package {place} of the line)" if place else "", shown)
    return note, {"word": word}
