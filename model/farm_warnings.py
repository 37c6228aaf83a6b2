"""Warnings: what is odd in the texts of a farm and refuses no plan. FORMATS, section 15."""

from architectures import architecture_names
from imports import is_given
from relations import PROVIDE, read_field
from texts import lines, paragraphs, pieces
from universe import BUILD_RELATIONS, read_relations, read_source_head

HEAD = ["Architecture-Names", "Archive"]
RECIPE = ["Recipe", "Source", "Mode", "Profiles", "Steps", "Scratch", "Outputs"]
CHROOT = ["Chroot", "Capacity", "Packages"]


def is_one_of(name, names):
    return name.lower() in (known.lower() for known in names)


def fields_by_paragraph(text):
    """Of each paragraph its fields, each with its own line, its name as it is written, and its value."""
    found, current = [], None
    for line, content in enumerate(lines(text), 1):
        if content.startswith("#"):
            continue
        if content.strip(" \t") == "":
            current = None
        elif content[0] in " \t":
            current[-1][2] += "\n" + content
        else:
            if current is None:
                current = []
                found.append(current)
            name, _, value = content.partition(":")
            current.append([line, name, value])
    return found


def is_recipe(fields):
    return any(is_one_of(name, ["Recipe"]) for _, name, _ in fields)


def unknown_fields(farm):
    """The fields that are passed over."""
    for place, fields in enumerate(farm):
        known = HEAD if place == 0 else RECIPE if is_recipe(fields) else CHROOT
        for line, name, _ in fields:
            if not is_one_of(name, known):
                yield f"farm line {line}: the field {name} is not known, and is passed over"


def needs(universe):
    """The alternatives in the build relations of all sources."""
    relations = [fields for sources in universe.sources.values() for _, fields, _ in sources]
    return [it for fields in relations for field in fields.values() for entry in field for it in entry]


def listed_profiles(sources):
    """The profiles in the marks `profile=a+!b,c` of Package-Lists (dsc(5))."""
    for source in sources:
        for word in pieces(source.get("Package-List") or ""):
            key, _, formula = word.partition("=")
            if key == "profile" and "=" in word:
                yield from (term.removeprefix("!") for terms in formula.split(",") for term in terms.split("+"))


def unasked_profiles(universe, sources, recipes):
    """The profiles of recipes that no source names, in a build relation or in its Package-List, each once."""
    asked = {word for it in needs(universe) for items in it.profiles for word, _ in items} | {*listed_profiles(sources)}
    named = [it for fields in recipes for it in fields if is_one_of(it[1], ["Profiles"])]
    lines_of = {}
    for line, _, value in named:
        for word in pieces(value):
            lines_of.setdefault(word, []).append(line)
    for word, found in lines_of.items():
        if word not in asked:
            more = f", named {len(found)} times, first here" if len(found) > 1 else ""
            yield f"farm line {found[0]}: no source asks for the profile {word}{more}"


def named_architectures(sources):
    """The names in the build relations and the field Architecture of sources, each with the lines of the sources that have it."""
    found = {}
    for source in sources:
        relations = read_relations(source, BUILD_RELATIONS).values()
        words = [word for field in relations for entry in field for it in entry for word, _ in it.architectures or ()]
        for word in words + pieces(source.get("Architecture") or ""):
            found.setdefault(word, []).append(source.line)
    return found


def forgotten_names(universe, sources):
    """The names that match the farm's architecture, the first of its names, that sources have, and the farm does not."""
    lines_of = named_architectures(sources)
    for name in architecture_names(universe.architectures[0]) if universe.architectures else ():
        found = lines_of.get(name, [])
        if found and name not in universe.architectures:
            often = f"named {len(found)} times, first here" if len(found) > 1 else "which this source names"
            yield f"sources line {found[0]}: the Architecture-Names of the farm lack {name}, {often}"


def unbuilt_recipes(universe, plan, recipes):
    built = {it.recipe.name for lane in plan for it in lane.instructions if it.verb == "build"}
    for name, fields in zip(universe.recipes, recipes):
        if name not in built:
            yield f"farm line {fields[0][0]}: no lane builds the recipe {name}"


def package_list(sources, recipe):
    """The rows for packages in the Package-List of a recipe's source, each as its words."""
    [[item]] = read_field(recipe.get("Source"), PROVIDE)
    for source in sources:
        name, version = read_source_head(source)
        if name == item.name and version.compare(item.version) == 0:
            rows = [pieces(row) for row in (source.get("Package-List") or "").split("\n")]
            return [row for row in rows if len(row) > 3 and row[1] == "deb"]
    return []


def unmade_outputs(universe, texts):
    """The outputs of recipes that the sources list, and do not give to such a build."""
    sources = paragraphs(texts["sources"], "sources")
    for recipe in paragraphs(texts["farm"], "farm")[1:]:
        if recipe.get("Recipe") is None:
            continue
        rows, profiles, mode = package_list(sources, recipe), pieces(recipe.get("Profiles") or ""), recipe.get("Mode") or "full"
        given = [row[0] for row in rows if is_given(row, universe.architectures, profiles, mode)]
        for [item] in read_field(recipe.get("Outputs"), PROVIDE):
            if item.name not in given and any(row[0] == item.name for row in rows):
                yield f"farm line {recipe.line}: by the Package-List of its source this recipe does not build {item.name}"


def lacking(packages, words):
    """One line of the paragraphs that lack something, where there are some."""
    if packages:
        yield f"packages line {packages[0].line}: {len(packages)} packages {words}, the first one here"


def unsized(packages):
    return lacking([it for it in packages if it.get("Installed-Size") is None], "have no Installed-Size")


def foreign(universe, packages):
    named = {None, "all", *universe.architectures}
    words = "have an architecture that the farm does not name"
    return lacking([it for it in packages if it.get("Architecture") not in named], words)


def endless_waits(universe, plan):
    """The waits whose entry no package could meet in any version."""
    provided = (entry for variant in universe.all_variants() for entry in variant.relations["Provides"])
    names = {*universe.variants, *(item.name for [item] in provided)}
    for lane in plan:
        for it, (line, _) in zip(lane.instructions, lane.lines):
            if it.verb == "wait" and not any(alternative.name in names for alternative in it.entry):
                yield f"plan line {line}: no package is or provides what this waits for"


def warnings(universe, plan, texts):
    """The lines of all warnings."""
    farm = fields_by_paragraph(texts["farm"])
    recipes = [fields for fields in farm[1:] if is_recipe(fields)]
    packages, sources = paragraphs(texts["packages"], "packages"), paragraphs(texts["sources"], "sources")
    found = [
        *unknown_fields(farm),
        *unasked_profiles(universe, sources, recipes),
        *forgotten_names(universe, sources),
        *unbuilt_recipes(universe, plan, recipes),
        *unmade_outputs(universe, texts),
        *unsized(packages),
        *foreign(universe, packages),
        *endless_waits(universe, plan),
    ]
    return [f"warning: {words}" for words in found]
