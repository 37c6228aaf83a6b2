"""From a wish and whole indexes to the texts of a farm: where the wish asks for a choice, by the explicit wish that answers it."""

from imports import HEAD, Import, texts_of
from indexes import PackagesIndex, SourcesIndex
from stage_answers import Answer
from stage_builds import Beginning
from wishes import Wish


def make_texts(wish_text, archive, packages, sources, forbidden=()):
    """The texts, and the lines that tell of them; Refused, or Fault. The indexes are pairs of a name and a text."""
    wish = Wish(wish_text)
    target = PackagesIndex(packages, wish.architectures)
    own = PackagesIndex(archive, wish.architectures) if archive else target
    sources = SourcesIndex(sources)
    if wish.every_build is None:
        return texts_of(Import(wish, own, target, sources))
    beginning = Beginning(wish, own, target)
    answer = Answer(wish, beginning, target, sources)
    for name in forbidden:
        answer.forbid(name)
    text = HEAD + answer.wish_text()
    explicit = Wish(text)
    explicit.notes = [*wish.notes, *answer.notes, *answer.ways.notes]
    texts, told = texts_of(Import(explicit, beginning, target, sources), True)
    return texts | {"wish": text}, [*answer.table(), *told]
