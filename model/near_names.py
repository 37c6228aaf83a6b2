"""Names that nearly are another: FORMATS, section 16."""

MOST_NEAR = 3


def is_near(name, other):
    """Whether one letter more, less or other, or two neighbours exchanged, makes one of the other."""
    while name and other and name[0] == other[0]:
        name, other = name[1:], other[1:]
    while name and other and name[-1] == other[-1]:
        name, other = name[:-1], other[:-1]
    return max(len(name), len(other)) == 1 or len(name) == 2 and name == other[::-1]


def near_text(words, names, begins="", quote=""):
    """`; near: ` and the first three names that are near one of some words, or begin with it and `begins`; else nothing."""
    near = [name for name in names
            if any(is_near(word, name) or begins and name.startswith(word + begins) for word in words)]
    return f"; near: {', '.join(quote + name + quote for name in near[:MOST_NEAR])}" if near else ""
