"""What is said of a fault of a wish or of an index, for a person: FORMATS, section 20."""

from fault_notes import LOOKED_AT, SENTENCES, SHOWN, escaped, look
from texts import lines

# what a wish or an index has to have where that differs from a farm text
OF_WISH = {
    205: "expected names of packages in `Outputs`, without versions",
    206: "expected one source in `Source`, as `gcc` or `gcc (= 14-1)`",
    208: "expected at least one item in this field",
}
OF_INDEX = {105: "expected an index of at most 1,073,741,824 bytes, and each paragraph of at most 67,108,864"}


def text_of(file, wish, given):
    """The text that a fault is in, and as what it was given."""
    if file == "wish":
        return wish, "farm"
    for option, kind in (("--packages", "packages"), ("--archive", "packages"), ("--sources", "sources")):
        for name, text in given[option]:
            if name == file:
                return text, kind
    return "", None


def lines_below(fault, wish, given):
    """The lines below that of the refusal of a given text: its line, what was expected, and what it looks like."""
    text, kind = text_of(fault.file, wish, given)
    refused = lines(text)[fault.line - 1] if fault.line else ""
    told = [f"{fault.file} line {fault.line}: {escaped(refused[:SHOWN])}"] if fault.line else []
    own = OF_WISH if fault.file == "wish" else OF_INDEX
    sign = look(text, kind, refused) if fault.code in LOOKED_AT else None
    below = [own.get(fault.code, SENTENCES.get(fault.code)), sign]
    return [*told, *(f"  {it}" for it in below if it)]


def made_lines(fault, texts):
    """The same of a text that was made, of which no more is said than what was expected."""
    told = [f"{fault.file} line {fault.line}: {escaped(lines(texts[fault.file])[fault.line - 1][:SHOWN])}"] if fault.line else []
    return [*told, f"  {SENTENCES[fault.code]}"]
