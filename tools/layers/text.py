"""Text in the layouts of the files that are written."""
import textwrap

MADE = "Written by tools/outer.py."
CODED = (
    "Each returns 0, or the number of its refusal, and writes one number through `value`: its own answer; or the place or byte of the "
    "refusal, 0 where the table names none."
)


def wrapped(text, width, first, then):
    """Text in lines; a `~` is a space at which no line ends."""
    lines = textwrap.wrap(text, width, initial_indent=first, subsequent_indent=then, break_on_hyphens=False, break_long_words=False)
    return "\n".join(lines).replace("~", " ")


def comment(text):
    return wrapped(text, 150, "// ", "// ")


def listed(head, xs, tail, width, indent=""):
    """What stands before and behind a list in brackets, and this: in one line, or where that is too long a line for each of the list."""
    line = f"{indent}{head}({', '.join(xs)}){tail}"
    if len(line) > width:
        line = f"{indent}{head}(\n" + "".join(f"{indent}    {x},\n" for x in xs) + f"{indent}){tail}"
    return line


def signature(head, lent, result, width, indent="", end=""):
    """A function's head."""
    return listed(head, lent, f" -> {result}{end}", width, indent)
