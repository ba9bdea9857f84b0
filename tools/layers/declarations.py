"""The declarations of the calls for C and Rust."""
import calls
from layers.refusals import constants
from layers.table import coded
from layers.text import MADE, signature, wrapped

C_TYPES = {"Node": "tokuwhape_node", "usize": "size_t", "u8": "uint8_t", "u16": "uint16_t", "u32": "uint32_t", "u64": "uint64_t"}


def exported():
    """Each call for C and Rust: its name, what it is lent, its result, and what it does."""
    for call in calls.RING:
        value = f" *value: {call.value}." if call.value else ""
        yield call.name, coded(call.lent + " value!"), "u8", call.does + value
    for call in calls.FILE:
        yield call.name, coded(call.lent), call.result, call.does


def counts(lent, nodes):
    """What the number of entries of each table is called, of a node table `nodes`; with the table's name where two would be called alike."""
    short = {p.name: nodes if p.nodes else "words" if p.name == "book" else "places" if p.written else "length" for p in lent if p.table}
    return {name: word if list(short.values()).count(word) == 1 else f"{name}_{word}" for name, word in short.items()}


def declared():
    """The calls in C. There a leaf is a bin, as in document 01."""
    for name, lent, result, does in exported():
        given, counted = [], counts(lent, "numbers")
        for p in lent:
            kind = C_TYPES[p.type]
            if p.table:
                given += [f"{'' if p.written else 'const '}{kind} *{p.name}", f"size_t {counted[p.name]}"]
            else:
                given.append(f"{kind} {'*' if p.written else ''}{p.name}")
        head = f"{C_TYPES[result]} tokuwhape_{name}("
        does = does.replace("leaves", "bins").replace("leaf", "bin")
        yield wrapped(f"{does}~*/", 140, "/* ", " * ")
        yield wrapped(" ".join(x.replace(" ", "~") + "," for x in given)[:-1] + ");", 140, head, " " * len(head)) + "\n"


def header(old):
    """The header with each of its two parts between its marks."""
    lines = old.splitlines()
    for part, made in {"What a call returns": constants, "The calls": declared}.items():
        begin, end = lines.index(f"/* ---- {part}. {MADE} */"), lines.index(f"/* ---- {part}: end. */")
        lines = [*lines[: begin + 1], "", *made(), *lines[end:]]
    return lines


def symbols(prefix, made, about, nodes):
    """The functions of an archive, for Rust."""
    yield wrapped(f"{about} {MADE}", 140, "//! ", "//! ")
    yield 'use crate::Node;\n\nextern "C" {'
    for name, lent, result, _ in made:
        given, counted = [], counts(lent, nodes)
        for p in lent:
            if p.table:
                given += [f"{p.name}: *{'mut' if p.written else 'const'} {p.type}", f"{counted[p.name]}: usize"]
            else:
                given.append(f"{p.name}: {'*mut ' if p.written else ''}{p.type}")
        yield signature(f"pub fn {prefix}_{name}", given, result, 140, "    ", ";")
    yield "}"
