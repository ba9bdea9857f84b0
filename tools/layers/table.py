"""The table of calls, read."""
from typing import NamedTuple

import calls


class Param:
    """What a call is lent; `type` where it is not that of the table."""

    def __init__(self, word, type=None):
        self.name, self.written = word.rstrip("!"), word.endswith("!")
        self.table = self.name in calls.TABLES
        self.type = type or (calls.TABLES if self.table else calls.VALUES)[self.name]
        self.nodes, self.enum = self.type == "Node", calls.ENUMS.get(self.type)


def params(lent):
    return [Param(word) for word in lent.split()]


def coded(lent):
    """What a function for C or Rust is lent: for a value of an enum its number."""
    return [Param(p.name, p.enum.type) if p.enum else p for p in params(lent)]


def enums(call):
    """The values of enums that the call is lent."""
    return [p for p in params(call.lent) if p.enum]


def names(call):
    return [p.name for p in params(call.lent)]


def written(call):
    return [p for p in params(call.lent) if p.written]


def with_nodes():
    """The calls that are lent a node table."""
    return [call for call in calls.RING if any(p.nodes for p in params(call.lent))]


def of_crate(crate):
    return [call for call in calls.RING if call.crate == crate]


def records_crate(call):
    """The crate that has the call on node records."""
    return call.by_hand or f"record_{call.crate}"


def node_tables(call):
    """The names of the node tables that the call is lent."""
    return [p.name for p in params(call.lent) if p.nodes]


def counted(call):
    """The names of what the call on rows is lent: behind each node table the number of its records."""
    return [x for name in names(call) for x in ([name, calls.RECORDS[name]] if name in node_tables(call) else [name])]


class Function(NamedTuple):
    """A function on node records. It takes the records of one node table to rows, and calls a core that is lent these."""

    call: calls.Call
    name: str
    table: str  # the node table whose records it takes
    in_rows: list  # the node tables that it is itself lent as rows, each with the number of its records
    core: tuple  # its crate and name

    def params(self):
        for p in params(self.call.lent):
            if p.name in self.in_rows:
                yield Param(p.name + "!" * p.written, "u16")
                yield Param(calls.RECORDS[p.name], "usize")
            else:
                yield p


def functions(call):
    """The functions on records of a call, itself first: each takes one node table, the last one first, and the next one is its core."""
    tables = node_tables(call)
    made = [*(f"{x}_in_rows" for x in tables[1:]), call.name]
    cores = [(call.rows, call.name), *((f"record_{call.crate}", name) for name in made)]
    return [Function(call, made[k], tables[k], tables[k + 1 :], cores[k]) for k in reversed(range(len(tables)))]


def of_book(call, words, entry):
    """A book with these words, and what else of it the call is lent."""
    by_name = {p.name: p for p in params(call.lent)}
    return " ".join(["(lent_book", words, *(entry(by_name[x]) if x in by_name else "0" for x in calls.OF_BOOK)]) + ")"


def lent(call, entry, nodes):
    """What is lent as a promise takes it: `entry` gives a parameter, `nodes` a node table, from what stands before it and the table."""
    by_name = {p.name: p for p in params(call.lent)}
    before = {x for name in node_tables(call) for x in calls.OF_NODES[name]}
    for p in by_name.values():
        if p.nodes:
            yield nodes(" ".join(entry(by_name[x]) for x in calls.OF_NODES[p.name]), p)
        elif p.name == "book":
            yield of_book(call, entry(p), entry)
        elif p.name not in before and p.name not in calls.OF_BOOK:
            yield entry(p)


def promise(call, entry, exit, nodes, said):
    """The call's promise, of what is lent (see `lent`), of what is written, each by `exit`, and of what is returned."""
    left = (of_book(call, exit(p), entry) if p.name == "book" else exit(p) for p in written(call))
    return " ".join([call.promise, *lent(call, entry, nodes), *left, said])


def lent_table(of, p, entry, in_rows):
    """A node table of such a ring or rack: of records, or of rows with their number where it is among `in_rows`."""
    return f"(lent_nodes {of} {calls.RECORDS[p.name]} {entry(p)})" if p.name in in_rows else f"(lent_records {of} {entry(p)})"


def on_records(call, entry, exit, said, in_rows=()):
    """The promise on node records: where they are written, with what is left of them. The tables `in_rows` are lent as rows."""
    stored = [p.name for p in written(call) if p.nodes and p.name not in in_rows]
    rows = lambda p: f"(node_rows {exit(p)})" if p.name in stored else exit(p)
    text = promise(call, entry, rows, lambda of, p: lent_table(of, p, entry, in_rows), said)
    return text + "".join(f" × Left {entry(p)} {exit(p)} {said}" for p in written(call) if p.name in stored)


def lent_uses(made):
    """The definitions of spec_calls/specs/Tables that the promises of these calls are stated with."""
    return ["lent_book"] * any("book" in names(call) for call in made)


def enum_uses(made):
    """The uses of the definitions by which a value of an enum is given for C and Rust."""
    return sorted({f"ghost use {p.enum.definition};" for call in made for p in enums(call)})
