"""The Rattle functions of the outer layers."""
import calls
from layers.table import (
    coded,
    counted,
    enum_uses,
    enums,
    functions,
    lent_uses,
    names,
    node_tables,
    of_crate,
    on_records,
    params,
    promise,
    with_nodes,
    written,
)
from layers.text import CODED, MADE, comment, signature

TACTIC = "#![tactic(auto)]\n"  # and a blank line
REPLY = "(reply result value.new)"


def at_entry(p):
    return f"{p.name}.{'old' if p.written else 'now'}" if p.table else p.name


def coded_entry(p):
    """The same in a function for C or Rust."""
    return f"({p.enum.numbered} {p.name})" if p.enum else at_entry(p)


def at_exit(p):
    return f"{p.name}.new"


def declared(p, node):
    """A parameter, where a node table's entries are `node`."""
    kind = "&mut " if p.written else "&" if p.table else ""
    return f"{p.name}: {kind}{f'[{node if p.nodes else p.type}]' if p.table else p.type}"


def head(name, lent, result, node):
    return signature(name, [declared(p, node) for p in lent], result, 100)


def function(head, ensures, body):
    return "\n".join([head, f"    ensures {{ {ensures} }}", "{", *("    " + line for line in body), "}"])


def with_value(call):
    return call.does + (f" The value is {call.value}." if call.value else "")


ANSWER = "Result<usize, Refusal>"


def with_answer(call):
    if not call.value:
        return call.does
    left = ", and leaves every table as it was" if written(call) else ""
    return f"{call.does} Answers {call.value}; or refuses ({call.refuses}){left}."


def decoded(call):
    """What a function for C or Rust does first: of each number of an enum's value it takes the value."""
    return [f"let {p.name} = {p.type}::from({p.name});" for p in enums(call)]


def uses(module, named):
    if named:
        yield f"ghost use {module}.{{{', '.join(named)}}};"


def on_tables(made):
    return "on node tables" if any(len(node_tables(call)) > 1 for call in made) else "on a node table"


# ---- for C and Rust


def c_source(crate):
    made = of_crate(crate)
    tables = [call for call in made if call in with_nodes()]
    where = f", {on_tables(made)} of rows of 257 numbers, one row a record" if tables else ""
    yield comment(f"{calls.CRATES[crate]}, for C and Rust{where}. {CODED} {MADE}")
    yield TACTIC
    yield from enum_uses(made)
    yield from uses("Rattle.spec_calls.specs.Tables", ["lent_rows"] * bool(tables) + lent_uses(made))
    yield from uses("Rattle.spec_calls.specs.Refusals", ["reply"])
    yield from uses("Rattle.spec_calls.specs.Promises", [call.promise for call in made])
    if named := enum_names(made):
        yield ""
        yield from named
    for call in made:
        body = decoded(call) + [f"let {calls.RECORDS[x]} = c_rows::records({x});" for x in node_tables(call)]
        body += called(f"let answer = {call.rows}::{call.name}", counted(call)).splitlines()
        body.append("spec_calls::code(answer, value)")
        ensures = promise(call, coded_entry, at_exit, lambda of, p: f"(lent_rows {of} {at_entry(p)})", REPLY)
        yield "\n" + comment(with_value(call)) + "\n#[unsafe(no_mangle)]"
        yield function(head(f'pub extern "C" fn tokuwhape_{call.name}', coded(call.lent + " value!"), "u8", "u16"), ensures, body)


def called(head, xs):
    """A call whose result is named: in one line, or where that is too long with all that it takes in one line of its own."""
    line = f"{head}({', '.join(xs)});"
    return line if len(line) <= 96 else f"{head}(\n    {', '.join(xs)},\n);"


def file_heads():
    """The head of each function of crate c_file."""
    return [head(f'pub extern "C" fn tokuwhape_{call.name}', coded(call.lent), call.result, "u16") for call in calls.FILE]


# ---- on node records


def with_rows(f):
    lent = " and ".join(f"`{x}`" for x in f.in_rows)
    return f"As `{f.call.name}`, with {lent} as rows and their number of records."


def records_uses(made, reply, tables):
    """`tables`: what is used besides of spec_calls/specs/Tables."""
    yield from uses("Rattle.spec_calls.specs.Tables", tables + lent_uses(made))
    yield from uses("Rattle.spec_calls.specs.Refusals", [reply])
    yield from uses("Rattle.spec_calls.specs.Promises", [call.promise for call in made])
    stored = any(p.nodes for call in made for p in written(call))
    yield from uses("Rattle.record_copy.specs.Rows", ["node_rows"] * stored)
    yield from uses("Rattle.record_left.specs.Records", ["lent_records"] + ["Left"] * stored)
    yield "\nuse record_copy::Node;"


def enum_names(made):
    """The uses of the enums of which these calls are lent a value."""
    return sorted({f"use {p.enum.crate}::{p.type};" for call in made for p in enums(call)})


def on_records_head(call):
    """The comment, the head and the contract of the call on node records."""
    return [comment(with_answer(call)), head(f"pub fn {call.name}", params(call.lent), ANSWER, "Node"), f"ensures {{ {on_records(call, at_entry, at_exit, '(report result)')} }}"]


def records_source(crate):
    made = [call for call in of_crate(crate) if not call.by_hand]
    apart = "".join(f", but for `{call.name}`, which stands in {call.by_hand}" for call in of_crate(crate) if call.by_hand)
    yield comment(f"{calls.CRATES[crate]}, {on_tables(made)} of records{apart}. {MADE}")
    yield TACTIC
    yield from records_uses(made, "report", ["lent_nodes"] * any(f.in_rows for call in made for f in functions(call)))
    yield "use spec_calls::Refusal;"
    yield from enum_names(made)
    for call in made:
        for f in functions(call):
            does, public = (with_answer(call), "pub ") if f.name == call.name else (with_rows(f), "")
            ensures = on_records(call, at_entry, at_exit, "(report result)", f.in_rows)
            yield "\n" + comment(does)
            yield function(head(f"{public}fn {f.name}", f.params(), ANSWER, "Node"), ensures, records_body(f))


def records_body(f):
    have, (crate, name) = calls.RECORDS[f.table], f.core
    stored = f.table in [p.name for p in written(f.call)]
    flat = f"&mut flat, {have}" if stored else f"&flat, {have}"
    called = name if crate == f"record_{f.call.crate}" else f"{crate}::{name}"
    core = f"{called}({', '.join(flat if p.name == f.table else p.name for p in f.params())})"
    body = ["let mut flat = [0u16; 65792];", f"let {have} = record_copy::load({f.table}, &mut flat);"]
    return body + ([f"let r = {core};", f"record_copy::store(&flat, {f.table});", "r"] if stored else [core])


def tests_source():
    made = with_nodes()
    yield comment(f"The calls of crate `record_calls` on node records, for tests from C and Rust. {CODED} {MADE}")
    yield TACTIC
    yield from enum_uses(made)
    yield from records_uses(made, "reply", [])
    yield from enum_names(made)
    for call in made:
        body = decoded(call) + [f"let answer = record_calls::{call.name}({', '.join(names(call))});", "spec_calls::code(answer, value)"]
        yield "\n" + comment(with_value(call)) + "\n#[unsafe(no_mangle)]"
        made_head = head(f'pub extern "C" fn ring_{call.name}', coded(call.lent + " value!"), "u8", "Node")
        yield function(made_head, on_records(call, coded_entry, at_exit, REPLY), body)
