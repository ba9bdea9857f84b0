#!/usr/bin/env python3
"""Writes the outer layers of the calls from the two tables in tools/calls.py.
    tools/outer.py            writes the files that differ, and names them
    tools/outer.py --check    writes nothing; names the files that differ, and exits with 1 where there is one
These are: the calls for C and Rust (c_update, c_order, c_conflict, c_text, c_intersection, c_load), the calls on node records (record_update,
record_order, record_text, record_intersection) and those on records for tests (test_records), but for their proofs: Rattle finds those of the calls
for C and Rust and for tests, and the others stand in their crates; the refusals and the declarations in include/tokuwhape.h, rust/src/refusal.rs,
rust/src/symbols.rs and rust/ring_records/src/symbols.rs. Of what is written by hand these are compared: in c_file the heads of its functions, in a
call on node records its head and its contract, and in spec_calls the numbers of the refusals."""
import sys
from pathlib import Path

import calls
from layers.declarations import exported, header, symbols
from layers.rattle import c_source, file_heads, on_records_head, records_source, tests_source
from layers.refusals import rust as refusals, specified
from layers.table import records_crate, with_nodes

ROOT = Path(__file__).resolve().parent.parent


def files():
    """Each file that is written, with its lines."""
    made = {}
    for crate in calls.CRATES:
        made[f"crates/c_{crate}/src/lib.rt"] = c_source(crate)
    for call in with_nodes():
        crate = records_crate(call)
        if not call.by_hand:
            made[f"crates/{crate}/src/lib.rt"] = records_source(call.crate)
    made["crates/test_records/src/lib.rt"] = tests_source()
    made["include/tokuwhape.h"] = header((ROOT / "include/tokuwhape.h").read_text())
    about = "The archive's functions, as include/tokuwhape.h declares them. A node table is counted in numbers of 16 bits, 257 to a record."
    made["rust/src/symbols.rs"] = symbols("tokuwhape", exported(), about, "numbers")
    made["rust/src/refusal.rs"] = refusals()
    on_records = [x for x in exported() if any(p.nodes for p in x[1])]
    made["rust/ring_records/src/symbols.rs"] = symbols("ring", on_records, "The archive's functions. A node table is counted in records.", "records")
    return {path: "\n".join(lines) + "\n" for path, lines in made.items()}


def main(words):
    if words not in ([], ["--check"]):
        sys.exit(__doc__)
    check = words == ["--check"]
    made = files()
    differ = [path for path, text in made.items() if not (ROOT / path).exists() or (ROOT / path).read_text() != text]
    if not check:
        for path in differ:
            (ROOT / path).parent.mkdir(parents=True, exist_ok=True)
            (ROOT / path).write_text(made[path])
    by_hand = {"crates/c_file/src/lib.rt": file_heads(), "crates/spec_calls/specs/Refusals.antt": ["\n".join(specified())]}
    by_hand |= {f"crates/{call.by_hand}/src/lib.rt": on_records_head(call) for call in with_nodes() if call.by_hand}
    wrong = [f"{path} (by hand)" for path, parts in by_hand.items() if not all(part in (ROOT / path).read_text() for part in parts)]
    print(*differ, *wrong, sep="\n", end="\n" if differ or wrong else "")
    return 1 if wrong or (check and differ) else 0


if __name__ == "__main__":
    sys.exit(main(sys.argv[1:]))
