"""The table of calls: each call on a ring or a rack, on two trees, of a test load or on a ring file, once; and the table of refusals. tools/outer.py writes the outer
layers from them."""
from typing import NamedTuple

# What a call is lent: a value, by its type, a number or an enum; or a table, by the type of its entries.
VALUES = {
    "layout": "Layout",
    "n": "usize",
    "layout2": "Layout",
    "m": "usize",
    "count": "usize",
    "group": "usize",
    "seed": "u32",
    "groups": "usize",
    "value": "usize",
    "k": "usize",
    "names": "usize",
    "head": "usize",
    "lines": "usize",
    "line": "usize",
    "start": "usize",
}
TABLES = {
    "nodes": "Node",
    "other": "Node",
    "third": "Node",
    "book": "u64",
    "list": "u16",
    "order": "u16",
    "conflicts": "u16",
    "bytes": "u8",
    "text": "u8",
    "file": "u8",
}

# A promise is over what is lent, in sequence, then each written table as it is left, then what is returned. A node table stands there as one
# record with these before it, a ring or a rack and its number of bins, a book with these after it, 0 for one that the call is not lent.
OF_NODES = {"nodes": ["layout", "n"], "other": ["layout2", "m"], "third": ["layout", "n"]}
OF_BOOK = ["count"]

# What the number of a node table's records is called, which is lent beside its rows.
RECORDS = {"nodes": "have", "other": "had", "third": "room"}

# The crates of the calls that are lent tables, c_NAME and record_NAME: what their calls do.
CRATES = {
    "update": "The calls that open a ring or a rack, join a group and try one",
    "order": "The calls that write the standard order and find the aim of a group",
    "conflict": "The call that lists the groups in conflict",
    "text": "The calls that write and read the tree text",
    "intersection": "The call that intersects two trees",
    "load": "The call that writes a test load",
}


class Enum(NamedTuple):
    """An enum of which a call is lent a value. For C and Rust the value is a number."""

    crate: str  # that declares it
    type: str  # of the number
    numbered: str  # the definition of a number's value, which `from` gives
    file: str  # of the crate's specs/, where it stands

    @property
    def definition(self):
        return f"Rattle.{self.crate}.specs.{self.file}.{{{self.numbered}}}"


ENUMS = {"Layout": Enum("spec_orders", "u8", "layout_numbered", "Layout")}


class Call(NamedTuple):
    """A call on a ring or a rack, on two trees, or of a test load."""

    name: str
    crate: str  # of CRATES
    rows: str  # the crate that has it on rows
    promise: str  # of spec_calls/specs/Promises
    lent: str  # what it is lent, in sequence, `!` at what it writes
    does: str
    value: str = ""  # what it answers, where `does` does not tell it
    refuses: str = ""
    by_hand: str = ""  # the crate that has it on node records, where that is written by hand


class FileCall(NamedTuple):
    """A call on a ring file. It stands in crate c_file, by hand."""

    name: str
    lent: str
    result: str
    does: str


class Refusal(NamedTuple):
    """A refusal. Its case and numbers stand in spec_calls too, for the proofs, by hand."""

    number: int
    name: str
    cause: str
    names: str = ""  # what is returned with the number


PLACE, BYTE = "place", "byte"

# Documents 01 and 02; no call gives 4.
REFUSALS = [
    Refusal(1, "RingSize", "a count of bins is 0 or above 256"),
    Refusal(2, "ShortTable", "a lent table is too short"),
    Refusal(3, "NotInForm", "the node table or the book is not in form, or the count of groups is above 96"),
    Refusal(5, "OutsideRing", "a bin of the list is 0 or above n", PLACE),
    Refusal(6, "Repeated", "a bin stands in the list a second time", PLACE),
    Refusal(7, "BookFull", "the book has 96 groups already"),
    Refusal(8, "Impossible", "no order of the tree has the group consecutive, or no order is allowed by both trees"),
    Refusal(9, "NoSuchGroup", "the group number is 0 or above the count of groups"),
    Refusal(10, "NotConsecutive", "the book's group is not consecutive in the standard order"),
    Refusal(11, "RingFile", "the ring file is malformed", BYTE),
    Refusal(12, "TreeText", "the tree text is malformed", BYTE),
    Refusal(13, "BinCounts", "the two counts of bins differ, or one is of a ring and one of a rack"),
    Refusal(14, "NoAim", "the book's group is empty, so it has no aim"),
    Refusal(15, "RackSize", "a rack has 256 bins"),
    Refusal(16, "ZeroSeed", "the seed of a test load is 0"),
    Refusal(17, "GroupCount", "the count of groups of a test load is 0 or above 96"),
]

RING = [
    Call(
        name="open",
        crate="update",
        rows="call_update",
        promise="OpenPromise",
        lent="layout n nodes! book!",
        does="Opens a ring or a rack of n bins: its node table gets the fresh tree, and its book is emptied.",
        value="the count of groups, 0",
        refuses="1, 15, 2",
    ),
    Call(
        name="join",
        crate="update",
        rows="call_update",
        promise="JoinPromise",
        lent="layout n nodes! book! count list",
        does="Joins the list's group, which may be empty: the node table gets the new tree, and the group takes the book's next place.",
        value="the new count of groups",
        refuses="1, 15, 2, 3, 5 to 8",
    ),
    Call(
        name="trial",
        crate="update",
        rows="call_update",
        promise="TrialPromise",
        lent="layout n nodes book count list",
        does="Answers as joining the list's group would, and changes nothing.",
        by_hand="record_trial",
    ),
    Call(
        name="order",
        crate="order",
        rows="call_order",
        promise="OrderPromise",
        lent="layout n nodes order!",
        does="Writes the standard order, of a ring from leaf 1, of a rack the first allowed list, to the first n places of order.",
        value="n",
        refuses="1, 15, 2, 3",
    ),
    Call(
        name="aim",
        crate="order",
        rows="call_order",
        promise="AimPromise",
        lent="layout n nodes book count group",
        does="Finds the aim of the book's group with this number from 1, the middle of its run in the standard order: of two middle places, "
        "counted from 0, the even one; on a ring, of the last place and place 0, place 0. An empty group has none.",
        value="the leaf",
        refuses="1, 15, 2, 3, 9, 14, 10",
    ),
    Call(
        name="conflict",
        crate="conflict",
        rows="call_conflict",
        promise="ConflictPromise",
        lent="layout n book count list conflicts!",
        does="Writes the numbers of the book's groups in conflict with the list's group, rising, then zeros, to the first 96 places of conflicts: "
        "none where the whole book and the group can be consecutive together.",
        value="how many numbers",
        refuses="1, 15, 2, 3, 5, 6",
    ),
    Call(
        name="write",
        crate="text",
        rows="call_text",
        promise="WritePromise",
        lent="layout n nodes bytes!",
        does="Writes the tree text, of a rack that of its ring of n + 1 bins, then zeros, to the first 2,048 bytes.",
        value="the length of the text",
        refuses="1, 15, 2, 3",
    ),
    Call(
        name="read",
        crate="text",
        rows="call_text",
        promise="ReadPromise",
        lent="layout n nodes! book! text",
        does="Reads a tree text for n bins, of a rack for its ring of n + 1, lent without zeros after it: the node table gets its tree, a P-node where "
        "the text has a C-node with two items, and the book is emptied.",
        value="the count of groups, 0",
        refuses="1, 15, 2, 12",
    ),
    Call(
        name="intersect",
        crate="intersection",
        rows="call_intersection",
        promise="IntersectPromise",
        lent="layout n nodes layout2 m other third!",
        does="Writes the tree that allows exactly the orders allowed by the tree of n bins and by that of m to the third node table; a rack is taken as "
        "its ring of n + 1 bins.",
        value="0",
        refuses="1, 15, 2, 13, 3, 8",
    ),
    Call(
        name="test_load",
        crate="load",
        rows="call_load",
        promise="TestLoadPromise",
        lent="n seed groups bytes!",
        does="Writes the ring file of the test load of n bins with this seed and so many groups, then zeros, to the first 65,536 bytes. All its groups "
        "can hang together.",
        value="the length of the file",
        refuses="1, 16, 17, 2",
    ),
]

FILE = [
    FileCall(
        name="scan",
        lent="file head! lines! value!",
        result="u8",
        does="Reads a ring file through. *value: how many names, which is n; *head: the bytes of the names line with its line end; *lines: how many "
        "lines of values. Where it is refused (11), *value is the byte, and *head and *lines are 0. Call it first: the two below refuse nothing.",
    ),
    FileCall(
        name="name",
        lent="file k start!",
        result="usize",
        does="Returns the length, 1 to 8, of the name of leaf k + 1 in a file that tokuwhape_scan accepts with more than k names. *start: its first "
        "byte. Of any bytes and any k it is word k, from 0, of the first line, parted at spaces; 0 and *start 0 where there is no such word.",
    ),
    FileCall(
        name="group",
        lent="file names head line list!",
        result="usize",
        does="Writes the leaves, rising, of value line `line`, from 0, to list and returns how many: of a file that tokuwhape_scan accepts with these "
        "names and this head and with more than `line` lines. Of any bytes and any numbers the line is the 2 * names bytes from "
        "head + line * 2 * names on. Where it does not stand whole in the file, names is above 256, or there are fewer than `names` places, it "
        "writes nothing and returns 0.",
    ),
]
