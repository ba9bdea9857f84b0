"""The refusals for C and Rust, and as the specification has them."""
import re

from calls import REFUSALS
from layers.text import MADE


def constants():
    """What a call returns, in C."""
    yield "enum tokuwhape_answer {"
    yield "    TOKUWHAPE_DONE = 0,"
    for why in REFUSALS:
        constant = f"TOKUWHAPE_{re.sub('(?<=.)(?=[A-Z])', '_', why.name).upper()} = {why.number}{',' * (why != REFUSALS[-1])}"
        value = f"; *value: the {why.names}, from 0" if why.names else ""
        yield f"    {constant:31} /* {why.cause}{value} */"
    yield "};\n"


def case(why, bound):
    """The case of a refusal in Rust, with a name for what it holds."""
    return f"Refusal::{why.name}" + f"({bound})" * bool(why.names)


def cases(left, right):
    return [f"            {left(why)} => {right(why)}," for why in REFUSALS]


def told(why):
    at = f", at {why.names} {{at}}" if why.names else ""
    return f'write!(f, "{why.cause}{at}")'


def rust():
    """The type of refusals."""
    yield f"//! Why a call is refused. {MADE}"
    yield "use std::fmt;\n"
    yield "/// The refusals of documents 01 and 02; no call gives 4. A place counts from 0 in the group's list, a byte from 0 in the file or text."
    yield "#[derive(Clone, Copy, PartialEq, Eq, Debug)]\npub enum Refusal {"
    for why in REFUSALS:
        yield f"    /// {why.number}: {why.cause}."
        yield f"    {why.name}{'(usize)' * bool(why.names)},"
    yield "}\n\nimpl Refusal {"
    yield "    /// The refusal that a call reports as this number and value; none for 0."
    yield "    pub(crate) fn reported(number: u8, value: usize) -> Option<Refusal> {"
    yield "        Some(match number {\n            0 => return None,"
    yield from cases(lambda why: why.number, lambda why: case(why, "value"))
    yield '            _ => unreachable!("no call of the archive returns {number}"),'
    yield "        })\n    }\n"
    yield "    /// The refusal's number in the table."
    yield "    pub fn number(self) -> u8 {\n        match self {"
    yield from cases(lambda why: case(why, "_"), lambda why: why.number)
    yield "        }\n    }\n"
    yield "    /// The place or byte that the refusal names."
    yield "    pub fn place(self) -> Option<usize> {\n        match self {"
    yield f"            {' | '.join(case(why, 'at') for why in REFUSALS if why.names)} => Some(at),"
    yield "            _ => None,\n        }\n    }\n}\n"
    yield "impl fmt::Display for Refusal {\n    fn fmt(&self, f: &mut fmt::Formatter) -> fmt::Result {\n        match self {"
    yield from cases(lambda why: case(why, "at"), told)
    yield "        }\n    }\n}\n\nimpl std::error::Error for Refusal {}"


def specified():
    """The definition in spec_calls/specs/Refusals that gives each refusal its numbers."""
    yield "abbrev pub reported : Refusal → Reply"
    for why in REFUSALS:
        yield f"reported ({why.name} {why.names}) = reply {why.number} {why.names}" if why.names else f"reported {why.name} = reply {why.number} 0"
    yield "\n"  # a blank line: no other case follows
