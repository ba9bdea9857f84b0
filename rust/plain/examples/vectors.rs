//! Runs a file of test vectors from standard input: one case a line, a call and its answer with `=` between, as the vectors' README has them. Makes
//! the calls whose letter it knows, prints each line that this planner answers otherwise, and how many it ran.

use plain::{aim, conflict, intersect, join, open, order, read, test_load, trial, write};
use plain::{Answer, Draw, Generator, Layout, Node};
use std::fmt::Display;
use std::io;
use std::process::ExitCode;
use std::str::Split;

const RECORDS: usize = 256;
/// Numbers of a record.
const ROW: usize = 257;
/// Mark words of a book.
const WORDS: usize = 384;
/// Places of a conflict list.
const GROUPS: usize = 96;
/// Bytes of a written tree text.
const BYTES: usize = 2048;
/// Bytes for a ring file to be written, and of the longest file that an answer has whole.
const FILE: usize = 65_536;
const SHOWN: usize = 300;
/// What stands in a table that a call fills, and past a table's stated size.
const OLD: Node = Node { kind: 7, count: 77, items: [777; 255] };
const OLD_WORD: u64 = 77;
const OLD_PLACE: u16 = 777;
const OLD_BYTE: u8 = 77;

/// A ring or a rack as it is lent.
#[derive(Clone, PartialEq)]
struct Lent {
    layout: Layout,
    n: usize,
    nodes: Vec<Node>,
    book: Vec<u64>,
    count: usize,
}

/// The fields of a call. Those for days are 0 and not looked at.
struct Fields<'a>(Split<'a, char>);

impl Fields<'_> {
    fn word(&mut self) -> &str {
        self.0.next().expect("a field")
    }

    fn number(&mut self) -> usize {
        self.word().parse().expect("a number")
    }

    /// n, and whether it is of a rack.
    fn size(&mut self) -> (Layout, usize) {
        let (n, rack) = (self.number(), self.number());
        (if rack == 0 { Layout::Ring } else { Layout::Rack }, n)
    }

    /// LIST: a count and that many numbers.
    fn list(&mut self) -> Vec<u16> {
        (0..self.number()).map(|_| self.number() as u16).collect()
    }

    /// BYTES: a count and that many pairs of hexadecimal digits.
    fn bytes(&mut self) -> Vec<u8> {
        let digit = |&byte: &u8| char::from(byte).to_digit(16).expect("a digit") as u8;
        match self.number() {
            0 => Vec::new(),
            _ => self.word().as_bytes().chunks(2).map(|pair| 16 * digit(&pair[0]) + digit(&pair[1])).collect(),
        }
    }

    /// TREE: the node table of a tree text for n bins with some numbers changed, lent with so many records.
    fn tree(&mut self, (layout, n): (Layout, usize), records: usize) -> Vec<Node> {
        let mut nodes = vec![Node::UNUSED; RECORDS];
        let text = self.bytes();
        if !text.is_empty() {
            read(layout, n, &mut nodes, &mut [0; WORDS], &text).expect("a tree text");
        }
        for _ in 0..self.number() {
            let (place, value) = (self.number(), self.number() as u16);
            let record = &mut nodes[place / ROW];
            match place % ROW {
                0 => record.kind = value,
                1 => record.count = value,
                item => record.items[item - 2] = value,
            }
        }
        nodes.resize(records, OLD);
        nodes
    }

    /// BOOK and DAYS: the count of groups, and the first ones' mark words, lent as so many words.
    fn book(&mut self, words: usize) -> (usize, Vec<u64>) {
        let (count, groups) = (self.number(), self.number());
        let mut book: Vec<u64> = (0..4 * groups).map(|_| self.number() as u64).collect();
        book.resize(WORDS, 0);
        book.resize(words, OLD_WORD);
        self.list();
        (count, book)
    }

    /// n and the node table beside it.
    fn lent_tree(&mut self) -> ((Layout, usize), Vec<Node>) {
        let (size, records) = (self.size(), self.number());
        (size, self.tree(size, records))
    }

    /// n, the node table and the book.
    fn lent(&mut self) -> Lent {
        let (layout, n) = self.size();
        let [records, words, _days] = std::array::from_fn(|_| self.number());
        let nodes = self.tree((layout, n), records);
        let (count, book) = self.book(words);
        Lent { layout, n, nodes, book, count }
    }
}

/// Checks that a table that a call fills is as it was: past `size` if the call is done, and throughout if it is refused.
fn check_kept<T: PartialEq>(answer: Answer, table: &[T], size: usize, old: T) {
    let from = if answer.is_ok() { size } else { 0 };
    assert!(table[from..].iter().all(|entry| *entry == old), "entries changed that are to stay");
}

/// The fields of an answer without tables.
fn told(answer: Answer) -> String {
    match answer {
        Ok(value) => format!("0 {value}"),
        Err(refused) => format!("{} {}", refused.number, refused.place),
    }
}

/// The numbers with a space before each.
fn spaced<T: Display>(numbers: &[T]) -> String {
    numbers.iter().map(|number| format!(" {number}")).collect()
}

/// The fields of bytes.
fn hexadecimal(bytes: &[u8]) -> String {
    let digits: String = bytes.iter().map(|byte| format!("{byte:02x}")).collect();
    format!("{} {digits}", bytes.len())
}

/// The fields of the table's tree text.
fn text(layout: Layout, n: usize, nodes: &[Node]) -> String {
    let mut bytes = [0; BYTES];
    let length = write(layout, n, nodes, &mut bytes).expect("the table is in form");
    hexadecimal(&bytes[..length])
}

/// What this planner answers to an intersection.
fn intersection(fields: &mut Fields) -> String {
    let (((layout, n), nodes), ((layout2, m), other)) = (fields.lent_tree(), fields.lent_tree());
    let mut third = vec![OLD; fields.number()];
    let answer = intersect(layout, n, &nodes, layout2, m, &other, &mut third);
    check_kept(answer, &third, RECORDS, OLD);
    match answer {
        Ok(_) => format!("{} {}", told(answer), text(layout, n, &third)),
        Err(_) => told(answer),
    }
}

/// What this planner answers to joining a group.
fn joining(fields: &mut Fields) -> String {
    let (lent, list) = (fields.lent(), fields.list());
    let mut left = lent.clone();
    let answer = join(lent.layout, lent.n, &mut left.nodes, &mut left.book, lent.count, &list);
    if answer.is_err() {
        assert!(left == lent, "a refusal changed a table");
        return told(answer);
    }
    let place = 4 * lent.count;
    let group = left.book.splice(place..place + 4, [0; 4]).collect::<Vec<_>>();
    assert!(left.book == lent.book, "words changed that are to stay");
    assert!(left.nodes[RECORDS..] == lent.nodes[RECORDS..], "records changed that are to stay");
    format!("{} {}{}", told(answer), text(lent.layout, lent.n, &left.nodes), spaced(&group))
}

/// What this planner answers to the trial of a group.
fn trying(fields: &mut Fields) -> String {
    let (lent, list) = (fields.lent(), fields.list());
    told(trial(lent.layout, lent.n, &lent.nodes, &lent.book, lent.count, &list))
}

/// What this planner answers to the aim of a group.
fn aiming(fields: &mut Fields) -> String {
    let (lent, group) = (fields.lent(), fields.number());
    told(aim(lent.layout, lent.n, &lent.nodes, &lent.book, lent.count, group))
}

/// What this planner answers to the conflicts of a group.
fn conflicting(fields: &mut Fields) -> String {
    let (layout, n) = fields.size();
    let [words, _days, places] = std::array::from_fn(|_| fields.number());
    let ((count, book), list) = (fields.book(words), fields.list());
    let mut conflicts = vec![OLD_PLACE; places];
    let answer = conflict(layout, n, &book, count, &list, &mut conflicts);
    check_kept(answer, &conflicts, GROUPS, OLD_PLACE);
    let Ok(size) = answer else { return told(answer) };
    assert!(conflicts[size..GROUPS].iter().all(|place| *place == 0), "a place past the list is not zero");
    format!("{} {size}{}", told(answer), spaced(&conflicts[..size]))
}

/// What this planner answers to opening or, with a text, to reading it.
fn filling(fields: &mut Fields, with_text: bool) -> String {
    let (layout, n) = fields.size();
    let [records, words, _days] = std::array::from_fn(|_| fields.number());
    let (mut nodes, mut book) = (vec![OLD; records], vec![OLD_WORD; words]);
    let answer = match with_text {
        true => read(layout, n, &mut nodes, &mut book, &fields.bytes()),
        false => open(layout, n, &mut nodes, &mut book),
    };
    check_kept(answer, &nodes, RECORDS, OLD);
    check_kept(answer, &book, WORDS, OLD_WORD);
    if answer.is_err() {
        return told(answer);
    }
    assert!(book[..WORDS].iter().all(|word| *word == 0), "the book is not empty");
    format!("{} {}", told(answer), text(layout, n, &nodes))
}

/// What this planner answers to the writing of a text.
fn writing(fields: &mut Fields) -> String {
    let (layout, n) = fields.size();
    let [records, size] = std::array::from_fn(|_| fields.number());
    let nodes = fields.tree((layout, n), records);
    let mut bytes = vec![OLD_BYTE; size];
    let answer = write(layout, n, &nodes, &mut bytes);
    check_kept(answer, &bytes, BYTES, OLD_BYTE);
    let Ok(length) = answer else { return told(answer) };
    assert!(bytes[length..BYTES].iter().all(|byte| *byte == 0), "a byte past the text is not zero");
    format!("{} {}", told(answer), hexadecimal(&bytes[..length]))
}

/// What this planner answers to the standard order.
fn ordering(fields: &mut Fields) -> String {
    let (layout, n) = fields.size();
    let [records, places] = std::array::from_fn(|_| fields.number());
    let nodes = fields.tree((layout, n), records);
    let mut places = vec![OLD_PLACE; places];
    let answer = order(layout, n, &nodes, &mut places);
    check_kept(answer, &places, n, OLD_PLACE);
    if answer.is_err() {
        return told(answer);
    }
    format!("{} {n}{}", told(answer), spaced(&places[..n]))
}

/// What this planner answers to a draw.
fn drawing(fields: &mut Fields) -> String {
    let [state, k] = std::array::from_fn(|_| fields.number());
    let Draw { next, number } = Generator { state: state as u32 }.draw(k);
    format!("{} {number}", next.state)
}

/// What this planner answers to a test load.
fn loading(fields: &mut Fields) -> String {
    let [n, seed, groups, size] = std::array::from_fn(|_| fields.number());
    let mut bytes = vec![OLD_BYTE; size];
    let answer = test_load(n, seed as u32, groups, &mut bytes);
    check_kept(answer, &bytes, FILE, OLD_BYTE);
    let Ok(length) = answer else { return told(answer) };
    assert!(bytes[length..FILE].iter().all(|byte| *byte == 0), "a byte past the file is not zero");
    let file = &bytes[..length];
    let checksum = file.iter().fold(0u32, |sum, &byte| sum.wrapping_mul(31).wrapping_add(byte.into()));
    let shown = if length <= SHOWN { hexadecimal(file) } else { 0.to_string() };
    format!("{} {checksum} {shown}", told(answer))
}

/// What this planner answers to a call; none to one with another letter.
fn answered(call: &str) -> Option<String> {
    let mut fields = Fields(call.split(' '));
    let made = match fields.word() {
        "I" => intersection(&mut fields),
        "O" => filling(&mut fields, false),
        "J" => joining(&mut fields),
        "T" => trying(&mut fields),
        "A" => aiming(&mut fields),
        "C" => conflicting(&mut fields),
        "R" => filling(&mut fields, true),
        "W" => writing(&mut fields),
        "S" => ordering(&mut fields),
        "D" => drawing(&mut fields),
        "G" => loading(&mut fields),
        _ => return None,
    };
    assert!(fields.0.next().is_none(), "a field too many: {call}");
    Some(made)
}

fn main() -> io::Result<ExitCode> {
    let (mut run, mut wrong) = (0, 0);
    for line in io::stdin().lines() {
        let line = line?;
        let Some((call, expected)) = line.split_once(" = ") else { continue };
        let Some(answer) = answered(call) else { continue };
        run += 1;
        if answer != expected {
            wrong += 1;
            println!("{call} = {expected}\n    answered {answer}");
        }
    }
    println!("{run} cases, {wrong} answered otherwise");
    Ok(if run > 0 && wrong == 0 { ExitCode::SUCCESS } else { ExitCode::FAILURE })
}
