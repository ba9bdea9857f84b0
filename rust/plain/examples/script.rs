//! Obeys a script of calls with this planner: the commands of crates/test_calls from standard input, one a line. Prints for each call what that
//! program must print: the call's letter, what it answered, and a checksum of each table lent to it. Three commands more are for
//! tools/calls_script.py: `?` prints the numbers of the node table, `!` the words of the book, `= rack n` the bytes of the tree text.

use plain::{aim, conflict, join, open, order, read, trial, write, Answer, Layout, Node};
use std::io::{self, BufRead, Write};

const ROW: usize = 257;
const RECORDS: usize = 256;

/// The tables of the program, each one entry longer than it must be.
struct Tables {
    nodes: Vec<u16>,
    book: Vec<u64>,
    order: Vec<u16>,
    conflicts: Vec<u16>,
    bytes: Vec<u8>,
}

/// The records of the first `a` numbers where `have` and `a` are enough of them, else fewer than 256 records.
fn lent(nodes: &[u16], have: usize, a: usize) -> Vec<Node> {
    let a = a.min(nodes.len());
    if have < RECORDS || a < RECORDS * ROW {
        return vec![Node::UNUSED; have.min(a / ROW).min(RECORDS - 1)];
    }
    let record =
        |row: &[u16]| Node { kind: row[0], count: row[1], items: row[2..].try_into().expect("a row has 255 items") };
    nodes[..RECORDS * ROW].chunks_exact(ROW).map(record).collect()
}

/// Writes the records to their rows.
fn store(records: &[Node], nodes: &mut [u16]) {
    for (record, row) in records.iter().zip(nodes.chunks_exact_mut(ROW)).take(RECORDS) {
        row[0] = record.kind;
        row[1] = record.count;
        row[2..].copy_from_slice(&record.items);
    }
}

/// The checksum of a table's numbers.
fn sum(numbers: impl Iterator<Item = u64>) -> u32 {
    numbers.fold(0u32, |sum, x| sum.wrapping_mul(65599).wrapping_add(x as u32))
}

fn sum16(table: &[u16]) -> u32 {
    sum(table.iter().map(|&x| x.into()))
}

/// The checksum of words, each as its high and its low half.
fn sum64(table: &[u64]) -> u32 {
    sum(table.iter().flat_map(|&x| [x >> 32, x & 0xffff_ffff]))
}

/// What is printed of an answer.
fn told(answer: Answer) -> String {
    match answer {
        Ok(value) => format!("0 {value}"),
        Err(refused) if matches!(refused.number, 5 | 6 | 11 | 12) => format!("{} {}", refused.number, refused.place),
        Err(refused) => refused.number.to_string(),
    }
}

fn list(numbers: &[usize]) -> Vec<u16> {
    numbers.iter().map(|&x| x as u16).collect()
}

/// The layout that a command tells.
fn layout(rack: usize) -> Layout {
    match rack {
        0 => Layout::Ring,
        _ => Layout::Rack,
    }
}

/// The bytes of the tree text.
fn text(layout: Layout, n: usize, nodes: &[Node]) -> Vec<u8> {
    let mut bytes = vec![0; 2048];
    let length = write(layout, n, nodes, &mut bytes).expect("the tables are in form");
    bytes.truncate(length);
    bytes
}

impl Tables {
    /// Obeys a command; what is printed for it, if anything is.
    fn obey(&mut self, letter: &str, x: &[usize]) -> Option<String> {
        match letter {
            "N" => self.nodes[x[0]] = x[1] as u16,
            "B" => self.book[x[0]] = x[1] as u64,
            "?" => return Some(words(self.nodes.iter())),
            "!" => return Some(words(self.book.iter())),
            "=" => return Some(words(text(layout(x[0]), x[1], &lent(&self.nodes, RECORDS, RECORDS * ROW)).iter())),
            _ => {
                let (answer, first, second) = self.call(letter, x);
                return Some(format!("{letter} {} : {first} {second}", told(answer)));
            }
        }
        None
    }

    /// The answer to a call, and the checksums of the two tables lent to it.
    fn call(&mut self, letter: &str, x: &[usize]) -> (Answer, u32, u32) {
        let (layout, n, x) = (layout(x[0]), x[1], &x[2..]);
        match letter {
            "C" => {
                let (b, c) = (x[0].min(self.book.len()), x[2].min(self.conflicts.len()));
                let answer = conflict(layout, n, &self.book[..b], x[1], &list(&x[3..]), &mut self.conflicts[..c]);
                (answer, sum64(&self.book), sum16(&self.conflicts))
            }
            "S" => {
                let c = x[2].min(self.order.len());
                let answer = order(layout, n, &lent(&self.nodes, x[0], x[1]), &mut self.order[..c]);
                (answer, sum16(&self.nodes), sum16(&self.order))
            }
            "W" => {
                let c = x[2].min(self.bytes.len());
                let answer = write(layout, n, &lent(&self.nodes, x[0], x[1]), &mut self.bytes[..c]);
                (answer, sum16(&self.nodes), sum(self.bytes.iter().map(|&x| x.into())))
            }
            _ => {
                let answer = self.on_both(letter, layout, n, x);
                (answer, sum16(&self.nodes), sum64(&self.book))
            }
        }
    }

    /// The answer to a call that is lent the node table and the book.
    fn on_both(&mut self, letter: &str, layout: Layout, n: usize, x: &[usize]) -> Answer {
        let mut nodes = lent(&self.nodes, x[0], x[1]);
        let b = x[2].min(self.book.len());
        let book = &mut self.book[..b];
        let answer = match letter {
            "O" => open(layout, n, &mut nodes, book),
            "J" => join(layout, n, &mut nodes, book, x[3], &list(&x[4..])),
            "T" => trial(layout, n, &nodes, book, x[3], &list(&x[4..])),
            "A" => aim(layout, n, &nodes, book, x[3], x[4]),
            "R" => read(layout, n, &mut nodes, book, &x[3..].iter().map(|&x| x as u8).collect::<Vec<_>>()),
            _ => panic!("no command {letter}"),
        };
        if answer.is_ok() {
            store(&nodes, &mut self.nodes);
        }
        answer
    }
}

fn words<T: ToString>(numbers: impl Iterator<Item = T>) -> String {
    numbers.map(|x| x.to_string()).collect::<Vec<_>>().join(" ")
}

fn main() -> io::Result<()> {
    let mut tables = Tables {
        nodes: vec![7; RECORDS * ROW + 1],
        book: vec![7; 385],
        order: vec![7; 257],
        conflicts: vec![7; 97],
        bytes: vec![7; 2049],
    };
    let mut out = io::stdout().lock();
    for line in io::stdin().lock().lines() {
        let line = line?;
        let mut words = line.split(' ');
        let letter = words.next().unwrap_or("");
        let numbers: Vec<usize> = words.map(|word| word.parse().expect("a number")).collect();
        if let Some(said) = tables.obey(letter, &numbers) {
            writeln!(out, "{said}")?;
            out.flush()?;
        }
    }
    Ok(())
}
