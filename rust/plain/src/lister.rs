//! The lister: joins the lines of a ring file to a fresh ring and prints what became of them.

use crate::book::{self, Book, GROUPS, WORDS};
use crate::layout::Layout;
use crate::marks::{self, Marks};
use crate::ringfile::{group_of, names, scan, File};
use crate::text::TEXT_BYTES;
use crate::tree::Tree;

/// What became of a value line.
enum Line {
    Kept(Marks),
    Refused(Vec<usize>),
    Full,
}

/// Returns what the lister prints for a file.
pub fn list_file(file: &[u8]) -> Vec<u8> {
    match scan(file) {
        Err(refused) => format!("error 11 at byte {}\n", refused.place).into_bytes(),
        Ok(scanned) => list(file, scanned),
    }
}

/// Returns what the lister prints for an accepted file.
fn list(file: &[u8], scanned: File) -> Vec<u8> {
    let n = scanned.names;
    let mut tree = Tree::fresh(n);
    let lines = join_lines(file, scanned, &mut tree);
    let mut order = vec![0; n];
    tree.frontier(&mut order);

    let names: Vec<&[u8]> = names(file).collect();
    let mut out = b"line answer aim conflict\n".to_vec();
    for (k, line) in lines.iter().enumerate() {
        out.extend(format!("{} ", k + 1).bytes());
        print_line(&mut out, line, &order, &names);
    }
    out.extend(b"order\n");
    let in_order: Vec<&[u8]> = order.iter().map(|&bin| names[usize::from(bin) - 1]).collect();
    out.extend(in_order.join(&b' '));
    out.extend(b"\ntree\n");
    let mut text = [0; TEXT_BYTES];
    let length = tree.write_text(&mut text);
    out.extend(&text[..length]);
    out.push(b'\n');
    out
}

/// Joins the lines to the tree in turn; returns what became of each.
fn join_lines(file: &[u8], scanned: File, tree: &mut Tree) -> Vec<Line> {
    let File { names: n, head, lines } = scanned;
    let mut words = [0; WORDS];
    let mut line_of: Vec<usize> = Vec::new();
    let mut list = vec![0; n];
    let mut join_line = |line: usize| {
        let size = group_of(file, n, head, line, &mut list);
        let mut group = [0; 4];
        for &bin in &list[..size] {
            marks::set(&mut group, usize::from(bin) - 1);
        }
        let count = line_of.len();
        if count == GROUPS {
            return Line::Full;
        }
        if tree.join(&group) {
            book::put(&mut words, count, &group);
            line_of.push(line + 1);
            return Line::Kept(group);
        }
        let kept = Book::of(&words[..4 * count]).conflict(n, &group);
        Line::Refused(kept.numbers().iter().map(|&number| line_of[usize::from(number) - 1]).collect())
    };
    (0..lines).map(&mut join_line).collect()
}

/// Prints the answer, aim and conflict of a line.
fn print_line(out: &mut Vec<u8>, line: &Line, order: &[u16], names: &[&[u8]]) {
    match line {
        Line::Kept(group) => {
            out.extend(b"kept ");
            let aim = Layout::Ring.aim(order, group);
            out.extend(aim.map_or(&b"-"[..], |bin| names[bin - 1]));
            out.extend(b" -\n");
        }
        Line::Refused(lines) => {
            let lines: Vec<String> = lines.iter().map(usize::to_string).collect();
            out.extend(format!("refused - {}\n", lines.join(",")).bytes());
        }
        Line::Full => out.extend(b"full - -\n"),
    }
}
