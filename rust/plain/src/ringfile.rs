//! The ring file: a line of names, then lines of values, one group a line.

use crate::calls::{refuse_unless, Refused};
use std::collections::HashSet;

/// The largest size of a ring file.
pub const FILE_BYTES: usize = 65_536;
const NAMES: usize = 256;
const NAME_BYTES: usize = 8;
/// How many bytes a name may continue with.
const LETTERS: usize = 62;

/// An accepted ring file: how many names, the bytes of the names line with its line end, how many value lines.
#[derive(Clone, Copy, PartialEq, Eq, Debug)]
pub struct File {
    pub names: usize,
    pub head: usize,
    pub lines: usize,
}

/// Returns what a ring file holds, or refuses it with 11 and the first byte that no accepted file has there.
pub fn scan(file: &[u8]) -> Result<File, Refused> {
    refuse_unless(file.len() <= FILE_BYTES, 11, FILE_BYTES)?;
    let (names, head) = scan_names(file)?;
    let width = 2 * names;
    for (place, &byte) in file[head..].iter().enumerate() {
        let column = place % width;
        let fits = match column {
            _ if column + 1 == width => byte == b'\n',
            _ if column % 2 == 1 => byte == b' ',
            _ => matches!(byte, b'0' | b'1' | b'-'),
        };
        refuse_unless(fits, 11, head + place)?;
    }
    let rest = file.len() - head;
    refuse_unless(rest.is_multiple_of(width), 11, file.len())?;
    Ok(File { names, head, lines: rest / width })
}

/// Returns how many names the names line has, and its bytes with its line end.
fn scan_names(file: &[u8]) -> Result<(usize, usize), Refused> {
    let mut names: HashSet<&[u8]> = HashSet::new();
    let mut start = 0;
    for (place, &byte) in file.iter().enumerate() {
        let name = &file[start..place];
        if byte.is_ascii_alphanumeric() {
            refuse_unless(name.len() < NAME_BYTES && may_begin(&names, &file[start..=place]), 11, place)?;
            continue;
        }
        let ends = byte == b'\n' || byte == b' ' && names.len() + 1 < NAMES;
        refuse_unless(ends && !name.is_empty() && names.insert(name), 11, place)?;
        start = place + 1;
        if byte == b'\n' {
            return Ok((names.len(), start));
        }
    }
    Err(Refused { number: 11, place: file.len() })
}

/// Returns whether some name that is not among `names` begins with `part`, of 1 to 8 bytes. Below 7 bytes there are
/// more such names than places in the names line.
fn may_begin(names: &HashSet<&[u8]>, part: &[u8]) -> bool {
    let taken = || names.iter().filter(|name| name.starts_with(part)).count();
    match NAME_BYTES - part.len() {
        0 => !names.contains(part),
        1 => taken() < 1 + LETTERS,
        _ => true,
    }
}

/// Returns the words of the first line as parts of the file: the names, where it is accepted.
pub(crate) fn names(file: &[u8]) -> impl Iterator<Item = &[u8]> {
    let line = file.split(|&byte| byte == b'\n').next().unwrap_or_default();
    line.split(|&byte| byte == b' ')
}

/// Returns word `k`, from 0, of the first line as a part of the file, whatever its bytes are; no byte of its start where
/// there is no such word.
pub fn name_of(file: &[u8], k: usize) -> &[u8] {
    names(file).nth(k).unwrap_or(&file[..0])
}

/// Writes the bins of value line `line`, from 0, into `list`, rising, and returns how many. With fewer places than
/// names, more than 256 names, or a line that does not stand whole in the file, it writes nothing and returns 0.
pub fn group_of(file: &[u8], names: usize, head: usize, line: usize, list: &mut [u16]) -> usize {
    if names > list.len().min(NAMES) {
        return 0;
    }
    let width = 2 * names;
    let values = line.checked_mul(width).and_then(|before| file.get(head..)?.get(before..)?.get(..width));
    let mut size = 0;
    for (k, value) in values.unwrap_or_default().chunks_exact(2).enumerate() {
        if value[0] == b'1' {
            list[size] = k as u16 + 1;
            size += 1;
        }
    }
    size
}
