//! Why a call is refused. Written by tools/outer.py.
use std::fmt;

/// The refusals of documents 01 and 02; no call gives 4. A place counts from 0 in the group's list, a byte from 0 in the file or text.
#[derive(Clone, Copy, PartialEq, Eq, Debug)]
pub enum Refusal {
    /// 1: a count of bins is 0 or above 256.
    RingSize,
    /// 2: a lent table is too short.
    ShortTable,
    /// 3: the node table or the book is not in form, or the count of groups is above 96.
    NotInForm,
    /// 5: a bin of the list is 0 or above n.
    OutsideRing(usize),
    /// 6: a bin stands in the list a second time.
    Repeated(usize),
    /// 7: the book has 96 groups already.
    BookFull,
    /// 8: no order of the tree has the group consecutive, or no order is allowed by both trees.
    Impossible,
    /// 9: the group number is 0 or above the count of groups.
    NoSuchGroup,
    /// 10: the book's group is not consecutive in the standard order.
    NotConsecutive,
    /// 11: the ring file is malformed.
    RingFile(usize),
    /// 12: the tree text is malformed.
    TreeText(usize),
    /// 13: the two counts of bins differ, or one is of a ring and one of a rack.
    BinCounts,
    /// 14: the book's group is empty, so it has no aim.
    NoAim,
    /// 15: a rack has 256 bins.
    RackSize,
    /// 16: the seed of a test load is 0.
    ZeroSeed,
    /// 17: the count of groups of a test load is 0 or above 96.
    GroupCount,
}

impl Refusal {
    /// The refusal that a call reports as this number and value; none for 0.
    pub(crate) fn reported(number: u8, value: usize) -> Option<Refusal> {
        Some(match number {
            0 => return None,
            1 => Refusal::RingSize,
            2 => Refusal::ShortTable,
            3 => Refusal::NotInForm,
            5 => Refusal::OutsideRing(value),
            6 => Refusal::Repeated(value),
            7 => Refusal::BookFull,
            8 => Refusal::Impossible,
            9 => Refusal::NoSuchGroup,
            10 => Refusal::NotConsecutive,
            11 => Refusal::RingFile(value),
            12 => Refusal::TreeText(value),
            13 => Refusal::BinCounts,
            14 => Refusal::NoAim,
            15 => Refusal::RackSize,
            16 => Refusal::ZeroSeed,
            17 => Refusal::GroupCount,
            _ => unreachable!("no call of the archive returns {number}"),
        })
    }

    /// The refusal's number in the table.
    pub fn number(self) -> u8 {
        match self {
            Refusal::RingSize => 1,
            Refusal::ShortTable => 2,
            Refusal::NotInForm => 3,
            Refusal::OutsideRing(_) => 5,
            Refusal::Repeated(_) => 6,
            Refusal::BookFull => 7,
            Refusal::Impossible => 8,
            Refusal::NoSuchGroup => 9,
            Refusal::NotConsecutive => 10,
            Refusal::RingFile(_) => 11,
            Refusal::TreeText(_) => 12,
            Refusal::BinCounts => 13,
            Refusal::NoAim => 14,
            Refusal::RackSize => 15,
            Refusal::ZeroSeed => 16,
            Refusal::GroupCount => 17,
        }
    }

    /// The place or byte that the refusal names.
    pub fn place(self) -> Option<usize> {
        match self {
            Refusal::OutsideRing(at) | Refusal::Repeated(at) | Refusal::RingFile(at) | Refusal::TreeText(at) => Some(at),
            _ => None,
        }
    }
}

impl fmt::Display for Refusal {
    fn fmt(&self, f: &mut fmt::Formatter) -> fmt::Result {
        match self {
            Refusal::RingSize => write!(f, "a count of bins is 0 or above 256"),
            Refusal::ShortTable => write!(f, "a lent table is too short"),
            Refusal::NotInForm => write!(f, "the node table or the book is not in form, or the count of groups is above 96"),
            Refusal::OutsideRing(at) => write!(f, "a bin of the list is 0 or above n, at place {at}"),
            Refusal::Repeated(at) => write!(f, "a bin stands in the list a second time, at place {at}"),
            Refusal::BookFull => write!(f, "the book has 96 groups already"),
            Refusal::Impossible => write!(f, "no order of the tree has the group consecutive, or no order is allowed by both trees"),
            Refusal::NoSuchGroup => write!(f, "the group number is 0 or above the count of groups"),
            Refusal::NotConsecutive => write!(f, "the book's group is not consecutive in the standard order"),
            Refusal::RingFile(at) => write!(f, "the ring file is malformed, at byte {at}"),
            Refusal::TreeText(at) => write!(f, "the tree text is malformed, at byte {at}"),
            Refusal::BinCounts => write!(f, "the two counts of bins differ, or one is of a ring and one of a rack"),
            Refusal::NoAim => write!(f, "the book's group is empty, so it has no aim"),
            Refusal::RackSize => write!(f, "a rack has 256 bins"),
            Refusal::ZeroSeed => write!(f, "the seed of a test load is 0"),
            Refusal::GroupCount => write!(f, "the count of groups of a test load is 0 or above 96"),
        }
    }
}

impl std::error::Error for Refusal {}
