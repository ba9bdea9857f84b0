//! A PC-tree planner in plain Rust: rings and racks of bins, groups that hang together, the standard order, conflicts,
//! aims, the tree text, the ring file with its lister, and test loads.

pub mod marks;

mod book;
mod calls;
mod layout;
mod lister;
mod load;
mod ringfile;
mod table;
mod text;
mod tree;

pub use calls::{aim, conflict, intersect, join, open, order, read, test_load, trial, write, Answer, Refused};
pub use layout::Layout;
pub use lister::list_file;
pub use load::{groups, Draw, Generator};
pub use ringfile::{group_of, name_of, scan, File};
pub use table::Node;
pub use tree::Tree;
