//! The archive's functions. A node table is counted in records. Written by tools/outer.py.
use crate::Node;

extern "C" {
    pub fn ring_open(layout: u8, n: usize, nodes: *mut Node, records: usize, book: *mut u64, words: usize, value: *mut usize) -> u8;
    pub fn ring_join(
        layout: u8,
        n: usize,
        nodes: *mut Node,
        records: usize,
        book: *mut u64,
        words: usize,
        count: usize,
        list: *const u16,
        length: usize,
        value: *mut usize,
    ) -> u8;
    pub fn ring_trial(
        layout: u8,
        n: usize,
        nodes: *const Node,
        records: usize,
        book: *const u64,
        words: usize,
        count: usize,
        list: *const u16,
        length: usize,
        value: *mut usize,
    ) -> u8;
    pub fn ring_order(layout: u8, n: usize, nodes: *const Node, records: usize, order: *mut u16, places: usize, value: *mut usize) -> u8;
    pub fn ring_aim(
        layout: u8,
        n: usize,
        nodes: *const Node,
        records: usize,
        book: *const u64,
        words: usize,
        count: usize,
        group: usize,
        value: *mut usize,
    ) -> u8;
    pub fn ring_write(layout: u8, n: usize, nodes: *const Node, records: usize, bytes: *mut u8, places: usize, value: *mut usize) -> u8;
    pub fn ring_read(
        layout: u8,
        n: usize,
        nodes: *mut Node,
        records: usize,
        book: *mut u64,
        words: usize,
        text: *const u8,
        length: usize,
        value: *mut usize,
    ) -> u8;
    pub fn ring_intersect(
        layout: u8,
        n: usize,
        nodes: *const Node,
        nodes_records: usize,
        layout2: u8,
        m: usize,
        other: *const Node,
        other_records: usize,
        third: *mut Node,
        third_records: usize,
        value: *mut usize,
    ) -> u8;
}
