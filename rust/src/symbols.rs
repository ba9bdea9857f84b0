//! The archive's functions, as include/tokuwhape.h declares them. A node table is counted in numbers of 16 bits, 257 to a record. Written
//! by tools/outer.py.
use crate::Node;

extern "C" {
    pub fn tokuwhape_open(layout: u8, n: usize, nodes: *mut Node, numbers: usize, book: *mut u64, words: usize, value: *mut usize) -> u8;
    pub fn tokuwhape_join(
        layout: u8,
        n: usize,
        nodes: *mut Node,
        numbers: usize,
        book: *mut u64,
        words: usize,
        count: usize,
        list: *const u16,
        length: usize,
        value: *mut usize,
    ) -> u8;
    pub fn tokuwhape_trial(
        layout: u8,
        n: usize,
        nodes: *const Node,
        numbers: usize,
        book: *const u64,
        words: usize,
        count: usize,
        list: *const u16,
        length: usize,
        value: *mut usize,
    ) -> u8;
    pub fn tokuwhape_order(
        layout: u8,
        n: usize,
        nodes: *const Node,
        numbers: usize,
        order: *mut u16,
        places: usize,
        value: *mut usize,
    ) -> u8;
    pub fn tokuwhape_aim(
        layout: u8,
        n: usize,
        nodes: *const Node,
        numbers: usize,
        book: *const u64,
        words: usize,
        count: usize,
        group: usize,
        value: *mut usize,
    ) -> u8;
    pub fn tokuwhape_conflict(
        layout: u8,
        n: usize,
        book: *const u64,
        words: usize,
        count: usize,
        list: *const u16,
        length: usize,
        conflicts: *mut u16,
        places: usize,
        value: *mut usize,
    ) -> u8;
    pub fn tokuwhape_write(
        layout: u8,
        n: usize,
        nodes: *const Node,
        numbers: usize,
        bytes: *mut u8,
        places: usize,
        value: *mut usize,
    ) -> u8;
    pub fn tokuwhape_read(
        layout: u8,
        n: usize,
        nodes: *mut Node,
        numbers: usize,
        book: *mut u64,
        words: usize,
        text: *const u8,
        length: usize,
        value: *mut usize,
    ) -> u8;
    pub fn tokuwhape_intersect(
        layout: u8,
        n: usize,
        nodes: *const Node,
        nodes_numbers: usize,
        layout2: u8,
        m: usize,
        other: *const Node,
        other_numbers: usize,
        third: *mut Node,
        third_numbers: usize,
        value: *mut usize,
    ) -> u8;
    pub fn tokuwhape_test_load(n: usize, seed: u32, groups: usize, bytes: *mut u8, places: usize, value: *mut usize) -> u8;
    pub fn tokuwhape_scan(file: *const u8, length: usize, head: *mut usize, lines: *mut usize, value: *mut usize) -> u8;
    pub fn tokuwhape_name(file: *const u8, length: usize, k: usize, start: *mut usize) -> usize;
    pub fn tokuwhape_group(file: *const u8, length: usize, names: usize, head: usize, line: usize, list: *mut u16, places: usize) -> usize;
}
