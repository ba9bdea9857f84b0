//! The calls on node records, lent damaged ones: the same comparison as of the calls on rows.
#[path = "../../tests/compare/damage.rs"]
mod damage;
#[path = "../../tests/compare/damaged.rs"]
mod damaged;

use ring_records as planner;

/// A refusal's number, and the place or byte it names, 0 where none.
fn told(refusal: (u8, usize)) -> (u8, usize) {
    refusal
}
