//! The house in a table of each side.

use crate::data::{house, DEVICES, DOMAIN};
use crate::ours;
use crate::undo::Table;
use homie5::sys::homie5_size;

pub fn ours_of(depth: usize) -> Vec<u8> {
    let mut mem = vec![0; homie5_size(DEVICES, depth)];
    assert_eq!(ours::open(&mut mem, DOMAIN, DEVICES, depth), 0);
    for event in house() {
        assert_eq!(ours::message(&mut mem, &event), 0);
    }
    mem
}

pub fn reference_of(depth: usize) -> Table {
    let mut table = Table::new(DOMAIN, DEVICES, depth);
    for event in house() {
        assert_eq!(table.message(&event), Ok(()));
    }
    table
}
