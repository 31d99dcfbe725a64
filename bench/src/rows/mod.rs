//! The rows of the table.

mod judging;
mod messages;
mod questions;
mod traces;

use crate::measure::Row;

pub fn all() -> Vec<Row> {
    [traces::rows(), messages::rows(), questions::rows(), judging::rows()].into_iter().flatten().collect()
}
