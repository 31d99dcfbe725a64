//! Homie 5 traces and the device table, written from the papers alone.
//!
//! This is the plain version: nothing is saved or shared, and the table is
//! made anew from the standing messages for every call. It serves to compare
//! answers with the proved programs.

pub mod calls;
pub mod count;
pub mod description;
pub mod faults;
pub mod generate;
pub mod grammar;
pub mod json;
pub mod judge;
pub mod lines;
pub mod numbers;
pub mod payload;
pub mod random;
pub mod refusal;
pub mod replay;
pub mod table;
pub mod text;
pub mod topic;
pub mod trace;
