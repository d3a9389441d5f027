//! The EPN allocation book in plain Rust, written from the paper and for reading beside it.
//!
//! Reading order: columns, frame, terminator, lots, groups; book, opening, soundness, fault; checks,
//! change, frame_call; history, claims; day.
#![forbid(unsafe_code)]

pub mod acknowledgment;
pub mod answer;
pub mod book;
pub mod calendar;
pub mod change;
pub mod checks;
pub mod claims;
pub mod columns;
pub mod damage;
pub mod day;
pub mod desk;
pub mod digits;
pub mod draft;
pub mod faces;
pub mod fault;
pub mod frame;
pub mod frame_call;
pub mod generator;
pub mod groups;
pub mod history;
pub mod lots;
pub mod message;
pub mod opening;
pub mod pool_detail;
pub mod rule_damage;
pub mod script;
pub mod sequence;
pub mod soundness;
pub mod tally;
pub mod target;
pub mod terminator;
pub mod terms;
pub mod trade_id;
pub mod values;
