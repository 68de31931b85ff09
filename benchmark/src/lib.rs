//! The planner's speed, measured against a program that was written for speed
//! alone. Both sides answer the same calls from the same bytes.

pub mod answer;
pub mod baseline;
pub mod calls;
pub mod compare;
pub mod growth;
pub mod networks;
pub mod parts;
pub mod plan;
pub mod planner;
pub mod plot;
pub mod questions;
pub mod side;
pub mod stack;
pub mod stack_calls;
pub mod tables;
pub mod timing;
pub mod written;
