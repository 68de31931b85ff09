//! Compares the planner's library with the oracle: both are asked the same
//! questions about the same files, and everything that a call tells and leaves
//! has to be the same.
//!
//! The networks, files and questions are random and repeatable from seeds. Each
//! call is compared whole: its answer, every cell of every buffer lent to it,
//! and the guard cells around each buffer.

pub mod attached;
pub mod c_interface;
pub mod call;
pub mod campaign;
pub mod compare;
pub mod coverage;
pub mod failures;
pub mod files;
pub mod kinds;
pub mod legs;
pub mod lent;
pub mod library;
pub mod maintenance;
pub mod networks;
pub mod node;
pub mod plan;
pub mod questions;
pub mod ranked;
pub mod ranks;
pub mod routes;
pub mod stand_in;
pub mod tabled;
pub mod tables;
mod threads;
pub mod writing;

pub use threads::each;
