//! An independent program for the answers that document 01 defines: distances,
//! spaces, repairs, played routes, the plan text, drills, networks taken in from OSPF,
//! and what every call leaves in every buffer lent to it. `docs/SPECIFICATION.md` says
//! what document 01 says.
//!
//! It is written from the definitions, not for speed: distances by Dijkstra's
//! method, walks by following every step, repairs by looking at every pair. It
//! serves to make stored outputs and to be compared with the planner.

#[macro_use]
mod listed;

pub mod answer;
pub mod batch;
pub mod class;
pub mod columns;
pub mod command;
pub mod corpus;
pub mod damage;
pub mod distance;
pub mod drill;
pub mod failures;
pub mod fault;
pub mod file;
pub mod generate;
pub mod network;
pub mod ospf;
pub mod page;
pub mod plan;
pub mod question;
pub mod random;
pub mod ranks;
pub mod repair;
pub mod route;
pub mod row;
pub mod runs;
pub mod space;
pub mod spoil;
pub mod stored;
pub mod table;
pub mod table_questions;
pub mod text;
pub mod visit;
pub mod walk;
pub mod words;
pub mod worked;
pub mod workings;
pub mod write_questions;
pub mod writing;
