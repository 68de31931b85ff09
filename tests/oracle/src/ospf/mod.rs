//! Taking in OSPF: a run of whole Router-LSAs (RFC 2328, A.4.2) becomes a network file.
//!
//! The methods are plain: the run is cut into LSAs by their length fields, each is judged
//! by itself and by the IDs that come before it, and maps from IDs, pairs of routers and
//! networks give the numbers and the order.

pub mod cause;
pub mod corpus;
pub mod damage;
pub mod extra;
pub mod feature;
pub mod fletcher;
pub mod import;
pub mod judge;
pub mod layout;
mod limits;
mod links;
pub mod lsa;
pub mod make;
pub mod mistake;
pub mod named;
mod prefixes;
pub mod words;

pub use cause::Cause;
pub use import::import;
pub use lsa::{Lsa, RouterLink};
pub use mistake::Mistake;
