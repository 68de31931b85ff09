//! The network file: its layout, the rows 1 to 9 that judge it, the network
//! that an accepted file holds, the parts of its entries, and a writer.

mod check;
mod draft;
mod layout;
mod read;
pub mod rows;

pub use check::check;
pub use draft::{Draft, write};
pub use layout::{
    ATTACHMENTS, BLOCK, Bytes, Head, LARGEST, LINK_ENTRY, MOST_LINKS, MOST_PREFIXES, MOST_ROUTERS,
    PREFIX_ENTRY,
};
pub use read::{link_part, network, prefix_part};
