//! The network file: how long it is, and the one of a network, which the library writes.

use crate::call;
use crate::network::Network;

/// The bytes of a block.
const BLOCK: usize = 512;

/// The bytes of an entry.
pub(crate) const LINK_ENTRY: usize = 6;
pub(crate) const PREFIX_ENTRY: usize = 34;

/// The bytes of the largest network file.
pub const LARGEST_FILE: usize = 13 * BLOCK;

/// The bytes of a drill's network file: the head, and one block of links.
pub const DRILL_BYTES: usize = 2 * BLOCK;

impl Network {
    /// The network as a network file, which [`load`](crate::load) accepts.
    pub fn to_bytes(&self) -> Vec<u8> {
        let mut file = vec![0; LARGEST_FILE];
        let written = call::write(self, &mut file);
        assert!(written > 0, "the library writes the file of every network within the limits");
        file.truncate(written);
        file
    }
}
