//! The layout of a Router-LSA (RFC 2328, A.4.1 and A.4.2). Fields of several
//! bytes stand most byte first.

/// Bytes of the header that every LSA starts with.
pub const HEADER: usize = 20;
/// Bytes of a Router-LSA before its links.
pub const BEFORE_LINKS: usize = 24;
/// Bytes of a link without its TOS metrics, and of one TOS metric.
pub const LINK: usize = 12;
pub const TOS: usize = 4;

/// Offsets of the header's fields.
pub const AGE: usize = 0;
pub const OPTIONS: usize = 2;
pub const LS_TYPE: usize = 3;
pub const LINK_STATE_ID: usize = 4;
pub const ADVERTISING_ROUTER: usize = 8;
pub const SEQUENCE: usize = 12;
pub const CHECKSUM: usize = 16;
pub const LENGTH: usize = 18;
/// Offsets of what comes before the links.
pub const FLAGS: usize = 20;
pub const ZERO: usize = 21;
pub const COUNT: usize = 22;
/// Offsets in a link.
pub const LINK_ID: usize = 0;
pub const LINK_DATA: usize = 4;
pub const LINK_TYPE: usize = 8;
pub const LINK_TOS: usize = 9;
pub const LINK_METRIC: usize = 10;

/// The LS type of a Router-LSA.
pub const ROUTER_LSA: u8 = 1;
/// The types of links.
pub const POINT_TO_POINT: u8 = 1;
pub const TRANSIT: u8 = 2;
pub const STUB: u8 = 3;
pub const VIRTUAL: u8 = 4;

/// MaxAge, the age at which routers flush an LSA.
pub const MAX_AGE: u16 = 3600;

/// The 16-bit field at an offset; a byte after the end reads as 0.
pub fn word(bytes: &[u8], at: usize) -> u16 {
    u16::from_be_bytes([byte(bytes, at), byte(bytes, at + 1)])
}

/// The 32-bit field at an offset.
pub fn long(bytes: &[u8], at: usize) -> u32 {
    u32::from_be_bytes(std::array::from_fn(|place| byte(bytes, at + place)))
}

/// The byte at an offset.
pub fn byte(bytes: &[u8], at: usize) -> u8 {
    bytes.get(at).copied().unwrap_or(0)
}
