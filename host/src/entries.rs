//! The entries of docs/DIFFERENCES.md, the list of differences that are known and meant; those that the comparisons
//! name have a constant.
const DIFFERENCES: &str = include_str!("../../docs/DIFFERENCES.md");

pub struct Entry {
    /// As `D1`.
    pub id: &'static str,
    pub title: &'static str,
    /// The lowest part of the library that can show it: octets, ASDU, frame, assembling, link.
    pub level: &'static str,
}

/// The entries in their order, from headings such as `## D15 Confirming comes above w (link, kept)`. Those on scapy
/// (host/interop) have no part in brackets and are not among them.
pub fn all() -> impl Iterator<Item = Entry> {
    DIFFERENCES.lines().filter_map(|line| {
        let heading = line.strip_prefix("## ").filter(|heading| heading.starts_with('D'))?;
        let (id, rest) = heading.split_once(' ')?;
        let (title, marks) = rest.strip_suffix(')')?.rsplit_once(" (")?;
        Some(Entry { id, title, level: marks.split(',').next()? })
    })
}

/// A sequence is written with an address for every object.
pub const SEQUENCE_WRITTEN: &str = "D1";
/// Elements of no octets in a sequence make the Rust panic.
pub const EMPTY_ELEMENTS: &str = "D2";
/// The length octet is not compared with the frame's length.
pub const LENGTH_NOT_COMPARED: &str = "D3";
/// Addresses of a sequence run past three octets.
pub const ADDRESSES_RUN_PAST: &str = "D4";
/// There is no limit of 249 octets.
pub const NO_LIMIT: &str = "D5";
/// Writing cuts a field that does not fit its bits.
pub const WRITING_CUTS: &str = "D6";
/// An `Other` cause of initialisation of 0 to 2 is written, and reads back as the named one.
pub const OTHER_NAMED_CAUSE: &str = "D7";
/// The element of type 70 is taken apart into a mark and a cause.
pub const CAUSE_WITH_MARK: &str = "D8";
/// Causes that are not listed pass.
pub const ANY_CAUSE: &str = "D9";
/// Types that we do not carry are read.
pub const ANY_TYPE: &str = "D10";
/// The type need not fit the objects.
pub const ANY_KIND: &str = "D11";
/// A writer that refuses leaves octets behind.
pub const LEFT_BEHIND: &str = "D12";
/// A length of 2 or 3 is refused only with the frame's last byte.
pub const REFUSED_LATE: &str = "D13";
/// An ASDU with reserved bits goes out with other bytes.
pub const SENT_WITHOUT_RESERVED: &str = "D19";
