//! Files: blocks of 512 bytes with numbers of two bytes, low byte first, and the two sums of a block.

/// A block's bytes, those of them that are summed up, and the head before its places.
pub const BLOCK: usize = 512;
pub const BODY: usize = 508;
pub const HEAD: usize = 6;

/// How many places a block has, and how many bytes a place has.
pub const PLACES: usize = 22;
pub const PLACE: usize = 22;

/// The top bit of a positive count: the rule is muted.
pub const MARK: u8 = 128;

pub type Block = [u8; BLOCK];

pub fn word(bytes: &[u8], at: usize) -> u16 {
    u16::from_le_bytes([bytes[at], bytes[at + 1]])
}

pub fn write_word(bytes: &mut [u8], at: usize, number: u16) {
    bytes[at..at + 2].copy_from_slice(&number.to_le_bytes());
}

/// A and B of a block, byte for byte as specification 7.5 words them and the library makes them. Weighing each byte by
/// how often B takes it in would be faster, but another algorithm.
pub fn sums(block: &Block) -> (u16, u16) {
    block[..BODY].iter().fold((1, 0), |(a, b): (u16, u16), &x| {
        let a = a.wrapping_add(u16::from(x));
        (a, b.wrapping_add(a))
    })
}
