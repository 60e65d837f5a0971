//! The 802.3 CRC-32, bit by bit. Paper 01, "Hash"; IEEE 802.3, 3.2.9, for the FCS.
//!   register   what the division leaves, x^31 in bit 31
//!   fcs        the check of some bytes as a number whose low byte is sent first
//!   hash       the six bits that number an address, 0 to 63

/// 01: "04C11DB7h, register all ones, lowest bit of each byte first, no final
/// complement, ours"
fn register(bytes: &[u8]) -> u32 {
    let mut register = 0xFFFF_FFFF_u32;
    for byte in bytes {
        for k in 0..8 {
            let bit = u32::from(byte >> k) & 1;
            let out = register >> 31;
            register <<= 1;
            if out != bit {
                register ^= 0x04C1_1DB7;
            }
        }
    }
    register
}

/// The register complemented; x^31 goes onto the wire first, and so, with the
/// lowest bit of each byte first, into bit 0.
pub fn fcs(bytes: &[u8]) -> u32 {
    (!register(bytes)).reverse_bits()
}

/// 01: "over the six destination bytes; of the register's top six bits, x^31 down"
pub fn hash(address: [u8; 6]) -> u32 {
    register(&address) >> 26
}
