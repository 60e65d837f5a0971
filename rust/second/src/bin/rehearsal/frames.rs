//! The frames that arrive: docs/REHEARSAL.md, frame(L, V, k, D).
//!   frame               its bytes, FCS included
//!   OURS, OTHER, ALL    the destinations of takes
//!   NEAR, GROUP, SIX    group addresses that only part `filter` sends to

pub const OURS: [u8; 6] = [0x02, 0x11, 0x22, 0x33, 0x44, 0x55];
pub const OTHER: [u8; 6] = [0x02, 0x11, 0x22, 0x33, 0x44, 0x56];
pub const NEAR: [u8; 6] = [0x03, 0x11, 0x22, 0x33, 0x44, 0x55];
pub const GROUP: [u8; 6] = [0x01, 0x00, 0x5E, 0x00, 0x00, 0x01];
pub const SIX: [u8; 6] = [0x33, 0x33, 0x00, 0x00, 0x00, 0x01];
pub const ALL: [u8; 6] = [0xFF; 6];

/// What bytes 6 to 11 are, whatever the frame.
const FROM: [u8; 6] = [0x02, 0, 0, 0, 0, 0x01];

/// V of most frames: a type, and so no length.
pub const TYPE: u16 = 0x0800;

/// "If L is at least 4, the last four are the FCS of those before, its lowest
/// byte first." A shorter frame has none; in one below 18 bytes the FCS begins
/// before V is over, and what is read as V is then partly FCS.
pub fn frame(length: usize, v: u16, k: usize, to: [u8; 6]) -> Vec<u8> {
    let before = if length >= 4 { length - 4 } else { length };
    let mut bytes: Vec<u8> = (0..before).map(|i| byte(i, v, k, to)).collect();
    if length >= 4 {
        let check = second::fcs(&bytes);
        bytes.extend(check.to_le_bytes());
    }
    bytes
}

/// Byte i of those that are not the FCS.
fn byte(i: usize, v: u16, k: usize, to: [u8; 6]) -> u8 {
    let [high, low] = v.to_be_bytes();
    match i {
        0..=5 => to[i],
        6..=11 => FROM[i - 6],
        12 => high,
        13 => low,
        _ => ((7 * k + i) % 256) as u8,
    }
}
