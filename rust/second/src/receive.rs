//! An arriving frame. Paper 01, An arriving frame.
//!   arrive   the seven lines; answers the number of the line from 3 on
//!            (decided point 2: 3 Ignored, 4 Discarded, 5 Filtered, 6 Dropped, 7 Stored)
//!   status   the RX status word

use crate::fifo::Layout;
use crate::filter::{broadcast, group, passes, Address};
use crate::refusal::{Answer, Refusal};
use crate::registers::{PASSBAD, RXALL, RXEN};
use crate::{crc, Second};

/// 01: "of which only bits 6 (collision seen), 3 (MII error) and 2 (dribble) may be set"
const COLLISION: u32 = 1 << 6;
const MII_ERROR: u32 = 1 << 3;
const DRIBBLE: u32 = 1 << 2;

pub(crate) const IGNORED: u32 = 3;
pub(crate) const DISCARDED: u32 = 4;
pub(crate) const FILTERED: u32 = 5;
pub(crate) const DROPPED: u32 = 6;
pub(crate) const STORED: u32 = 7;

/// 01: "The first line that applies answers"
pub(crate) fn arrive(second: &mut Second, layout: Layout, frame: &[u8], flags: u32) -> Answer {
    // 1. "L is 0 or above 2,048: refusal 1."
    if frame.is_empty() || frame.len() > 2048 {
        return Err(Refusal::ArrivingLength);
    }
    let length = frame.len() as u32;
    // 2. "Other flag bits: refusal 2."
    if flags & !(COLLISION | MII_ERROR | DRIBBLE) != 0 {
        return Err(Refusal::FlagOrOutcomeBits);
    }
    // 3. "RXEN clear: Ignored."
    if !second.registers.is_set(RXEN) {
        return Ok(IGNORED);
    }
    // 4. "L below 14 (ours); or, with PASSBAD clear, L below 64 or collision
    // seen: Discarded."
    let &[a, b, c, d, e, f, _, _, _, _, _, _, high, low, ..] = frame else {
        return Ok(DISCARDED);
    };
    if !second.registers.is_set(PASSBAD) && (length < 64 || flags & COLLISION != 0) {
        return Ok(DISCARDED);
    }
    // 5. "Filter says no and RXALL is clear: Filtered."
    let to = [a, b, c, d, e, f];
    let said_no = !passes(&second.registers, to);
    if said_no && !second.registers.is_set(RXALL) {
        return Ok(FILTERED);
    }
    // 6. "Free RX data words below L/4 rounded up, or no free RX status:
    // Dropped, RX_DROP plus one and no other change."
    let words = length.div_ceil(4);
    if layout.rx_data.free(second.rx_data) < words || layout.rx_status.free(second.rx_status) == 0 {
        second.registers.drops = second.registers.drops.wrapping_add(1);
        return Ok(DROPPED);
    }
    // 7. "Stored: data words, first byte in bits 7 to 0, unused bytes of the
    // last word zero (ours); one status."
    for four in frame.chunks(4) {
        let mut bytes = [0; 4];
        for (to, from) in bytes.iter_mut().zip(four) {
            *to = *from;
        }
        layout.rx_data.put(
            &mut second.rx_data,
            &mut second.memory,
            u32::from_le_bytes(bytes),
        );
    }
    let v = u32::from(u16::from_be_bytes([high, low]));
    let word = status(length, v, to, said_no, flags, check_fits(frame));
    layout
        .rx_status
        .put(&mut second.rx_status, &mut second.memory, word);
    Ok(STORED)
}

/// 01, RX status: the bits in the order of its list.
fn status(length: u32, v: u32, to: Address, said_no: bool, flags: u32, fits: bool) -> u32 {
    let runt = length < 64;
    let long = length > 1518;
    let collision = flags & COLLISION != 0;
    // "V is at most 1,500 and either V + 18 > L, or L > 64 and V + 18 is not L (ours)"
    let wrong_length = v <= 1500 && (v + 18 > length || (length > 64 && v + 18 != length));
    let bit = |number: u32, set: bool| u32::from(set) << number;
    bit(30, said_no)
        | (length << 16)
        | bit(15, runt || long || collision || !fits)
        | bit(13, broadcast(to))
        | bit(12, wrong_length)
        | bit(11, runt)
        | bit(10, group(to) && !broadcast(to))
        | bit(7, long)
        | bit(5, v > 1500)
        | flags
        | bit(1, !fits)
}

/// 01, bit 1: "the FCS does not fit the bytes before it (ours)". The FCS is the
/// last four bytes.
fn check_fits(frame: &[u8]) -> bool {
    match frame.split_last_chunk::<4>() {
        Some((before, check)) => crc::fcs(before).to_le_bytes() == *check,
        None => false,
    }
}
