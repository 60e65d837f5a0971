//! Sending. Paper 01, Words for transmission, last paragraph.
//!   send     sends the oldest whole packet; answers the frame's length
//!   frame    the bytes that go out
//!   status   the TX status word

use crate::command::{no_crc, no_padding, tag};
use crate::crc;
use crate::fifo::Layout;
use crate::head::{head, Head};
use crate::refusal::{Answer, Refusal};
use crate::registers::TXEN;
use crate::Second;

/// 01: "an outcome (bits 11, 10, 9, 8, 6-3, 2, 0 of the status)"
const OUTCOME: u32 = 1 << 11 | 1 << 10 | 1 << 9 | 1 << 8 | 0xF << 3 | 1 << 2 | 1;
/// 01: "bit 15 set if 11, 10, 9, 8 or 2 is"
const FAULTS: u32 = 1 << 11 | 1 << 10 | 1 << 9 | 1 << 8 | 1 << 2;
/// 01: "a lent out buffer of at least 1,518 bytes"
const LONGEST: usize = 1518;

/// 01, Order: "sending 10, 2, 11, 15 (head), 12, 13"
pub(crate) fn send(second: &mut Second, layout: Layout, outcome: u32, out: &mut [u8]) -> Answer {
    if !second.registers.is_set(TXEN) {
        return Err(Refusal::TxenClear);
    }
    if outcome & !OUTCOME != 0 {
        return Err(Refusal::FlagOrOutcomeBits);
    }
    if second.port.whole == 0 {
        return Err(Refusal::Nothing);
    }
    let packet =
        head(|k| layout.tx_data.word(second.tx_data, &second.memory, k)).ok_or(Refusal::State)?;
    if layout.tx_status.free(second.tx_status) == 0 {
        return Err(Refusal::TxStatusFull);
    }
    if out.len() < LONGEST {
        return Err(Refusal::OutShort);
    }
    // 01: "The frame fills the front of the out buffer, the rest stays, the
    // packet's words are freed, and one status goes in"
    let frame = frame(&packet);
    for (to, from) in out.iter_mut().zip(&frame) {
        *to = *from;
    }
    layout.tx_data.let_go(&mut second.tx_data, packet.words);
    second.port.whole -= 1;
    let word = status(packet.b, outcome);
    layout
        .tx_status
        .put(&mut second.tx_status, &mut second.memory, word);
    Ok(frame.len() as u32)
}

/// 01: "If p < 60 (ours) and bit 12 is clear, zeros follow up to 60 and the FCS
/// is added, whatever bit 13 says; otherwise the FCS is added exactly when bit
/// 13 is clear."
fn frame(packet: &Head) -> Vec<u8> {
    let mut frame = packet.bytes.clone();
    let padded = frame.len() < 60 && !no_padding(packet.b);
    if padded {
        frame.resize(60, 0);
    }
    if padded || !no_crc(packet.b) {
        frame.extend(crc::fcs(&frame).to_le_bytes());
    }
    frame
}

/// 01: "tag in 31-16, bit 15 set if 11, 10, 9, 8 or 2 is, and the outcome"
fn status(b: u32, outcome: u32) -> u32 {
    tag(b) << 16 | u32::from(outcome & FAULTS != 0) << 15 | outcome
}
