//! Parts `takes 5` and `takes 14` of docs/REHEARSAL.md: a choir's takes arrive
//! until receive memory is full and are read back, twice.

use crate::frames::{frame, ALL, OTHER, OURS, TYPE};
use crate::lines;
use crate::part::{Part, ADDRH, ADDRL, RECEIVING};

/// Takes in a round.
const TAKES: usize = 48;

const LENGTHS: [u16; 8] = [64, 65, 66, 67, 600, 1518, 1519, 1514];

/// Flag bit 2, dribble.
const DRIBBLE: u32 = 4;

/// The calls of B(n, 00000004h) are made here and not by `stand_at`, since each
/// has its line.
pub fn takes(name: &str, n: u32) -> Part {
    let mut part = Part::begin(name);
    part.call("set_split", |second| second.set_split(n));
    part.call("addrh", |second| second.mac_write(2, ADDRH));
    part.call("addrl", |second| second.mac_write(3, ADDRL));
    part.call("maccr", |second| second.mac_write(1, RECEIVING));
    for round in 0..2 {
        for k in TAKES * round..TAKES * (round + 1) {
            take(&mut part, k);
        }
        read_back(&mut part);
    }
    part
}

fn take(part: &mut Part, k: usize) {
    let length = LENGTHS[k % 8];
    let to = match (k % 7, k % 5) {
        (6, _) => ALL,
        (_, 4) => OTHER,
        _ => OURS,
    };
    let v = if k % 2 == 1 { length - 18 } else { TYPE };
    let flags = if k % 11 == 10 { DRIBBLE } else { 0 };
    let bytes = frame(usize::from(length), v, k, to);
    let answer = lines::answer(part.second.arrive(&bytes, flags));
    let levels = part.levels();
    part.line(&format!("take {k} length {length}: {answer} {levels}"));
}

/// Each status with its frame's words, then the calls that find nothing left.
fn read_back(part: &mut Part) {
    let refused = loop {
        let popped = part.second.rx_status_pop();
        if popped.refusal != 0 {
            break popped;
        }
        read_frame(part, popped.value);
    };
    part.call_line("status", refused);
    part.call("data", |second| second.rx_data_read());
    part.call("drop", |second| second.rx_drop());
    part.call("drop", |second| second.rx_drop());
}

/// "its length, bits 29 to 16, over 4, rounded up"
fn read_frame(part: &mut Part, status: u32) {
    let count = ((status >> 16) & 0x3FFF).div_ceil(4);
    let words: Vec<u32> = (0..count)
        .map(|_| part.second.rx_data_read().value)
        .collect();
    let status = lines::value(status);
    let digest = lines::digest(&words);
    part.line(&format!("status {status} words {count} digest {digest}"));
}
