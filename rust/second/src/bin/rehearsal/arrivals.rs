//! Parts `lengths`, `flags`, `types`, `fcs` and `room` of docs/REHEARSAL.md: one
//! frame after another arrives, each with its arrival line.

use crate::frames::{frame, OURS, TYPE};
use crate::lines::value;
use crate::part::{Part, PASSING_BAD, RECEIVING};

pub fn lengths() -> Part {
    let mut part = Part::begin("lengths");
    for mac_cr in [RECEIVING, PASSING_BAD, 0] {
        for length in [0, 1, 13, 14, 59, 60, 63, 64, 65, 1518, 1519, 2048, 2049] {
            part.stand_at(5, mac_cr);
            let label = format!("maccr {} length {length}", value(mac_cr));
            part.arrival(&label, &frame(length, TYPE, length, OURS), 0);
        }
    }
    part
}

pub fn flags() -> Part {
    let mut part = Part::begin("flags");
    for mac_cr in [RECEIVING, PASSING_BAD] {
        for bit in 0..32 {
            let flags = 1 << bit;
            part.stand_at(5, mac_cr);
            let label = format!("maccr {} flags {}", value(mac_cr), value(flags));
            part.arrival(&label, &frame(64, TYPE, 1, OURS), flags);
        }
    }
    part
}

pub fn types() -> Part {
    let mut part = Part::begin("types");
    for (length, v) in [
        (1518, 1500),
        (1518, 1501),
        (64, 1500),
        (64, 1501),
        (64, 45),
        (64, 46),
        (64, 47),
        (65, 46),
        (65, 47),
        (65, 48),
    ] {
        part.stand_at(5, RECEIVING);
        let label = format!("length {length} type {v}");
        part.arrival(&label, &frame(length, v, 1, OURS), 0);
    }
    part
}

/// The last frame, changed by 0, is good again.
pub fn fcs() -> Part {
    let mut part = Part::begin("fcs");
    for i in 60..=63 {
        changed(&mut part, i, 1);
        changed(&mut part, i, 128);
    }
    changed(&mut part, 60, 0);
    part
}

fn changed(part: &mut Part, i: usize, by: u8) {
    let mut bytes = frame(64, TYPE, 1, OURS);
    bytes[i] ^= by;
    part.stand_at(5, RECEIVING);
    part.arrival(&format!("byte {i} with {by}"), &bytes, 0);
}

/// With n = 14 the RX FIFOs are at their smallest: 480 words and 32 statuses.
pub fn room() -> Part {
    let mut part = Part::begin("room");
    for length in [1920, 1921] {
        part.stand_at(14, RECEIVING);
        arrives(&mut part, "empty", length);
    }
    part.stand_at(14, RECEIVING);
    part.second.registers.drops = u32::MAX;
    for _ in 0..3 {
        arrives(&mut part, "drops", 1518);
    }
    part.stand_at(14, PASSING_BAD);
    for length in [1856, 65, 64, 14] {
        arrives(&mut part, "data", length);
    }
    part.stand_at(14, PASSING_BAD);
    for _ in 0..33 {
        arrives(&mut part, "statuses", 14);
    }
    part.call("pop", |second| second.rx_status_pop());
    arrives(&mut part, "statuses", 14);
    part
}

/// frame(L, 0800h, L, ours) at whatever state stands.
fn arrives(part: &mut Part, label: &str, length: usize) {
    let bytes = frame(length, TYPE, length, OURS);
    part.arrival(&format!("{label} {length}"), &bytes, 0);
}
