//! Parts `registers` and `restarts` of docs/REHEARSAL.md: what registers take,
//! and when the FIFOs may be split anew or dumped.

use crate::frames::{frame, OURS, TYPE};
use crate::lines::value;
use crate::part::{Part, PASSING_BAD, RECEIVING};

/// MAC_CR with TXEN.
const SENDING: u32 = 0x0000_0008;

pub fn registers() -> Part {
    let mut part = Part::begin("registers");
    for register in [0, 1, 2, 3, 4, 5, 6, u32::MAX] {
        let number = value(register);
        part.stand_at(5, PASSING_BAD);
        part.call(&format!("read {number}"), |second| {
            second.mac_read(register)
        });
        let label = format!("write {number}");
        write(&mut part, PASSING_BAD, &label, register, 0);
    }
    for addrh in [0xFFFF, 0x1_0000, u32::MAX] {
        let label = format!("addrh {}", value(addrh));
        write(&mut part, PASSING_BAD, &label, 2, addrh);
    }
    for bit in 0..32 {
        let label = format!("maccr {}", value(1 << bit));
        write(&mut part, 0, &label, 1, 1 << bit);
    }
    for k in 0..32 {
        let mac_cr = setting(k);
        let label = format!("setting {k} {}", value(mac_cr));
        write(&mut part, 0, &label, 1, mac_cr);
    }
    part
}

/// A mac_write on B(5, MAC_CR).
fn write(part: &mut Part, mac_cr: u32, label: &str, register: u32, word: u32) {
    part.stand_at(5, mac_cr);
    part.call(label, |second| second.mac_write(register, word));
}

/// "bit 19 if K has 16, bit 18 if 8, bit 17 if 4, bit 15 if 2, bit 13 if 1"
pub fn setting(k: u32) -> u32 {
    [(16, 19), (8, 18), (4, 17), (2, 15), (1, 13)]
        .into_iter()
        .filter(|(has, _)| k & has != 0)
        .fold(0, |word, (_, bit)| word | 1 << bit)
}

pub fn restarts() -> Part {
    let mut part = Part::begin("restarts");
    for n in [0, 1, 2, 14, 15, u32::MAX] {
        split(&mut part, 0, n);
    }
    split(&mut part, RECEIVING, 6);
    split(&mut part, SENDING, 6);
    for mac_cr in [RECEIVING, SENDING] {
        part.stand_at(5, mac_cr);
        part.call("dump_rx", |second| second.dump_rx());
        part.stand_at(5, mac_cr);
        part.call("dump_tx_data", |second| second.dump_tx_data());
        part.stand_at(5, mac_cr);
        part.call("dump_tx_status", |second| second.dump_tx_status());
    }
    emptied(&mut part);
    part
}

/// A set_split on B(5, MAC_CR).
fn split(part: &mut Part, mac_cr: u32, n: u32) {
    part.stand_at(5, mac_cr);
    let label = format!("set_split {}", value(n));
    part.call(&label, |second| second.set_split(n));
}

/// One waiting frame keeps the split as it is, first by its status, then by its
/// data words, until RX is dumped. Here each call meets what the last one left.
fn emptied(part: &mut Part) {
    part.stand_at(5, RECEIVING);
    part.arrival("waiting", &frame(64, TYPE, 1, OURS), 0);
    part.call("maccr", |second| second.mac_write(1, 0));
    part.call("set_split", |second| second.set_split(6));
    part.call("status", |second| second.rx_status_pop());
    part.call("set_split", |second| second.set_split(6));
    part.call("dump_rx", |second| second.dump_rx());
    part.call("set_split", |second| second.set_split(6));
    part.call("split", |second| second.split());
}
