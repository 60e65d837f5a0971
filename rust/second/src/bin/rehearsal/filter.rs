//! Part `filter` of docs/REHEARSAL.md: each setting of the five mode bits meets
//! six destinations, with broadcasts let in, with broadcasts kept out, and with
//! RXALL, where the status tells what the filter said.

use crate::frames::{frame, ALL, GROUP, NEAR, OTHER, OURS, SIX, TYPE};
use crate::lines;
use crate::part::{Part, RECEIVING};
use crate::settings::setting;

const BCAST: u32 = 1 << 11;
const RXALL: u32 = 1 << 31;

pub fn filter() -> Part {
    let mut part = Part::begin("filter");
    for k in 0..32 {
        let bits = setting(k) | RECEIVING;
        six(&mut part, &format!("setting {k}"), bits);
        six(&mut part, &format!("setting {k} bcast"), bits | BCAST);
        six(&mut part, &format!("setting {k} rxall"), bits | RXALL);
    }
    part
}

/// One line: what the write of MAC_CR said, and what each of the six met.
fn six(part: &mut Part, label: &str, mac_cr: u32) {
    part.stand_at(5, RECEIVING);
    part.second.mac_write(4, 0x4000_0040);
    part.second.mac_write(5, 0x8000_0000);
    let written = lines::said(part.second.mac_write(1, mac_cr));
    let named = part.second.clone();
    let mut line = format!("{label}: {written}");
    for to in [OURS, OTHER, NEAR, GROUP, SIX, ALL] {
        let memory = std::mem::take(&mut part.second.memory);
        part.second = named.clone();
        part.second.memory = memory;
        let met = part.second.arrive(&frame(64, TYPE, 1, to), 0);
        let told = if label.ends_with("rxall") {
            lines::said(part.second.rx_status_peek())
        } else {
            lines::answer(met)
        };
        line.push(' ');
        line.push_str(&told);
    }
    part.line(&line);
}
