//! The seventeen calls, and part `memory` of docs/REHEARSAL.md: each call with
//! too little, too much and just enough memory lent.

use second::{Said, Second};

use crate::frames::{frame, OURS, TYPE};
use crate::part::{filled, Part, PASSING_BAD};

type Call = fn(&mut Second) -> Said;

/// In the page's order, with its names and arguments.
pub const SEVENTEEN: [(&str, Call); 17] = [
    ("reset", |second| second.reset()),
    ("mac_write", |second| second.mac_write(4, 0x1234_5678)),
    ("mac_read", |second| second.mac_read(2)),
    ("set_split", |second| second.set_split(6)),
    ("split", |second| second.split()),
    ("rx_fifo_inf", |second| second.rx_fifo_inf()),
    ("tx_fifo_inf", |second| second.tx_fifo_inf()),
    ("rx_drop", |second| second.rx_drop()),
    ("dump_tx_data", |second| second.dump_tx_data()),
    ("dump_tx_status", |second| second.dump_tx_status()),
    ("dump_rx", |second| second.dump_rx()),
    ("arrive", |second| {
        second.arrive(&frame(64, TYPE, 1, OURS), 0)
    }),
    ("rx_data_read", |second| second.rx_data_read()),
    ("rx_status_pop", |second| second.rx_status_pop()),
    ("rx_status_peek", |second| second.rx_status_peek()),
    ("tx_status_pop", |second| second.tx_status_pop()),
    ("tx_status_peek", |second| second.tx_status_peek()),
];

/// The 4,097 words outlast each trial; what is lent is their front, and goes
/// back to them when the trial is over.
pub fn memory() -> Part {
    let mut part = Part::begin("memory");
    part.stand_at(5, PASSING_BAD);
    let named = part.second.clone();
    let mut words = filled(4097);
    for length in [0, 4095, 4097, 4096] {
        for (name, call) in SEVENTEEN {
            part.second = Second {
                memory: words[..length].to_vec(),
                ..named.clone()
            };
            part.call(&format!("memory {length} {name}"), call);
            words[..length].copy_from_slice(&part.second.memory);
        }
    }
    for (name, call) in SEVENTEEN {
        part.second = Second {
            memory: words[..4095].to_vec(),
            ..named.clone()
        };
        part.second.registers.n = 15;
        part.call(&format!("both {name}"), call);
    }
    part
}
