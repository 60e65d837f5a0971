//! Parts `state` and `held` of docs/REHEARSAL.md: states of which one number was
//! changed, at the edge of its range and beyond it; and one that holds words.
//!   state       part `state`
//!   held_words  part `held`
//!   registers   n, the MAC registers, RX_DROP
//!   fifos       place and count of each FIFO
//!   whole       whole packets against the words held
//!   held        what the port holds: an A, a first B, sizes, words left
//!   every_call  the seventeen calls with n out of its range

use second::{layout, Expects, Open, Registers, Ring, Second};

use crate::lines::value;
use crate::part::{Part, PASSING_BAD};
use crate::seventeen::SEVENTEEN;

type Register = fn(&mut Registers) -> &mut u32;
type Fifo = fn(&mut Second) -> &mut Ring;
type Held = fn(u32) -> Expects;

const REGISTERS: [(&str, Register, &[u32]); 7] = [
    ("n", |r| &mut r.n, &[0, 1, 2, 14, 15, u32::MAX]),
    (
        "maccr",
        |r| &mut r.mac_cr,
        &[0x801D_A80C, 0x801F_A80C, 1, u32::MAX],
    ),
    ("addrh", |r| &mut r.addrh, &[0xFFFF, 0x1_0000, u32::MAX]),
    ("addrl", |r| &mut r.addrl, &[u32::MAX]),
    ("hashh", |r| &mut r.hashh, &[u32::MAX]),
    ("hashl", |r| &mut r.hashl, &[u32::MAX]),
    ("drops", |r| &mut r.drops, &[u32::MAX]),
];

const HELD: [(&str, Held, &[u32]); 5] = [
    (
        "first a",
        |a| Expects::B { a, open: None },
        &[
            0x0000_2001,
            0x0000_2000,
            0x0000_0001,
            0x0200_2001,
            0x0300_2001,
            0x001F_37FF,
        ],
    ),
    (
        "later a",
        |a| Expects::B {
            a,
            open: Some(Open { b: 0x64, sizes: 10 }),
        },
        &[0x0000_0001, 0x0000_2001, 0x0000_0000],
    ),
    (
        "open b",
        |b| Expects::A {
            open: Some(Open { b, sizes: 1 }),
        },
        &[1, 0, 0x05EA, 0x05EB, 0x25EE, 0x25EF],
    ),
    (
        "sizes",
        |sizes| Expects::A {
            open: Some(Open { b: 0x40, sizes }),
        },
        &[64, 65, u32::MAX],
    ),
    (
        "left",
        |left| Expects::Rest {
            a: 0x0105_203D,
            left,
            open: Open { b: 0x3D, sizes: 61 },
        },
        &[0, 1, 20, 21, u32::MAX],
    ),
];

pub fn state() -> Part {
    let mut part = Part::begin("state");
    registers(&mut part);
    for n in [2, 5, 14] {
        fifos(&mut part, n);
    }
    whole(&mut part);
    held(&mut part);
    every_call(&mut part);
    part
}

/// One forged state, from B(n, 00010004h), and what rx_fifo_inf says of it.
fn forge(part: &mut Part, n: u32, label: &str, change: impl FnOnce(&mut Second)) {
    part.stand_at(n, PASSING_BAD);
    change(&mut part.second);
    part.call(label, |second| second.rx_fifo_inf());
}

fn registers(part: &mut Part) {
    for (name, register, values) in REGISTERS {
        for &to in values {
            let label = format!("{name} {}", value(to));
            forge(part, 5, &label, |second| {
                *register(&mut second.registers) = to;
            });
        }
    }
}

fn fifos(part: &mut Part, n: u32) {
    let at = layout(n).expect("n is one of 2 to 14");
    let fifos: [(&str, Fifo, u32); 4] = [
        ("txdata", |s| &mut s.tx_data, at.tx_data.size),
        ("txstatus", |s| &mut s.tx_status, at.tx_status.size),
        ("rxdata", |s| &mut s.rx_data, at.rx_data.size),
        ("rxstatus", |s| &mut s.rx_status, at.rx_status.size),
    ];
    for (name, fifo, size) in fifos {
        for place in [size - 1, size, u32::MAX] {
            let label = format!("n {n} {name} place {}", value(place));
            forge(part, n, &label, |second| fifo(second).place = place);
        }
        for count in [size, size + 1, u32::MAX] {
            let label = format!("n {n} {name} count {}", value(count));
            forge(part, n, &label, |second| fifo(second).count = count);
        }
    }
}

fn whole(part: &mut Part) {
    for (count, whole) in [(5, 1), (5, 2), (5, u32::MAX), (6, 2), (6, 3)] {
        let label = format!("held {count} whole {}", value(whole));
        forge(part, 5, &label, |second| {
            second.tx_data.count = count;
            second.port.whole = whole;
        });
    }
}

fn held(part: &mut Part) {
    for (name, expects, values) in HELD {
        for &number in values {
            let label = format!("{name} {}", value(number));
            forge(part, 5, &label, |second| {
                second.port.expects = expects(number);
            });
        }
    }
}

fn every_call(part: &mut Part) {
    for (name, call) in SEVENTEEN {
        part.stand_at(5, PASSING_BAD);
        part.second.registers.n = 15;
        part.call(&format!("n 15 {name}"), call);
    }
}

/// Part `held`: the calls on a state of which every FIFO holds words.
pub fn held_words() -> Part {
    let mut part = Part::begin("held");
    for (prefix, mac_cr) in [("off", 0), ("on", 0x0000_000C)] {
        for (name, call) in SEVENTEEN {
            part.stand_at(5, mac_cr);
            hold(&mut part.second);
            part.call(&format!("{prefix} {name}"), call);
        }
    }
    part
}

/// "B(5, MAC_CR) with these numbers changed"
fn hold(second: &mut Second) {
    second.registers.drops = 9;
    second.tx_data = Ring { place: 7, count: 9 };
    second.tx_status = Ring {
        place: 126,
        count: 3,
    };
    second.rx_data = Ring {
        place: 2639,
        count: 5,
    };
    second.rx_status = Ring {
        place: 175,
        count: 2,
    };
    second.port.expects = Expects::A {
        open: Some(Open { b: 0x40, sizes: 10 }),
    };
    second.port.error = true;
    second.port.whole = 2;
}
