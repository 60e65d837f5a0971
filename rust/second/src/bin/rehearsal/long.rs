//! Part `long` of docs/REHEARSAL.md: 10,000 steps by drawn numbers, each answer
//! of which goes into one digest.

use second::{Said, Second};

use crate::frames::{frame, ALL, GROUP, NEAR, OTHER, OURS, TYPE};
use crate::lines::{self, value, with};
use crate::part::{Part, ADDRH, ADDRL, RECEIVING};
use crate::settings::setting;

/// What the page calls x, and the digest of all answers so far.
struct Run {
    part: Part,
    x: u32,
    answers: u32,
}

pub fn long() -> Part {
    let mut part = Part::begin("long");
    part.stand_at(5, RECEIVING);
    let mut run = Run {
        part,
        x: 2_463_534_242,
        answers: 0,
    };
    for i in 0..10_000 {
        run.step(i);
        if i % 500 == 499 {
            let second = &run.part.second;
            let line = format!(
                "step {}: answers {} state {} memory {}",
                i + 1,
                value(run.answers),
                lines::state(second),
                lines::memory(second)
            );
            run.part.line(&line);
        }
    }
    run.part
}

impl Run {
    fn draw(&mut self) -> u32 {
        self.x ^= self.x << 13;
        self.x ^= self.x >> 17;
        self.x ^= self.x << 5;
        self.x
    }

    fn call(&mut self, call: impl FnOnce(&mut Second) -> Said) {
        let said = call(&mut self.part.second);
        self.answers = with(with(self.answers, said.refusal), said.value);
    }

    fn step(&mut self, i: usize) {
        let (a, b, c) = (self.draw(), self.draw(), self.draw());
        match a % 16 {
            0..=6 => self.arrive(i, b, c),
            7..=9 => {
                for _ in 0..1 + b % 120 {
                    self.call(|s| s.rx_data_read());
                }
            }
            10 | 11 => self.call(|s| s.rx_status_pop()),
            12 => self.look(b),
            13 => self.write(b, c),
            14 => self.restart(b, c),
            _ if b % 8 == 0 => {
                self.call(|s| s.reset());
                self.call(|s| s.mac_write(1, 4));
            }
            _ => self.call(|s| s.mac_read(1 + c % 6)),
        }
    }

    fn arrive(&mut self, i: usize, b: u32, c: u32) {
        let length = match b % 4 {
            0 => 14 + b / 4 % 64,
            1 => 60 + b / 4 % 8,
            2 => 64 + b / 4 % 512,
            _ => 1490 + b / 4 % 64,
        };
        let to = [OURS, OURS, OURS, OURS, OTHER, GROUP, NEAR, ALL][(c % 8) as usize];
        let v = match c / 8 % 4 {
            0 => length.saturating_sub(18) as u16,
            1 => TYPE,
            2 => 46,
            _ => 0x0600,
        };
        let flags = match c / 32 % 16 {
            0 => 4,
            1 => 8,
            2 => 64,
            3 => 1,
            _ => 0,
        };
        let bytes = frame(length as usize, v, i, to);
        self.call(|s| s.arrive(&bytes, flags));
    }

    fn look(&mut self, b: u32) {
        match b % 4 {
            0 => self.call(|s| s.rx_status_peek()),
            1 => self.call(|s| s.rx_fifo_inf()),
            2 => self.call(|s| s.rx_drop()),
            _ => self.call(|s| s.tx_fifo_inf()),
        }
    }

    fn write(&mut self, b: u32, c: u32) {
        match b % 8 {
            0..=4 => {
                let rxen = if c / 32 % 8 == 0 { 0 } else { 1 << 2 };
                let bits = (c / 256 % 2) << 16 | (c / 512 % 2) << 31 | (c / 1024 % 2) << 11;
                self.call(|s| s.mac_write(1, setting(c % 32) | rxen | bits));
            }
            5 => self.call(|s| s.mac_write(2, ADDRH)),
            6 => self.call(|s| s.mac_write(3, ADDRL)),
            _ => self.call(|s| s.mac_write(4 + c % 3, c)),
        }
    }

    fn restart(&mut self, b: u32, c: u32) {
        match b % 4 {
            0 => {
                self.call(|s| s.mac_write(1, 0));
                self.call(|s| s.dump_rx());
                self.call(|s| s.set_split(c % 17));
                self.call(|s| s.mac_write(1, 4));
            }
            1 => self.call(|s| s.dump_rx()),
            2 => self.call(|s| s.dump_tx_status()),
            _ => self.call(|s| s.dump_tx_data()),
        }
    }
}
