//! The public calls. Each refuses 14, then 15, first; reset refuses 14 only.
//! The further refusals stand in order at each call.

use crate::fifo::{layout, Area, Ring};
use crate::port::{Expects, Port};
use crate::refusal::{Answer, Refusal, Said};
use crate::registers::{accepts, Registers, RXEN, TXEN};
use crate::{port, receive, send, Second};

impl Second {
    /// 01: "Reset restarts all four and sets the register defaults of the fresh
    /// state". "Reset needs 14 only." Memory stays as it is.
    pub fn reset(&mut self) -> Said {
        Said::of(self.lent().map(|()| {
            self.registers = Registers::FRESH;
            self.port = Port::FRESH;
            self.restart_all();
            0
        }))
    }

    /// Refuses 3, 4.
    pub fn mac_write(&mut self, register: u32, value: u32) -> Said {
        Said::of(self.enter().and_then(|_| {
            let to = self
                .registers
                .numbered(register)
                .ok_or(Refusal::NoSuchRegister)?;
            if !accepts(register, value) {
                return Err(Refusal::BadValue);
            }
            *to = value;
            Ok(0)
        }))
    }

    /// Answers the stored value. Refuses 3.
    pub fn mac_read(&self, register: u32) -> Said {
        Said::of(self.enter().and_then(|_| {
            let mut copy = self.registers;
            copy.numbered(register)
                .map(|value| *value)
                .ok_or(Refusal::NoSuchRegister)
        }))
    }

    /// 01: "allowed only if all four FIFOs are empty, TXEN and RXEN are clear,
    /// no transmit buffer or packet is open and no transmit error stands; this
    /// restarts all FIFOs". Refuses 4, 5. Keeps registers and RX_DROP (decided
    /// point 11).
    pub fn set_split(&mut self, n: u32) -> Said {
        Said::of(self.enter().and_then(|_| {
            layout(n).ok_or(Refusal::BadValue)?;
            if !self.split_allowed() {
                return Err(Refusal::NotAllowedNow);
            }
            self.registers.n = n;
            self.restart_all();
            Ok(0)
        }))
    }

    /// Answers n.
    pub fn split(&self) -> Said {
        Said::of(self.enter().map(|_| self.registers.n))
    }

    /// 01: "RX statuses waiting in bits 23 to 16, RX data bytes waiting (words
    /// times 4) in 15 to 0"
    pub fn rx_fifo_inf(&self) -> Said {
        Said::of(
            self.enter()
                .map(|_| (self.rx_status.count << 16) | (self.rx_data.count * 4)),
        )
    }

    /// 01: "TX statuses waiting in 23 to 16, free TX data bytes in 15 to 0"
    pub fn tx_fifo_inf(&self) -> Said {
        Said::of(
            self.enter()
                .map(|at| (self.tx_status.count << 16) | (at.tx_data.free(self.tx_data) * 4)),
        )
    }

    /// 01: "RX_DROP counts dropped frames, reads and then clears"
    pub fn rx_drop(&mut self) -> Said {
        Said::of(
            self.enter()
                .map(|_| std::mem::take(&mut self.registers.drops)),
        )
    }

    /// 01: "Dumping TX data needs TXEN clear; it restarts TX data, forgets every
    /// packet, open or whole, clears the transmit error, and the port expects an
    /// A." Refuses 5.
    pub fn dump_tx_data(&mut self) -> Said {
        Said::of(self.enter().and_then(|_| {
            if self.registers.is_set(TXEN) {
                return Err(Refusal::NotAllowedNow);
            }
            self.tx_data = Ring::EMPTY;
            self.port = Port::FRESH;
            Ok(0)
        }))
    }

    /// 01: "Dumping TX status is always allowed."
    pub fn dump_tx_status(&mut self) -> Said {
        Said::of(self.enter().map(|_| {
            self.tx_status = Ring::EMPTY;
            0
        }))
    }

    /// 01: "Dumping RX needs RXEN clear and restarts RX data and RX status."
    /// Refuses 5.
    pub fn dump_rx(&mut self) -> Said {
        Said::of(self.enter().and_then(|_| {
            if self.registers.is_set(RXEN) {
                return Err(Refusal::NotAllowedNow);
            }
            self.rx_data = Ring::EMPTY;
            self.rx_status = Ring::EMPTY;
            Ok(0)
        }))
    }

    /// Answers the line of 01: 3 Ignored, 4 Discarded, 5 Filtered, 6 Dropped,
    /// 7 Stored. Refuses 1, 2.
    pub fn arrive(&mut self, frame: &[u8], flags: u32) -> Said {
        Said::of(
            self.enter()
                .and_then(|at| receive::arrive(self, at, frame, flags)),
        )
    }

    /// Refuses 11.
    pub fn rx_data_read(&mut self) -> Said {
        Said::of(
            self.enter()
                .and_then(|at| pop(at.rx_data, &mut self.rx_data, &self.memory)),
        )
    }

    /// Refuses 11.
    pub fn rx_status_pop(&mut self) -> Said {
        Said::of(
            self.enter()
                .and_then(|at| pop(at.rx_status, &mut self.rx_status, &self.memory)),
        )
    }

    /// Refuses 11.
    pub fn rx_status_peek(&self) -> Said {
        Said::of(
            self.enter()
                .and_then(|at| peek(at.rx_status, self.rx_status, &self.memory)),
        )
    }

    /// Refuses 6, 7, 8, 9.
    pub fn tx_word(&mut self, word: u32) -> Said {
        Said::of(self.enter().and_then(|at| port::tx_word(self, at, word)))
    }

    /// Answers the frame's length. Refuses 10, 2, 11, 15 (head), 12, 13.
    pub fn send(&mut self, outcome: u32, out: &mut [u8]) -> Said {
        Said::of(
            self.enter()
                .and_then(|at| send::send(self, at, outcome, out)),
        )
    }

    /// Refuses 11.
    pub fn tx_status_pop(&mut self) -> Said {
        Said::of(
            self.enter()
                .and_then(|at| pop(at.tx_status, &mut self.tx_status, &self.memory)),
        )
    }

    /// Refuses 11.
    pub fn tx_status_peek(&self) -> Said {
        Said::of(
            self.enter()
                .and_then(|at| peek(at.tx_status, self.tx_status, &self.memory)),
        )
    }

    fn split_allowed(&self) -> bool {
        let rings = [self.tx_data, self.tx_status, self.rx_data, self.rx_status];
        rings.iter().all(|ring| ring.count == 0)
            && !self.registers.is_set(TXEN | RXEN)
            && self.port.expects == Expects::A { open: None }
            && !self.port.error
    }

    fn restart_all(&mut self) {
        self.tx_data = Ring::EMPTY;
        self.tx_status = Ring::EMPTY;
        self.rx_data = Ring::EMPTY;
        self.rx_status = Ring::EMPTY;
    }
}

/// 01: 11 "nothing to read, peek or send"
fn peek(area: Area, ring: Ring, memory: &[u32]) -> Answer {
    area.word(ring, memory, 0).ok_or(Refusal::Nothing)
}

fn pop(area: Area, ring: &mut Ring, memory: &[u32]) -> Answer {
    let word = peek(area, *ring, memory)?;
    area.let_go(ring, 1);
    Ok(word)
}
