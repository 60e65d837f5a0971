//! One part of docs/REHEARSAL.md under way: its state, its memory, its lines.
//!   Part      a part; `second` is what the next call meets
//!   filled    filled memory
//!   ADDRH, ADDRL, RECEIVING, PASSING_BAD   what the named states are made with
//!
//! The memory lies in `second` and stays there when a state is named anew, since
//! "a trial starts from the state that is named and with the memory as the trial
//! before left it".

use second::{Said, Second};

use crate::lines;

/// Our address, 02-11-22-33-44-55.
pub const ADDRH: u32 = 0x0000_5544;
pub const ADDRL: u32 = 0x3322_1102;

/// MAC_CR with RXEN.
pub const RECEIVING: u32 = 0x0000_0004;
/// MAC_CR with RXEN and PASSBAD.
pub const PASSING_BAD: u32 = 0x0001_0004;

pub struct Part {
    pub lines: String,
    pub second: Second,
}

/// "word i, from 0, is (i + 1) times 9E3779B9h, mod 2^32"
pub fn filled(words: u32) -> Vec<u32> {
    (0..words)
        .map(|i| (i + 1).wrapping_mul(0x9E37_79B9))
        .collect()
}

impl Part {
    /// "Every part begins with a line of its own, `== NAME`, and with filled
    /// memory."
    pub fn begin(name: &str) -> Part {
        Part {
            lines: format!("== {name}\n"),
            second: Second::fresh(filled(4096)),
        }
    }

    /// B(n, MAC_CR): the state from which the next call starts. What these four
    /// calls say is not looked at; had one been refused, the state's digest
    /// would tell.
    pub fn stand_at(&mut self, n: u32, mac_cr: u32) {
        let memory = std::mem::take(&mut self.second.memory);
        self.second = Second::fresh(memory);
        self.second.set_split(n);
        self.second.mac_write(2, ADDRH);
        self.second.mac_write(3, ADDRL);
        self.second.mac_write(1, mac_cr);
    }

    pub fn line(&mut self, line: &str) {
        self.lines.push_str(line);
        self.lines.push('\n');
    }

    /// A call, and its call line.
    pub fn call(&mut self, label: &str, call: impl FnOnce(&mut Second) -> Said) {
        let said = call(&mut self.second);
        self.call_line(label, said);
    }

    /// The call line of a call already made.
    pub fn call_line(&mut self, label: &str, said: Said) {
        let said = lines::said(said);
        let after = self.after();
        self.line(&format!("{label}: {said} {after}"));
    }

    /// A frame arrives, and its arrival line.
    pub fn arrival(&mut self, label: &str, frame: &[u8], flags: u32) {
        let answer = lines::answer(self.second.arrive(frame, flags));
        let levels = self.levels();
        let peek = lines::said(self.second.rx_status_peek());
        let after = self.after();
        self.line(&format!("{label}: {answer} {levels} peek {peek} {after}"));
    }

    /// `inf SAID drop SAID`. RX_DROP clears when it is read, so a copy is asked;
    /// the level cannot change what it reads.
    pub fn levels(&self) -> String {
        let inf = lines::said(self.second.rx_fifo_inf());
        let drop = lines::said(self.second.clone().rx_drop());
        format!("inf {inf} drop {drop}")
    }

    fn after(&self) -> String {
        let state = lines::state(&self.second);
        let memory = lines::memory(&self.second);
        format!("state {state} memory {memory}")
    }
}
