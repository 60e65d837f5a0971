//! The second program: the FIFO side of the LAN9221, written once more.
//!
//! What it is. A plain Rust model of the host's FIFO ports, the FIFO levels,
//! the receive filter, arriving frames and frames sent. It is written from
//! paper 01 and, where 01 is silent, from the list of decided points (section 6
//! of the design). It shares no code with the verified model and was written
//! without sight of it: where the two differ, one of them has misread 01.
//!
//! What it is not. Nothing here is proved, nothing here is fast, and nothing
//! here is meant for use in a driver.
//!
//! State. [`Second`] holds everything, the lent memory included. All fields are
//! public, so that forged states can be tried: every number may be anything,
//! and `memory` may have any length. Each call judges what it finds: another
//! length than 4,096 words gets 14, then a number out of its range gets 15.
//! Reset judges the length only. No call panics, whatever the fields hold.
//!
//! Answers. Each call answers [`Said`]: 01's refusal number, 0 for none, and
//! the value, 0 with every refusal.
//!
//! Where to read what: `fifo` Memory; `registers` and `filter` the registers and
//! the filter's table; `crc` FCS and hash; `receive` An arriving frame;
//! `command` A and B taken apart; `port` Words for transmission; `head` and
//! `send` sending; `ranges` what 14 and 15 mean; `refusal` the numbers.
#![forbid(unsafe_code)]

mod calls;
mod command;
mod crc;
mod fifo;
mod filter;
mod head;
mod port;
mod ranges;
mod receive;
mod refusal;
mod registers;
mod send;

pub use crc::{fcs, hash};
pub use fifo::{layout, Area, Layout, Ring};
pub use port::{Expects, Open, Port};
pub use refusal::Said;
pub use registers::Registers;

/// The whole state, the lent memory included.
/// A ring's `place` is that of its oldest word, counted from the start of its
/// FIFO; the next put goes to place plus count, mod size (decided point 18).
#[derive(Clone, Debug, PartialEq, Eq)]
pub struct Second {
    pub registers: Registers,
    pub port: Port,
    pub tx_data: Ring,
    pub tx_status: Ring,
    pub rx_data: Ring,
    pub rx_status: Ring,
    /// Of any length; every call refuses 14 unless it is 4,096.
    pub memory: Vec<u32>,
}

impl Second {
    /// The fresh state over the memory given, which stays as it is.
    pub fn fresh(memory: Vec<u32>) -> Second {
        Second {
            registers: Registers::FRESH,
            port: Port::FRESH,
            tx_data: Ring::EMPTY,
            tx_status: Ring::EMPTY,
            rx_data: Ring::EMPTY,
            rx_status: Ring::EMPTY,
            memory,
        }
    }
}
