//! What every call judges first. Paper 01, Refusal numbers, Order and Ranges.
//!   enter      14, then 15, or where the FIFOs lie
//!   lent       14 alone, for reset
//! The ranges are exactly those that 01 lists (decided point 5).

use crate::command::{good_first, length, Buffer};
use crate::fifo::{layout, Layout, MEMORY_WORDS};
use crate::port::{Expects, Open};
use crate::refusal::Refusal;
use crate::Second;

impl Second {
    /// 01: "lent memory not 4,096 words"
    pub(crate) fn lent(&self) -> Result<(), Refusal> {
        if self.memory.len() == MEMORY_WORDS {
            Ok(())
        } else {
            Err(Refusal::Memory)
        }
    }

    /// 01: "Order: 14, 15 (ranges), then"
    pub(crate) fn enter(&self) -> Result<Layout, Refusal> {
        self.lent()?;
        let layout = layout(self.registers.n).ok_or(Refusal::State)?;
        let good = self.rings_fit(layout)
            && self.registers.are_as_written()
            && expects_in_range(self.port.expects)
            && self.whole_in_range();
        if good {
            Ok(layout)
        } else {
            Err(Refusal::State)
        }
    }

    /// 01: "places below the FIFO's size, counts at most the size"
    fn rings_fit(&self, at: Layout) -> bool {
        at.tx_data.holds(self.tx_data)
            && at.tx_status.holds(self.tx_status)
            && at.rx_data.holds(self.rx_data)
            && at.rx_status.holds(self.rx_status)
    }

    /// 01: "whole packets at most a third of the words held"
    fn whole_in_range(&self) -> bool {
        self.port.whole <= self.tx_data.count / 3
    }
}

/// 01: "an A and first B held are ones the port accepts", "payload words left
/// from 1 to what that A asks". An A waiting for its B is judged by whether a
/// packet was open before it (decided point 3); one whose payload runs may be
/// First or not, since 01 lists no number that tells.
fn expects_in_range(expects: Expects) -> bool {
    match expects {
        Expects::A { open } => open.is_none_or(open_in_range),
        Expects::B { a, open } => {
            Buffer::of_when(a, open.is_some()).is_some() && open.is_none_or(open_in_range)
        }
        Expects::Rest { a, left, open } => {
            Buffer::of(a).is_some_and(|buffer| (1..=buffer.host_words()).contains(&left))
                && open_in_range(open)
        }
    }
}

/// 01: "sizes so far at most p"
fn open_in_range(open: Open) -> bool {
    good_first(open.b) && open.sizes <= length(open.b)
}
