//! The transmit port. Paper 01, Words for transmission.
//!   Port      what the port expects, whether an error stands, packets whole
//!   Expects   one of three things; each case holds what it needs
//!   Open      an open packet once its first B is taken
//!   tx_word   one word written to the port

use crate::command::{good_first, length, tag, Buffer};
use crate::fifo::Layout;
use crate::refusal::{Answer, Refusal};
use crate::Second;

/// An open packet: its first B, and the sizes so far, which rise when a B is
/// accepted (decided point 15).
#[derive(Clone, Copy, Debug, PartialEq, Eq)]
pub struct Open {
    pub b: u32,
    pub sizes: u32,
}

/// 01: "What the port expects next is one of three things: command A, command B
/// after a known A, or a counted rest of payload words."
#[derive(Clone, Copy, Debug, PartialEq, Eq)]
pub enum Expects {
    /// `open`: the packet that is open, if any.
    A { open: Option<Open> },
    /// `open`: the packet that was open before this A, if any.
    B { a: u32, open: Option<Open> },
    /// `left`: payload words still to come, thrown away ones included.
    Rest { a: u32, left: u32, open: Open },
}

#[derive(Clone, Copy, Debug, PartialEq, Eq)]
pub struct Port {
    pub expects: Expects,
    /// The transmit error stands.
    pub error: bool,
    /// Packets whole and not yet sent.
    pub whole: u32,
}

impl Port {
    /// 01: "no transmit error, no packet open or whole, the port expecting an A"
    pub const FRESH: Port = Port {
        expects: Expects::A { open: None },
        error: false,
        whole: 0,
    };
}

/// What an accepted word does: whether it is stored, and the port after it.
struct Taken {
    stored: bool,
    after: Port,
}

/// 01, Order: "TX words 6, 7, 8, 9"; "7, 8 and 9 set the transmit error" and
/// leave the port where it stood (decided point 15).
pub(crate) fn tx_word(second: &mut Second, layout: Layout, word: u32) -> Answer {
    if second.port.error {
        return Err(Refusal::ErrorStands);
    }
    let free = layout.tx_data.free(second.tx_data);
    let taken = judge(second.port, word).and_then(|taken| {
        // 01: "a word to be stored finds TX data full"
        if taken.stored && free == 0 {
            Err(Refusal::TxDataFull)
        } else {
            Ok(taken)
        }
    });
    match taken {
        Ok(Taken { stored, after }) => {
            if stored {
                layout
                    .tx_data
                    .put(&mut second.tx_data, &mut second.memory, word);
            }
            second.port = after;
            Ok(0)
        }
        Err(refusal) => {
            second.port.error = true;
            Err(refusal)
        }
    }
}

/// 7 and 8, and what follows if there is room. A held A that is bad never comes
/// here: it is out of its range.
fn judge(port: Port, word: u32) -> Result<Taken, Refusal> {
    match port.expects {
        Expects::A { open } => {
            Buffer::of_when(word, open.is_some()).ok_or(Refusal::BadAOrLength)?;
            // 01: "Stored: A always"
            Ok(Taken {
                stored: true,
                after: Port {
                    expects: Expects::B { a: word, open },
                    ..port
                },
            })
        }
        Expects::B { a, open } => {
            let buffer = Buffer::of(a).ok_or(Refusal::BadAOrLength)?;
            let open_now = judge_b(&buffer, open, word)?;
            let expects = Expects::Rest {
                a,
                left: buffer.host_words(),
                open: open_now,
            };
            // 01: "B if First"
            Ok(Taken {
                stored: open.is_none(),
                after: Port { expects, ..port },
            })
        }
        Expects::Rest { a, left, open } => {
            let buffer = Buffer::of(a).ok_or(Refusal::BadAOrLength)?;
            let stored = buffer.stores(buffer.host_words().saturating_sub(left));
            Ok(Taken {
                stored,
                after: payload_taken(port, &buffer, a, left, open),
            })
        }
    }
}

/// The packet with this buffer added, if the B is good.
fn judge_b(buffer: &Buffer, open: Option<Open>, b: u32) -> Result<Open, Refusal> {
    let before = match open {
        None if good_first(b) => Open { b, sizes: 0 },
        None => return Err(Refusal::BadAOrLength),
        // 01: "Later B words repeat tag and p." No other bit is compared
        // (decided point 8).
        Some(open) if tag(b) == tag(open.b) && length(b) == length(open.b) => open,
        Some(_) => return Err(Refusal::Disagrees),
    };
    let sizes = buffer
        .added_to(before.sizes, length(before.b))
        .ok_or(Refusal::Disagrees)?;
    Ok(Open { sizes, ..before })
}

/// 01: "A packet is whole when the last word of its Last buffer is taken."
/// Also where that word is thrown away (decided point 10).
fn payload_taken(port: Port, buffer: &Buffer, a: u32, left: u32, open: Open) -> Port {
    if left > 1 {
        Port {
            expects: Expects::Rest {
                a,
                left: left - 1,
                open,
            },
            ..port
        }
    } else if buffer.last {
        Port {
            expects: Expects::A { open: None },
            whole: port.whole + 1,
            ..port
        }
    } else {
        Port {
            expects: Expects::A { open: Some(open) },
            ..port
        }
    }
}
