//! The binary `rehearsal`: it follows docs/REHEARSAL.md part after part, in the
//! page's order, and prints the lines that the page asks for.
//!
//! Where to read what: `part` one part under way, its state, memory and lines;
//! `lines` how numbers, answers and digests are written; `frames` the frames
//! that arrive; `takes` parts `takes 5` and `takes 14`; `seventeen` the
//! seventeen calls and part `memory`; `forged` parts `state` and `held`; `settings` parts
//! `registers` and `restarts`; `arrivals` parts `lengths`, `flags`, `types`,
//! `fcs` and `room`; `filter` part `filter`; `long` part `long`.
#![forbid(unsafe_code)]

mod arrivals;
mod filter;
mod forged;
mod frames;
mod lines;
mod long;
mod part;
mod settings;
mod seventeen;
mod takes;

use std::io::Write;

use part::Part;

fn main() -> std::io::Result<()> {
    let parts: [fn() -> Part; 14] = [
        || takes::takes("takes 5", 5),
        || takes::takes("takes 14", 14),
        seventeen::memory,
        forged::state,
        forged::held_words,
        arrivals::lengths,
        arrivals::flags,
        settings::registers,
        settings::restarts,
        arrivals::types,
        arrivals::fcs,
        filter::filter,
        arrivals::room,
        long::long,
    ];
    let mut out = std::io::stdout().lock();
    for part in parts {
        out.write_all(part().lines.as_bytes())?;
    }
    out.flush()
}
