//! Long runs of calls drawn by a seed. A failure names seed, call and words, and
//! can be replayed.

mod common;
use common::*;
use second::{layout, Expects, Open, Port, Registers, Ring, Said, Second};
use std::collections::VecDeque;

/// A 64-bit linear generator, its high bits used.
struct Draw(u64);

impl Draw {
    fn word(&mut self) -> u32 {
        self.0 = self
            .0
            .wrapping_mul(6_364_136_223_846_793_005)
            .wrapping_add(1_442_695_040_888_963_407);
        (self.0 >> 32) as u32
    }

    fn below(&mut self, end: u32) -> u32 {
        ((u64::from(self.word()) * u64::from(end)) >> 32) as u32
    }

    fn one_of<T: Copy>(&mut self, from: &[T]) -> T {
        from[self.below(from.len() as u32) as usize]
    }

    /// Near the ends as often as not.
    fn number(&mut self) -> u32 {
        match self.below(4) {
            0 => self.word(),
            1 => self.below(20),
            2 => self.below(4000),
            _ => 1 << self.below(32),
        }
    }
}

#[derive(Clone, Debug)]
enum Step {
    Reset,
    MacWrite(u32, u32),
    MacRead(u32),
    SetSplit(u32),
    Split,
    RxFifoInf,
    TxFifoInf,
    RxDrop,
    DumpTxData,
    DumpTxStatus,
    DumpRx,
    Arrive(Vec<u8>, u32),
    RxDataRead,
    RxStatusPop,
    RxStatusPeek,
    TxWord(u32),
    Send(u32, usize),
    TxStatusPop,
    TxStatusPeek,
}

impl Step {
    fn take(&self, second: &mut Second, out: &mut Vec<u8>) -> Said {
        match self {
            Step::Reset => second.reset(),
            Step::MacWrite(register, value) => second.mac_write(*register, *value),
            Step::MacRead(register) => second.mac_read(*register),
            Step::SetSplit(n) => second.set_split(*n),
            Step::Split => second.split(),
            Step::RxFifoInf => second.rx_fifo_inf(),
            Step::TxFifoInf => second.tx_fifo_inf(),
            Step::RxDrop => second.rx_drop(),
            Step::DumpTxData => second.dump_tx_data(),
            Step::DumpTxStatus => second.dump_tx_status(),
            Step::DumpRx => second.dump_rx(),
            Step::Arrive(frame, flags) => second.arrive(frame, *flags),
            Step::RxDataRead => second.rx_data_read(),
            Step::RxStatusPop => second.rx_status_pop(),
            Step::RxStatusPeek => second.rx_status_peek(),
            Step::TxWord(word) => second.tx_word(*word),
            Step::Send(outcome, length) => {
                *out = vec![0x5A; *length];
                second.send(*outcome, out)
            }
            Step::TxStatusPop => second.tx_status_pop(),
            Step::TxStatusPeek => second.tx_status_peek(),
        }
    }
}

const MODES: [u32; 8] = [
    0,
    HPFILT,
    HO | HPFILT,
    INVFILT,
    PRMS,
    MCPAS,
    MCPAS | HPFILT,
    MCPAS | HO | HPFILT,
];

fn mac_cr(draw: &mut Draw) -> u32 {
    let any = draw.word() & (RXALL | FDPX | PASSBAD | BCAST);
    draw.one_of(&MODES) | any | draw.one_of(&[0, RXEN, TXEN, RXEN | TXEN, RXEN | TXEN])
}

fn arrival(draw: &mut Draw) -> Vec<u8> {
    let to = draw.one_of(&[OURS, ANOTHER, GROUP, BROADCAST]);
    let len = draw.one_of(&[18, 40, 63, 64, 65, 66, 67, 300, 1517, 1518, 1519, 2048]);
    let v = draw.one_of(&[0, 46, 47, 0x0800, len as u16 - 18, 1500, 1501]);
    let mut bytes = frame(len, to, v);
    if draw.below(4) == 0 {
        bytes[len - 1] ^= 0x10;
    }
    if draw.below(8) == 0 {
        bytes.truncate(draw.below(20) as usize);
    }
    bytes
}

/// A word that the port may well take, and now and then one that it does not.
fn port_word(draw: &mut Draw, port: Port) -> u32 {
    if draw.below(400) == 0 {
        return draw.word();
    }
    let noise = draw.word();
    match port.expects {
        Expects::A { open } => {
            let size = match open {
                None => draw.one_of(&[1, 2, 3, 5, 59, 60, 61, 700]),
                Some(open) => {
                    let rest = (open.b & 0x7FF) - open.sizes;
                    if draw.below(2) == 0 {
                        rest
                    } else {
                        1 + draw.below(rest.max(1))
                    }
                }
            };
            let first = if open.is_none() { FIRST } else { 0 };
            let reaches = open.is_some_and(|open| open.sizes + size == open.b & 0x7FF);
            let last = if reaches || (open.is_none() && draw.below(2) == 0) {
                LAST
            } else {
                0
            };
            a(draw.below(3), draw.below(32), first | last, size) | (noise & 0xFCE0_C800)
        }
        Expects::B { a, open: None } => {
            let size = a & 0x7FF;
            let more = if a & LAST != 0 {
                0
            } else {
                1 + draw.below(100)
            };
            (noise & 0xFFFF_F800) | (size + more)
        }
        Expects::B {
            open: Some(open), ..
        } => (open.b & 0xFFFF_07FF) | (noise & 0xF800),
        Expects::Rest { .. } => noise,
    }
}

fn step(draw: &mut Draw, second: &Second) -> Step {
    match draw.below(64) {
        0 if draw.below(20) == 0 => Step::Reset,
        0..=2 => Step::MacWrite(1, mac_cr(draw)),
        3 => Step::MacWrite(draw.below(8), draw.number()),
        4 => Step::MacRead(draw.below(8)),
        5 => Step::SetSplit(draw.below(17)),
        6 => Step::Split,
        7 => Step::RxFifoInf,
        8 => Step::TxFifoInf,
        9 => Step::RxDrop,
        10 => Step::DumpTxData,
        11 => Step::DumpTxStatus,
        12 => Step::DumpRx,
        13..=17 => Step::Arrive(arrival(draw), draw.one_of(&[0, 0, 0, 4, 8, 0x40, 0x4C, 1])),
        18..=24 => Step::RxDataRead,
        25..=27 => Step::RxStatusPop,
        28 => Step::RxStatusPeek,
        29..=31 => Step::Send(
            draw.one_of(&[0, 0, 1, 0x200, 0xF7D, 2]),
            draw.one_of(&[1518, 1600, 1517]),
        ),
        32 => Step::TxStatusPop,
        33 => Step::TxStatusPeek,
        _ => Step::TxWord(port_word(draw, second.port)),
    }
}

/// The same, but what would empty TX data or stop its words is rare.
fn filling_step(draw: &mut Draw, second: &Second) -> Step {
    loop {
        match step(draw, second) {
            Step::Reset | Step::DumpTxData | Step::MacWrite(..) | Step::Send(..)
                if draw.below(40) != 0 => {}
            other => return other,
        }
    }
}

/// With n as drawn by the seed; every third seed begins with TX status
/// full and packets waiting.
fn start(seed: u64) -> Second {
    let mut second = with_split(2 + seed as u32 % 13, RXEN | TXEN);
    if seed % 3 == 1 {
        for tag in 0..128 {
            write_packet(&mut second, tag, 0, &[1]);
            sent(&mut second, 0);
        }
        for tag in 0..20 {
            write_packet(&mut second, tag, 0, &[1]);
        }
    }
    second
}

/// 01: "A refusal returns value 0 and changes no memory and no state, except
/// that 7, 8 and 9 set the transmit error."
fn refusal_changes_nothing(before: &Second, after: &Second, said: Said, out: &[u8], at: &str) {
    if said.refusal == 0 {
        return;
    }
    let mut expected = before.clone();
    if (7..=9).contains(&said.refusal) {
        expected.port.error = true;
    }
    assert_eq!(said.value, 0, "{at}");
    assert!(
        *after == expected,
        "{at}: refused {} and changed something",
        said.refusal
    );
    assert!(
        out.iter().all(|byte| *byte == 0x5A),
        "{at}: the out buffer changed"
    );
}

// 01, Refusal numbers; decided point 5: never 15 from fresh
#[test]
fn from_fresh_no_run_gets_14_or_15_and_refusals_change_nothing() {
    let mut answered = [0_u32; 16];
    for seed in 0..40 {
        let mut draw = Draw(seed);
        let mut second = start(seed);
        for call in 0..3000 {
            let next = if seed % 3 == 2 { filling_step } else { step };
            let step = next(&mut draw, &second);
            let before = second.clone();
            let mut out = Vec::new();
            let said = step.take(&mut second, &mut out);
            let at = format!("seed {seed}, call {call}, {step:X?}");
            assert!(said.refusal < 14, "{at}: refused {}", said.refusal);
            refusal_changes_nothing(&before, &second, said, &out, &at);
            answered[said.refusal as usize] += 1;
        }
        all_whole_packets_go_out(seed, second);
    }
    for (number, count) in answered.iter().enumerate().take(14) {
        assert!(*count > 0, "no call was answered {number}");
    }
}

/// Whatever was written, what is whole can be sent.
fn all_whole_packets_go_out(seed: u64, mut second: Second) {
    assert_eq!(second.mac_write(1, TXEN), took(0));
    for _ in 0..second.port.whole {
        second.dump_tx_status();
        let said = second.send(0, &mut [0; 1518]);
        assert_eq!(
            said.refusal, 0,
            "seed {seed}, at the end: refused {}",
            said.refusal
        );
    }
    assert_eq!(second.send(0, &mut [0; 1518]), refused(11));
}

fn ring(draw: &mut Draw, size: u32) -> Ring {
    let mut number = |end: u32| match draw.below(12) {
        0 => draw.number(),
        1 => end,
        2 => end.wrapping_sub(1),
        _ => draw.below(end.max(1)),
    };
    Ring {
        place: number(size),
        count: number(size),
    }
}

fn held_a(draw: &mut Draw) -> u32 {
    if draw.below(10) == 0 {
        draw.word()
    } else {
        draw.word() & 0xFEFF_FFFF | 1
    }
}

fn held(draw: &mut Draw) -> Open {
    let p = 1 + draw.below(1514);
    let sizes = if draw.below(10) == 0 {
        draw.number()
    } else {
        draw.below(p + 1)
    };
    Open {
        b: draw.word() & 0xFFFF_F800 | p,
        sizes,
    }
}

/// A state that is good in most of its numbers and sometimes in all.
fn forged(draw: &mut Draw) -> Second {
    let n = if draw.below(20) == 0 {
        draw.number()
    } else {
        2 + draw.below(13)
    };
    let at = layout(n).unwrap_or(layout(5).unwrap());
    let a = held_a(draw);
    let open = draw.one_of(&[true, false]).then(|| held(draw));
    let expects = match draw.below(3) {
        0 => Expects::A { open },
        1 => Expects::B {
            a: if open.is_some() {
                a & !FIRST
            } else {
                a | FIRST
            },
            open,
        },
        _ => Expects::Rest {
            a,
            left: draw.below(20),
            open: open.unwrap_or(held(draw)),
        },
    };
    let tx_data = ring(draw, at.tx_data.size);
    let whole = if draw.below(10) == 0 {
        draw.number()
    } else {
        draw.below(tx_data.count / 3 + 1)
    };
    let words = draw.one_of(&[4096, 4096, 4096, 4096, 4096, 4096, 4096, 4095, 4097, 0]);
    let mut memory: Vec<u32> = (0..words).map(|_| draw.word()).collect();
    // now and then a head that may be good
    if draw.below(2) == 0 {
        let size = 1 + draw.below(40);
        for (k, word) in [a & 0x031F_C000 | FIRST | LAST | size, size]
            .into_iter()
            .enumerate()
        {
            let place = (u64::from(tx_data.place) + k as u64) % u64::from(at.tx_data.size);
            if let Some(cell) = memory.get_mut(place as usize) {
                *cell = word;
            }
        }
    }
    Second {
        registers: Registers {
            n,
            mac_cr: if draw.below(20) == 0 {
                draw.word()
            } else {
                mac_cr(draw)
            },
            addrh: if draw.below(20) == 0 {
                draw.number()
            } else {
                draw.word() >> 16
            },
            addrl: draw.word(),
            hashh: draw.word(),
            hashl: draw.word(),
            drops: draw.number(),
        },
        port: Port {
            expects,
            error: draw.below(4) == 0,
            whole,
        },
        tx_data,
        tx_status: ring(draw, at.tx_status.size),
        rx_data: ring(draw, at.rx_data.size),
        rx_status: ring(draw, at.rx_status.size),
        memory,
    }
}

// No call panics, whatever the state; 01 on refusals holds there too. The tests
// are built with checked sums.
#[test]
fn no_forged_state_brings_a_call_to_a_panic() {
    let mut answered = [0_u32; 16];
    for seed in 0..4000 {
        let mut draw = Draw(seed);
        let mut second = forged(&mut draw);
        for call in 0..12 {
            // words to the port's liking only where its numbers are in range
            let good = second.split().refusal == 0;
            let seen = if good { second.clone() } else { fresh() };
            let step = match step(&mut draw, &seen) {
                Step::Reset => Step::Split,
                other => other,
            };
            let before = second.clone();
            let mut out = Vec::new();
            let said = step.take(&mut second, &mut out);
            let at = format!("seed {seed}, call {call}, {step:X?}");
            refusal_changes_nothing(&before, &second, said, &out, &at);
            answered[said.refusal as usize] += 1;
        }
    }
    for (number, count) in answered.iter().enumerate() {
        assert!(*count > 0, "no call was answered {number}");
    }
}

// 01, demand of its last sections: later reads follow from the calls made. A
// driver keeps its own lists; what comes out is what went in.
#[test]
fn what_goes_in_comes_out_in_order() {
    for seed in 0..20 {
        let mut draw = Draw(seed);
        let mut second = with_split(2 + seed as u32 % 13, RXEN | TXEN);
        let mut frames: VecDeque<Vec<u8>> = VecDeque::new();
        let mut packets: VecDeque<(u32, Vec<u8>)> = VecDeque::new();
        let mut tags: VecDeque<u32> = VecDeque::new();
        let mut dropped = 0;
        for round in 0..600_u32 {
            let len = 64 + draw.below(200) as usize;
            match second.arrive(&frame(len, OURS, 0x0800), 0).value {
                STORED => frames.push_back(frame(len, OURS, 0x0800)),
                DROPPED => dropped += 1,
                other => panic!("seed {seed}, round {round}: answered {other}"),
            }
            let packet = bytes(60 + draw.below(120) as usize);
            if second.tx_fifo_inf().value & 0xFFFF > 4 * 64 {
                two_buffers(&mut draw, &mut second, round & 0xFFFF, &packet);
                packets.push_back((round & 0xFFFF, packet));
            }
            if draw.below(3) != 0 {
                if let Some(bytes) = frames.pop_front() {
                    assert_eq!(
                        second.rx_status_pop(),
                        took((bytes.len() as u32) << 16 | 0x20)
                    );
                    for word in words_of(&bytes) {
                        assert_eq!(
                            second.rx_data_read(),
                            took(word),
                            "seed {seed}, round {round}"
                        );
                    }
                }
            }
            if draw.below(3) != 0 && tags.len() < 128 {
                if let Some((tag, packet)) = packets.pop_front() {
                    assert_eq!(sent(&mut second, 0), packet, "seed {seed}, round {round}");
                    tags.push_back(tag);
                }
            }
            if draw.below(2) == 0 {
                if let Some(tag) = tags.pop_front() {
                    assert_eq!(second.tx_status_pop(), took(tag << 16));
                }
            }
            let waiting: usize = frames.iter().map(|bytes| bytes.len().div_ceil(4) * 4).sum();
            assert_eq!(
                second.rx_fifo_inf(),
                took((frames.len() as u32) << 16 | waiting as u32)
            );
            assert_eq!(second.port.whole as usize, packets.len());
        }
        assert_eq!(second.rx_drop(), took(dropped));
    }
}

/// The packet in two buffers at drawn offsets and alignments, no CRC added.
fn two_buffers(draw: &mut Draw, second: &mut Second, tag: u32, packet: &[u8]) {
    let cut = 1 + draw.below(packet.len() as u32 - 1) as usize;
    let p = packet.len() as u32;
    for (part, marks) in [(&packet[..cut], FIRST), (&packet[cut..], LAST)] {
        let (alignment, offset) = (draw.below(3), draw.below(32));
        let unit = [4, 16, 32][alignment as usize];
        let mut host = vec![0xC3; offset as usize];
        host.extend(part);
        host.resize(host.len().div_ceil(unit) * unit, 0x3C);
        write(
            second,
            &[
                a(alignment, offset, marks, part.len() as u32),
                b(tag, NO_CRC, p),
            ],
        );
        write(second, &words_of(&host));
    }
}
