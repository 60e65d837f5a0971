//! Forged states. 01, Ranges: "places below the FIFO's size, counts at most the
//! size, registers as a write accepts, an A and first B held are ones the port
//! accepts, sizes so far at most p, payload words left from 1 to what that A
//! asks, whole packets at most a third of the words held"; and the head packet.

mod common;
use common::*;
use second::{layout, Expects, Open, Ring, Second};

type Forge = (&'static str, fn(&mut Second));

fn expecting(second: &mut Second, expects: Expects) {
    second.port.expects = expects;
}

const P: u32 = 100;

fn open(sizes: u32) -> Open {
    Open { b: P, sizes }
}

/// One number out of its range, by as little as can be.
const OUT_OF_RANGE: [Forge; 42] = [
    ("n 1", |s| s.registers.n = 1),
    ("n 0", |s| s.registers.n = 0),
    ("n 15", |s| s.registers.n = 15),
    ("n 16", |s| s.registers.n = 16),
    ("n all ones", |s| s.registers.n = u32::MAX),
    ("MAC_CR bit 0", |s| s.registers.mac_cr = 1),
    ("MAC_CR bit 14", |s| s.registers.mac_cr = 1 << 14),
    ("MAC_CR undefined setting", |s| s.registers.mac_cr = HO),
    ("MAC_CR undefined setting, others on", |s| {
        s.registers.mac_cr = RXEN | TXEN | PRMS | INVFILT
    }),
    ("ADDRH 10000h", |s| s.registers.addrh = 0x1_0000),
    ("TX data place", |s| s.tx_data.place = 1152),
    ("TX data count", |s| s.tx_data.count = 1153),
    ("TX status place", |s| s.tx_status.place = 128),
    ("TX status count", |s| s.tx_status.count = 129),
    ("RX data place", |s| s.rx_data.place = 2640),
    ("RX data count", |s| s.rx_data.count = 2641),
    ("RX status place", |s| s.rx_status.place = 176),
    ("RX status count", |s| s.rx_status.count = 177),
    ("all ones place", |s| s.tx_data.place = u32::MAX),
    ("all ones count", |s| s.rx_data.count = u32::MAX),
    ("whole, none held", |s| s.port.whole = 1),
    ("whole, two held", |s| {
        (s.port.whole, s.tx_data.count) = (1, 2)
    }),
    ("whole, 1,152 held", |s| {
        (s.port.whole, s.tx_data.count) = (385, 1152)
    }),
    ("whole all ones", |s| {
        (s.port.whole, s.tx_data.count) = (u32::MAX, 1152)
    }),
    ("A held, alignment 3", |s| {
        expecting(
            s,
            Expects::B {
                a: a(3, 0, FIRST, 1),
                open: None,
            },
        )
    }),
    ("A held, size 0", |s| {
        expecting(
            s,
            Expects::B {
                a: a(0, 0, FIRST, 0),
                open: None,
            },
        )
    }),
    ("A held, First missing", |s| {
        expecting(
            s,
            Expects::B {
                a: a(0, 0, LAST, 1),
                open: None,
            },
        )
    }),
    ("A held, First with a packet open", |s| {
        expecting(
            s,
            Expects::B {
                a: a(0, 0, FIRST, 1),
                open: Some(open(1)),
            },
        );
    }),
    ("later A held, size 0", |s| {
        expecting(
            s,
            Expects::B {
                a: a(0, 0, LAST, 0),
                open: Some(open(1)),
            },
        );
    }),
    ("B held with a later A, p 0", |s| {
        expecting(
            s,
            Expects::B {
                a: a(0, 0, LAST, 1),
                open: Some(Open { b: 0, sizes: 0 }),
            },
        );
    }),
    ("sizes with a later A", |s| {
        expecting(
            s,
            Expects::B {
                a: a(0, 0, LAST, 1),
                open: Some(open(P + 1)),
            },
        );
    }),
    ("B held, p 0", |s| {
        expecting(
            s,
            Expects::A {
                open: Some(Open { b: 0, sizes: 0 }),
            },
        )
    }),
    ("B held, p 1,515", |s| {
        expecting(
            s,
            Expects::A {
                open: Some(Open { b: 1515, sizes: 1 }),
            },
        )
    }),
    ("B held, p 1,519", |s| {
        expecting(
            s,
            Expects::A {
                open: Some(Open {
                    b: NO_CRC | 1519,
                    sizes: 1,
                }),
            },
        );
    }),
    ("sizes", |s| {
        expecting(
            s,
            Expects::A {
                open: Some(open(P + 1)),
            },
        )
    }),
    ("sizes all ones", |s| {
        expecting(
            s,
            Expects::A {
                open: Some(open(u32::MAX)),
            },
        )
    }),
    ("payload, alignment 3", |s| {
        expecting(
            s,
            Expects::Rest {
                a: a(3, 0, 0, 9),
                left: 1,
                open: open(9),
            },
        );
    }),
    ("payload, size 0", |s| {
        expecting(
            s,
            Expects::Rest {
                a: a(0, 8, 0, 0),
                left: 1,
                open: open(9),
            },
        );
    }),
    ("payload, none left", |s| {
        expecting(
            s,
            Expects::Rest {
                a: a(1, 5, 0, 61),
                left: 0,
                open: open(61),
            },
        );
    }),
    ("payload, one too many left", |s| {
        expecting(
            s,
            Expects::Rest {
                a: a(1, 5, 0, 61),
                left: 21,
                open: open(61),
            },
        );
    }),
    ("payload, sizes", |s| {
        expecting(
            s,
            Expects::Rest {
                a: a(1, 5, 0, 61),
                left: 20,
                open: open(P + 1),
            },
        );
    }),
    ("payload, p 1,516", |s| {
        let open = Open {
            b: NO_PADDING | 1516,
            sizes: 61,
        };
        expecting(
            s,
            Expects::Rest {
                a: a(1, 5, 0, 61),
                left: 20,
                open,
            },
        );
    }),
];

/// At the very end of the range, or where 01 lists none.
const IN_RANGE: [Forge; 26] = [
    ("fresh", |_| ()),
    ("n 2", |s| s.registers.n = 2),
    ("n 14", |s| s.registers.n = 14),
    ("MAC_CR", |s| {
        s.registers.mac_cr = RXALL | FDPX | PASSBAD | BCAST | MCPAS | HO | HPFILT
    }),
    ("ADDRH FFFFh", |s| s.registers.addrh = 0xFFFF),
    ("HASHH and HASHL", |s| {
        (s.registers.hashh, s.registers.hashl) = (u32::MAX, u32::MAX)
    }),
    ("RX_DROP", |s| s.registers.drops = u32::MAX),
    ("TX data", |s| {
        s.tx_data = Ring {
            place: 1151,
            count: 1152,
        }
    }),
    ("TX status", |s| {
        s.tx_status = Ring {
            place: 127,
            count: 128,
        }
    }),
    ("RX data", |s| {
        s.rx_data = Ring {
            place: 2639,
            count: 2640,
        }
    }),
    ("RX status", |s| {
        s.rx_status = Ring {
            place: 175,
            count: 176,
        }
    }),
    ("data without statuses", |s| s.rx_data.count = 9),
    ("statuses without data", |s| s.rx_status.count = 9),
    ("whole, three held", |s| {
        (s.port.whole, s.tx_data.count) = (1, 3)
    }),
    ("whole, 1,152 held", |s| {
        (s.port.whole, s.tx_data.count) = (384, 1152)
    }),
    ("words held, none whole", |s| s.tx_data.count = 1152),
    ("A held", |s| {
        expecting(
            s,
            Expects::B {
                a: a(2, 31, FIRST, 0x7FF),
                open: None,
            },
        )
    }),
    ("later A held", |s| {
        expecting(
            s,
            Expects::B {
                a: a(0, 0, 0, 1),
                open: Some(open(P)),
            },
        )
    }),
    ("B held, p 1,514", |s| {
        expecting(
            s,
            Expects::A {
                open: Some(Open {
                    b: 1514,
                    sizes: 1514,
                }),
            },
        )
    }),
    ("B held, p 1,518", |s| {
        expecting(
            s,
            Expects::A {
                open: Some(Open {
                    b: NO_CRC | 1518,
                    sizes: 1518,
                }),
            },
        );
    }),
    ("no sizes yet", |s| {
        expecting(
            s,
            Expects::A {
                open: Some(open(0)),
            },
        )
    }),
    ("payload, all left", |s| {
        expecting(
            s,
            Expects::Rest {
                a: a(1, 5, 0, 61),
                left: 20,
                open: open(P),
            },
        );
    }),
    ("payload, one left", |s| {
        expecting(
            s,
            Expects::Rest {
                a: a(1, 5, FIRST, 61),
                left: 1,
                open: open(61),
            },
        );
    }),
    ("payload, sizes below the buffer's", |s| {
        expecting(
            s,
            Expects::Rest {
                a: a(1, 5, FIRST | LAST, 61),
                left: 1,
                open: open(0),
            },
        );
    }),
    ("error", |s| s.port.error = true),
    ("other bits", |s| {
        expecting(
            s,
            Expects::B {
                a: 0xFCE0_C800 | FIRST | 1,
                open: None,
            },
        )
    }),
];

#[test]
fn each_number_out_of_its_range_gets_15_from_every_call() {
    for (what, forge) in OUT_OF_RANGE {
        let mut second = fresh();
        forge(&mut second);
        let before = second.clone();
        for (name, call) in CALLS.iter().chain(&BAD_CALLS) {
            assert_eq!(call(&mut second), refused(15), "{what}: {name}");
        }
        assert_eq!(second, before, "{what}");
        assert_eq!(second.reset(), took(0), "{what}");
        assert_eq!(second, fresh(), "{what}");
    }
}

#[test]
fn each_number_at_the_end_of_its_range_is_taken() {
    for (what, forge) in IN_RANGE {
        let mut second = fresh();
        forge(&mut second);
        for (name, call) in CALLS.iter().chain(&BAD_CALLS) {
            let said = call(&mut second.clone());
            assert!(said.refusal < 14, "{what}: {name} got {}", said.refusal);
        }
    }
}

// 01: "places below the FIFO's size" for the n that stands
#[test]
fn the_ranges_of_the_rings_follow_n() {
    for n in 2..=14 {
        let at = layout(n).unwrap();
        let areas = [at.tx_data, at.tx_status, at.rx_data, at.rx_status];
        for (k, area) in areas.iter().enumerate() {
            for (place, count, refusal) in [
                (area.size - 1, area.size, 0),
                (area.size, 0, 15),
                (0, area.size + 1, 15),
            ] {
                let mut second = fresh();
                second.registers.n = n;
                let rings = [
                    &mut second.tx_data,
                    &mut second.tx_status,
                    &mut second.rx_data,
                    &mut second.rx_status,
                ];
                *rings.into_iter().nth(k).unwrap() = Ring { place, count };
                assert_eq!(second.split().refusal, refusal, "n {n}, ring {k}");
            }
        }
    }
}

// Decided point 5: ranges "are not kept by every call on a forged state"
#[test]
fn a_forged_payload_may_lead_out_of_range() {
    let mut second = fresh();
    expecting(
        &mut second,
        Expects::Rest {
            a: a(0, 0, FIRST | LAST, 1),
            left: 1,
            open: open(1),
        },
    );
    assert_eq!(second.tx_word(5), took(0));
    assert_eq!((second.port.whole, second.tx_data.count), (1, 1));
    assert_eq!(second.split(), refused(15));
}

/// A state in which these words are all that TX data holds, one packet whole.
fn holding(words: &[u32]) -> Second {
    let mut second = with_mac_cr(TXEN);
    second.memory[..words.len()].copy_from_slice(words);
    second.tx_data.count = words.len() as u32;
    second.port.whole = 1;
    second
}

fn sends(words: &[u32]) -> u32 {
    let mut second = holding(words);
    let before = second.clone();
    let mut out = [9; 1518];
    let said = second.send(0, &mut out);
    if said.refusal != 0 {
        assert_eq!((second, out), (before, [9; 1518]));
    }
    said.refusal
}

// 01, 15: "the head packet in memory is none the port would store"
#[test]
fn a_head_packet_the_port_would_not_store_gets_15() {
    let good_b = b(1, 0, 4);
    assert_eq!(sends(&[a(0, 0, FIRST | LAST, 4), good_b, 0]), 0);
    // A
    assert_eq!(sends(&[a(3, 0, FIRST | LAST, 4), good_b, 0]), 15);
    assert_eq!(sends(&[a(0, 0, LAST, 4), good_b, 0]), 15);
    assert_eq!(sends(&[a(0, 0, FIRST | LAST, 0), good_b, 0]), 15);
    // B
    assert_eq!(sends(&[a(0, 0, FIRST | LAST, 4), b(1, 0, 0), 0]), 15);
    assert_eq!(sends(&[a(0, 0, FIRST | LAST, 4), b(1, 0, 5), 0]), 15);
    assert_eq!(sends(&[a(0, 0, FIRST | LAST, 4), b(1, 0, 3), 0]), 15);
    let mut long = vec![0; 2 + 379];
    (long[0], long[1]) = (a(0, 0, FIRST | LAST, 1515), b(1, 0, 1515));
    assert_eq!(sends(&long), 15);
    long[1] = b(1, NO_CRC, 1515);
    assert_eq!(sends(&long), 0);
    // a later A
    let two = |later| [a(0, 0, FIRST, 2), b(1, 0, 4), 0, later, 0];
    assert_eq!(sends(&two(a(0, 0, LAST, 2))), 0);
    assert_eq!(sends(&two(a(3, 0, LAST, 2))), 15);
    assert_eq!(sends(&two(a(0, 0, FIRST | LAST, 2))), 15);
    assert_eq!(sends(&two(a(0, 0, LAST, 0))), 15);
    assert_eq!(sends(&two(a(0, 0, LAST, 1))), 15);
    assert_eq!(sends(&two(a(0, 0, LAST, 3))), 15);
    // no Last before the words end
    assert_eq!(sends(&two(a(0, 0, 0, 2))), 15);
    assert_eq!(sends(&two(a(0, 0, 0, 1))), 15);
}

// Decided point 6: "within the words held"
#[test]
fn a_head_packet_must_end_within_the_words_held() {
    let words = [
        a(0, 3, FIRST, 2),
        b(1, 0, 11),
        1,
        2,
        a(0, 0, LAST, 9),
        3,
        4,
        5,
    ];
    assert_eq!(sends(&words), 0);
    for held in 3..8 {
        assert_eq!(sends(&words[..held]), 15, "{held} held");
    }
}

// Decided point 6: "payload words are free; nothing behind it is judged"
#[test]
fn payload_and_what_lies_behind_are_not_judged() {
    for other in [0, u32::MAX, a(3, 0, FIRST, 0)] {
        let words = [a(0, 0, FIRST | LAST, 4), b(1, 0, 4), other, other, other];
        assert_eq!(sends(&words), 0);
    }
}

// The end alignment and the words thrown away leave nothing in the memory
#[test]
fn words_thrown_away_are_not_looked_for_in_memory() {
    let mut second = holding(&[
        a(2, 31, FIRST | LAST, 2),
        b(1, NO_CRC | NO_PADDING, 2),
        0x0A00_0000,
        0x0B,
    ]);
    assert_eq!(sent(&mut second, 0), [0x0A, 0x0B]);
    assert_eq!(second.tx_data, Ring { place: 4, count: 0 });
}

// 01: sizes of at least 1, so that a packet of p bytes may have p buffers; with
// n = 14 one of 1,518 fits
#[test]
fn a_packet_of_1518_buffers_goes_out() {
    let mut second = with_split(14, TXEN);
    let b = b(1, NO_CRC, 1518);
    for k in 0..1518 {
        let marks = match k {
            0 => FIRST,
            1517 => LAST,
            _ => 0,
        };
        write(
            &mut second,
            &[a(0, k % 4, marks, 1), b, u32::from_le_bytes([k as u8; 4])],
        );
    }
    assert_eq!(second.tx_data.count, 1 + 2 * 1518);
    let expected: Vec<u8> = (0..1518).map(|k| k as u8).collect();
    assert_eq!(sent(&mut second, 0), expected);
}

// Sending judges the head by the memory, not by what was written
#[test]
fn a_payload_word_changed_in_memory_goes_out_changed() {
    let mut second = with_mac_cr(TXEN);
    write_packet(&mut second, 1, NO_CRC | NO_PADDING, &[1, 2, 3, 4]);
    second.memory[2] = 0x0807_0605;
    assert_eq!(sent(&mut second, 0), [5, 6, 7, 8]);
}
