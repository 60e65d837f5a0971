//! The rings. 01, Memory: "Word k put into a FIFO since its last restart,
//! counting from 0, goes to place k mod size of that FIFO. Room freed by a read
//! is used again. A put writes that word only; a read or restart writes no
//! memory."

mod common;
use common::*;
use second::{layout, Area, Ring, Second};

/// The memory as it must be: what was there, and every word put at its place.
struct Expected {
    memory: Vec<u32>,
    /// words put since the restart, by the FIFO's first word
    put: std::collections::HashMap<u32, u32>,
}

impl Expected {
    fn of(second: &Second) -> Expected {
        Expected {
            memory: second.memory.clone(),
            put: Default::default(),
        }
    }

    fn put(&mut self, area: Area, word: u32) {
        let k = self.put.entry(area.start).or_insert(0);
        self.memory[(area.start + *k % area.size) as usize] = word;
        *k += 1;
    }
}

#[test]
fn rx_words_and_statuses_go_round_to_place_k_mod_size() {
    for n in [2, 5, 14] {
        let at = layout(n).unwrap();
        let mut second = with_split(n, RXEN);
        let mut expected = Expected::of(&second);
        for round in 0..600 {
            let bytes = frame(64 + round % 97, OURS, 0x0800);
            assert_eq!(second.arrive(&bytes, 0), took(STORED));
            for word in words_of(&bytes) {
                expected.put(at.rx_data, word);
            }
            expected.put(at.rx_status, (bytes.len() as u32) << 16 | 0x20);
            assert_eq!(second.memory, expected.memory, "n {n}, frame {round}");
            for word in words_of(&bytes) {
                assert_eq!(second.rx_data_read(), took(word));
            }
            assert_eq!(
                second.rx_status_pop(),
                took((bytes.len() as u32) << 16 | 0x20)
            );
            assert_eq!(second.memory, expected.memory, "a read writes no memory");
        }
    }
}

#[test]
fn tx_words_and_statuses_go_round_to_place_k_mod_size() {
    for n in [2, 5, 14] {
        let at = layout(n).unwrap();
        let mut second = with_split(n, TXEN);
        let mut expected = Expected::of(&second);
        for round in 0..600_u32 {
            let packet = bytes(60 + round as usize % 89);
            let p = packet.len() as u32;
            write_packet(&mut second, round, NO_CRC, &packet);
            expected.put(at.tx_data, a(0, 0, FIRST | LAST, p));
            expected.put(at.tx_data, b(round, NO_CRC, p));
            for word in words_of(&packet) {
                expected.put(at.tx_data, word);
            }
            assert_eq!(second.memory, expected.memory, "n {n}, packet {round}");
            assert_eq!(sent(&mut second, 0), packet);
            expected.put(at.tx_status, round << 16);
            assert_eq!(second.memory, expected.memory, "sending writes one status");
            assert_eq!(second.tx_status_pop(), took(round << 16));
        }
    }
}

#[test]
fn a_restart_begins_again_at_place_0() {
    let at = layout(5).unwrap();
    let mut second = with_mac_cr(RXEN);
    for _ in 0..3 {
        second.arrive(&frame(64, OURS, 0x0800), 0);
        second.rx_status_pop();
    }
    second.mac_write(1, 0);
    assert_eq!(second.dump_rx(), took(0));
    second.mac_write(1, RXEN);
    let bytes = frame(68, OURS, 0x0801);
    let mut expected = Expected::of(&second);
    second.arrive(&bytes, 0);
    for word in words_of(&bytes) {
        expected.put(at.rx_data, word);
    }
    expected.put(at.rx_status, 0x0044_0020);
    assert_eq!(second.memory, expected.memory);
}

// 01: "Room freed by a read is used again."
#[test]
fn one_word_read_makes_room_for_one() {
    let mut second = with_mac_cr(RXEN | PASSBAD);
    second.rx_data = Ring {
        place: 2639,
        count: 2640 - 3,
    };
    let four = &frame(18, OURS, 0x0800)[..16];
    assert_eq!(second.arrive(four, 0), took(DROPPED));
    assert_eq!(second.rx_data_read(), took(OLD));
    assert_eq!(
        second.rx_data,
        Ring {
            place: 0,
            count: 2640 - 4
        }
    );
    assert_eq!(second.arrive(four, 0), took(STORED));
    assert_eq!(second.rx_fifo_inf(), took((1 << 16) | (2640 * 4)));
}

// A packet that lies across the end of the ring is read back whole
#[test]
fn a_head_packet_may_lie_across_the_end_at_every_word() {
    let packet = bytes(70);
    for place in 1130..1152 {
        let mut second = with_mac_cr(TXEN);
        second.tx_data.place = place;
        let b = b(7, NO_CRC, 70);
        write(&mut second, &[a(0, 0, FIRST, 33), b]);
        write(&mut second, &words_of(&packet[..33]));
        write(&mut second, &[a(0, 0, LAST, 37), b]);
        write(&mut second, &words_of(&packet[33..]));
        assert_eq!(sent(&mut second, 0), packet, "place {place}");
        assert_eq!(
            second.tx_data,
            Ring {
                place: (place + 22) % 1152,
                count: 0
            }
        );
    }
}

// Status rings at their last place
#[test]
fn statuses_go_on_at_place_0_after_the_last() {
    let at = layout(5).unwrap();
    let mut second = with_mac_cr(TXEN | RXEN);
    second.tx_status.place = 127;
    second.rx_status.place = 175;
    for tag in [1, 2] {
        write_packet(&mut second, tag, 0, &[1]);
        sent(&mut second, 0);
        second.arrive(&frame(64 + tag as usize, OURS, 0x0800), 0);
    }
    assert_eq!(second.memory[at.tx_status.start as usize + 127], 1 << 16);
    assert_eq!(second.memory[at.tx_status.start as usize], 2 << 16);
    assert_eq!(
        second.memory[at.rx_status.start as usize + 175],
        0x0041_0020
    );
    assert_eq!(second.memory[at.rx_status.start as usize], 0x0042_0020);
    assert_eq!(second.tx_status_pop(), took(1 << 16));
    assert_eq!(second.tx_status_pop(), took(2 << 16));
    assert_eq!(second.rx_status_pop(), took(0x0041_0020));
    assert_eq!(second.rx_status_pop(), took(0x0042_0020));
}

// 01: the four areas do not touch: a full FIFO's last word and its neighbour's
// first are different words
#[test]
fn a_full_fifo_leaves_its_neighbours_alone() {
    let at = layout(14).unwrap();
    let mut second = with_split(14, RXEN);
    // 480 words and 32 statuses of RX
    for _ in 0..32 {
        assert_eq!(second.arrive(&frame(64, OURS, 0x0800), 0).refusal, 0);
        for _ in 0..2 {
            second.rx_data_read();
        }
    }
    let end_of_tx = at.rx_data.start as usize;
    assert!(second.memory[..end_of_tx].iter().all(|word| *word == OLD));
    assert!(second.memory[end_of_tx..].iter().all(|word| *word != OLD));
    let rx = second.memory[end_of_tx..].to_vec();
    // 3,456 words of TX data and 128 statuses
    second.mac_write(1, TXEN);
    for _ in 0..128 {
        write_packet(&mut second, 1, 0, &bytes(100));
        sent(&mut second, 0);
    }
    assert_eq!(second.memory[end_of_tx..], rx);
    let tx_status = at.tx_status.start as usize;
    assert!(second.memory[..end_of_tx].iter().all(|word| *word != OLD));
    assert!(second.memory[tx_status..end_of_tx]
        .iter()
        .all(|word| *word == 1 << 16));
}
