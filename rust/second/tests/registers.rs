//! Registers, levels, split and dumps. 01, Registers and Memory.

mod common;
use common::*;
use second::{Expects, Open, Port, Ring};

// 01, Memory: "n = 5; MAC_CR 0 (ours); ADDRH 0000FFFFh; ADDRL FFFFFFFFh; HASHH,
// HASHL, RX_DROP 0"
#[test]
fn fresh_registers_read_as_the_paper_says() {
    let mut second = fresh();
    assert_eq!(second.split(), took(5));
    assert_eq!(second.mac_read(1), took(0));
    assert_eq!(second.mac_read(2), took(0x0000_FFFF));
    assert_eq!(second.mac_read(3), took(0xFFFF_FFFF));
    assert_eq!(second.mac_read(4), took(0));
    assert_eq!(second.mac_read(5), took(0));
    assert_eq!(second.rx_drop(), took(0));
    assert_eq!(second.rx_fifo_inf(), took(0));
    assert_eq!(second.tx_fifo_inf(), took(0x1200));
}

// 01, Registers: "Reads return the stored value."
#[test]
fn a_register_reads_what_was_written_and_no_other_changes() {
    let values = [FDPX | TXEN, 0x1234, 0x89AB_CDEF, 0x1357_9BDF, 0x0246_8ACE];
    let mut second = fresh();
    for (register, value) in (1..).zip(values) {
        assert_eq!(second.mac_write(register, value), took(0));
    }
    for (register, value) in (1..).zip(values) {
        assert_eq!(second.mac_read(register), took(value));
        assert_eq!(second.mac_read(register), took(value));
    }
}

// 01, Registers: the eleven bits carried; "Any other bit set is a bad value"
#[test]
fn mac_cr_takes_the_eleven_bits_alone() {
    for bit in 0..32 {
        let carried = [31, 20, 19, 18, 17, 16, 15, 13, 11, 3, 2].contains(&bit);
        // HO alone is an undefined setting; with HPFILT it is defined
        let value = if bit == 15 { HO | HPFILT } else { 1 << bit };
        let said = fresh().mac_write(1, value);
        assert_eq!(
            said,
            if carried { took(0) } else { refused(4) },
            "bit {bit}"
        );
    }
    assert_eq!(fresh().mac_write(1, HO), refused(4));
}

// 01, Registers: "so is an ADDRH above FFFFh"
#[test]
fn addrh_ends_at_ffff() {
    assert_eq!(fresh().mac_write(2, 0xFFFF), took(0));
    assert_eq!(fresh().mac_write(2, 0x1_0000), refused(4));
    for register in 3..=5 {
        assert_eq!(fresh().mac_write(register, u32::MAX), took(0));
    }
}

// 01, Registers: "RX_DROP counts dropped frames, reads and then clears"
#[test]
fn rx_drop_counts_reads_and_then_clears() {
    let mut second = with_split(14, RXEN);
    let long = frame(1518, OURS, 0x0800);
    assert_eq!(second.arrive(&long, 0), took(STORED));
    for _ in 0..3 {
        assert_eq!(second.arrive(&long, 0), took(DROPPED));
    }
    assert_eq!(second.rx_drop(), took(3));
    assert_eq!(second.rx_drop(), took(0));
}

// 01, Registers: "the count after FFFFFFFFh is 0 (ours)"
#[test]
fn rx_drop_after_all_ones_is_0() {
    let mut second = with_split(14, RXEN);
    let long = frame(1518, OURS, 0x0800);
    assert_eq!(second.arrive(&long, 0), took(STORED));
    second.registers.drops = 0xFFFF_FFFE;
    assert_eq!(second.arrive(&long, 0), took(DROPPED));
    assert_eq!(second.registers.drops, 0xFFFF_FFFF);
    assert_eq!(second.arrive(&long, 0), took(DROPPED));
    assert_eq!(second.rx_drop(), took(0));
}

// 01, Registers: "RX_FIFO_INF", "TX_FIFO_INF"
#[test]
fn levels_follow_puts_and_reads() {
    let mut second = with_mac_cr(RXEN | TXEN);
    for _ in 0..2 {
        assert_eq!(second.arrive(&frame(66, OURS, 0x0800), 0), took(STORED));
    }
    assert_eq!(second.rx_fifo_inf(), took((2 << 16) | (2 * 17 * 4)));
    second.rx_data_read();
    assert_eq!(second.rx_fifo_inf(), took((2 << 16) | ((2 * 17 - 1) * 4)));
    second.rx_status_peek();
    assert_eq!(second.rx_fifo_inf(), took((2 << 16) | ((2 * 17 - 1) * 4)));
    second.rx_status_pop();
    assert_eq!(second.rx_fifo_inf(), took((1 << 16) | ((2 * 17 - 1) * 4)));
    write_packet(&mut second, 1, 0, &bytes(9));
    assert_eq!(second.tx_fifo_inf(), took((1152 - 5) * 4));
    sent(&mut second, 0);
    assert_eq!(second.tx_fifo_inf(), took((1 << 16) | (1152 * 4)));
    second.tx_status_pop();
    assert_eq!(second.tx_fifo_inf(), took(1152 * 4));
}

// 01, Registers: "A call that sets n, even to its present value, is allowed only
// if all four FIFOs are empty"
#[test]
fn n_waits_for_each_of_the_four_fifos() {
    let mut second = fresh();
    assert_eq!(second.set_split(5), took(0));
    type Pick = fn(&mut second::Second) -> &mut Ring;
    let rings: [Pick; 4] = [
        |s| &mut s.tx_data,
        |s| &mut s.tx_status,
        |s| &mut s.rx_data,
        |s| &mut s.rx_status,
    ];
    for ring in rings {
        let mut second = fresh();
        *ring(&mut second) = Ring { place: 3, count: 1 };
        assert_eq!(second.set_split(5), refused(5));
        *ring(&mut second) = Ring { place: 3, count: 0 };
        assert_eq!(second.set_split(5), took(0));
        assert_eq!(*ring(&mut second), Ring { place: 0, count: 0 });
    }
}

// 01, Registers: "TXEN and RXEN are clear"
#[test]
fn n_waits_for_txen_and_for_rxen() {
    assert_eq!(with_mac_cr(TXEN).set_split(6), refused(5));
    assert_eq!(with_mac_cr(RXEN).set_split(6), refused(5));
    assert_eq!(with_mac_cr(FDPX | RXALL).set_split(6), took(0));
}

// 01, Registers: "no transmit buffer or packet is open and no transmit error
// stands". With TX data empty only a forged state shows the first two.
#[test]
fn n_waits_for_the_port() {
    let open = Open { b: 10, sizes: 4 };
    let first = a(0, 0, FIRST, 4);
    for expects in [
        Expects::A { open: Some(open) },
        Expects::B {
            a: first,
            open: None,
        },
        Expects::B {
            a: a(0, 0, 0, 4),
            open: Some(open),
        },
        Expects::Rest {
            a: first,
            left: 1,
            open,
        },
    ] {
        let mut second = fresh();
        second.port.expects = expects;
        assert_eq!(second.set_split(6), refused(5), "{expects:?}");
    }
    let mut second = fresh();
    assert_eq!(second.tx_word(0), refused(7));
    assert_eq!(second.set_split(6), refused(5));
    assert_eq!(second.dump_tx_data(), took(0));
    assert_eq!(second.set_split(6), took(0));
}

// Decided point 11: setting n leaves memory as it is and keeps the registers and
// RX_DROP
#[test]
fn setting_n_keeps_memory_registers_and_rx_drop() {
    let mut second = with_mac_cr(FDPX);
    second.registers.drops = 7;
    second.registers.hashh = 9;
    second.rx_data.place = 100;
    let mut expected = second.clone();
    expected.registers.n = 9;
    expected.rx_data.place = 0;
    assert_eq!(second.set_split(9), took(0));
    assert_eq!(second, expected);
}

// 01, Registers: "Dumping TX data needs TXEN clear; it restarts TX data, forgets
// every packet, open or whole, clears the transmit error, and the port expects
// an A."
#[test]
fn dumping_tx_data_forgets_all_packets_and_the_error() {
    let mut second = with_mac_cr(0);
    write_packet(&mut second, 1, 0, &bytes(9));
    write(
        &mut second,
        &[a(0, 0, FIRST, 4), b(1, 0, 8), 5, a(0, 0, LAST, 4)],
    );
    assert_eq!(second.tx_word(b(2, 0, 8)), refused(8));
    second.rx_data = Ring { place: 7, count: 9 };
    second.tx_status = Ring {
        place: 8,
        count: 10,
    };
    second.registers.drops = 3;
    let mut expected = second.clone();
    expected.port = Port {
        expects: Expects::A { open: None },
        error: false,
        whole: 0,
    };
    expected.tx_data = Ring { place: 0, count: 0 };
    assert_eq!(second.dump_tx_data(), took(0));
    assert_eq!(second, expected);
    second.mac_write(1, TXEN);
    assert_eq!(second.send(0, &mut [0; 1518]), refused(11));
    assert_eq!(second.dump_tx_data(), refused(5));
}

// 01, Registers: "Dumping RX needs RXEN clear and restarts RX data and RX status."
#[test]
fn dumping_rx_needs_rxen_clear() {
    let mut second = with_mac_cr(RXEN | TXEN);
    second.arrive(&frame(64, OURS, 0x0800), 0);
    assert_eq!(second.dump_rx(), refused(5));
    second.mac_write(1, TXEN);
    let memory = second.memory.clone();
    assert_eq!(second.dump_rx(), took(0));
    assert_eq!(second.rx_fifo_inf(), took(0));
    assert_eq!(second.rx_data_read(), refused(11));
    assert_eq!(second.memory, memory);
}

// 01, Registers: "Dumping TX status is always allowed."
#[test]
fn dumping_tx_status_is_allowed_with_everything_on() {
    let mut second = with_mac_cr(RXEN | TXEN);
    write_packet(&mut second, 1, 0, &bytes(9));
    sent(&mut second, 0);
    write(&mut second, &[a(0, 0, FIRST, 4)]);
    assert_eq!(second.tx_word(0), refused(7));
    let mut expected = second.clone();
    expected.tx_status = Ring { place: 0, count: 0 };
    assert_eq!(second.dump_tx_status(), took(0));
    assert_eq!(second, expected);
}

// 01, Memory: "Reset restarts all four and sets the register defaults of the
// fresh state"; "a read or restart writes no memory"
#[test]
fn reset_gives_the_fresh_state_over_the_memory_as_it_is() {
    let mut second = with_split(7, RXEN | TXEN);
    second.mac_write(4, 4);
    second.mac_write(5, 5);
    second.arrive(&frame(64, OURS, 0x0800), 0);
    write_packet(&mut second, 1, 0, &bytes(9));
    sent(&mut second, 0);
    write_packet(&mut second, 1, 0, &bytes(9));
    write(&mut second, &[a(0, 0, FIRST, 4)]);
    second.tx_word(0);
    second.registers.drops = 6;
    let memory = second.memory.clone();
    assert_eq!(second.reset(), took(0));
    assert_eq!(second, second::Second::fresh(memory));
}
