//! Each refusal number, and its order against the next. 01, Refusal numbers:
//! "Order: 14, 15 (ranges), then arrivals 1, 2; registers 3, 4, 5; TX words 6,
//! 7, 8, 9; sending 10, 2, 11, 15 (head), 12, 13."

mod common;
use common::*;
use second::{Ring, Second};

/// A state in which every word of TX data is held and one packet of one byte is
/// whole.
fn full() -> Second {
    let mut second = with_mac_cr(TXEN);
    write_packet(&mut second, 1, 0, &[1]);
    second.tx_data.count = 1152;
    second
}

// 01, 14: "lent memory not 4,096 words"
#[test]
fn refusal_14_for_every_call_and_every_other_length() {
    for length in [0, 1, 4095, 4097, 8192] {
        let mut second = with_mac_cr(RXEN);
        second.memory.resize(length, OLD);
        let before = second.clone();
        for (name, call) in CALLS.iter().chain(&BAD_CALLS) {
            assert_eq!(call(&mut second), refused(14), "{name}, {length} words");
        }
        assert_eq!(second.reset(), refused(14));
        assert_eq!(second, before);
    }
}

#[test]
fn refusal_14_comes_before_15() {
    let mut second = fresh();
    second.registers.n = 99;
    second.memory.pop();
    let before = second.clone();
    for (name, call) in CALLS.iter().chain(&BAD_CALLS) {
        assert_eq!(call(&mut second), refused(14), "{name}");
    }
    assert_eq!(second.reset(), refused(14));
    assert_eq!(second, before);
}

#[test]
fn refusal_15_comes_before_every_other_but_14() {
    let mut second = fresh();
    second.rx_data.place = 2640;
    // the error stands, TXEN is clear, nothing waits
    second.port.error = true;
    let before = second.clone();
    for (name, call) in CALLS.iter().chain(&BAD_CALLS) {
        assert_eq!(call(&mut second), refused(15), "{name}");
    }
    assert_eq!(second, before);
}

// 01: "Reset needs 14 only."
#[test]
fn reset_takes_a_state_that_is_out_of_range() {
    let mut second = fresh();
    second.registers.n = 0;
    second.tx_data = Ring {
        place: u32::MAX,
        count: u32::MAX,
    };
    second.port.whole = u32::MAX;
    assert_eq!(second.reset(), took(0));
    assert_eq!(second, fresh());
}

#[test]
fn refusal_1_comes_before_2() {
    let mut second = with_mac_cr(RXEN);
    assert_eq!(second.arrive(&[], 0), refused(1));
    assert_eq!(second.arrive(&[], 1), refused(1));
    assert_eq!(second.arrive(&[0; 2049], 1), refused(1));
    assert_eq!(second.arrive(&[0; 2048], 1), refused(2));
}

#[test]
fn refusal_3_comes_before_4() {
    for register in [0, 6, 7, u32::MAX] {
        assert_eq!(fresh().mac_write(register, u32::MAX), refused(3));
        assert_eq!(fresh().mac_write(register, 0), refused(3));
        assert_eq!(fresh().mac_read(register), refused(3));
    }
    assert_eq!(fresh().mac_write(1, u32::MAX), refused(4));
}

// 01, 4: "n outside 2 to 14"; 5: "n or a dump not allowed now"
#[test]
fn refusal_4_comes_before_5() {
    let mut second = with_mac_cr(RXEN);
    for n in [0, 1, 15, 16, u32::MAX] {
        assert_eq!(second.set_split(n), refused(4));
    }
    for n in 2..=14 {
        assert_eq!(second.set_split(n), refused(5));
    }
    second.mac_write(1, 0);
    for n in 2..=14 {
        assert_eq!(second.set_split(n), took(0));
        assert_eq!(second.split(), took(n));
    }
}

#[test]
fn refusal_5_for_each_call_that_may_not_be_now() {
    let mut second = with_mac_cr(RXEN | TXEN);
    assert_eq!(second.set_split(5), refused(5));
    assert_eq!(second.dump_tx_data(), refused(5));
    assert_eq!(second.dump_rx(), refused(5));
    assert_eq!(second.dump_tx_status(), took(0));
    second.mac_write(1, RXEN);
    assert_eq!(second.dump_tx_data(), took(0));
    second.mac_write(1, TXEN);
    assert_eq!(second.dump_rx(), took(0));
}

#[test]
fn refusal_6_comes_before_7_8_and_9() {
    let mut second = full();
    assert_eq!(second.clone().tx_word(0), refused(7));
    assert_eq!(second.clone().tx_word(a(0, 0, FIRST, 1)), refused(9));
    second.port.error = true;
    assert_eq!(second.tx_word(0), refused(6));
    assert_eq!(second.tx_word(a(0, 0, FIRST, 1)), refused(6));

    let mut second = fresh();
    write(&mut second, &[a(0, 0, FIRST, 9)]);
    assert_eq!(second.clone().tx_word(b(0, 0, 8)), refused(8));
    second.port.error = true;
    assert_eq!(second.tx_word(b(0, 0, 8)), refused(6));
}

// A first B whose p is 0 has sizes that pass p as well
#[test]
fn refusal_7_comes_before_8() {
    let mut second = fresh();
    write(&mut second, &[a(0, 0, FIRST | LAST, 9)]);
    assert_eq!(second.clone().tx_word(b(0, 0, 0)), refused(7));
    assert_eq!(second.clone().tx_word(b(0, 0, 1515)), refused(7));
    assert_eq!(second.clone().tx_word(b(0, 0, 8)), refused(8));
    assert_eq!(second.clone().tx_word(b(0, 0, 10)), refused(8));
    assert_eq!(second.tx_word(b(0, 0, 9)), took(0));
}

// A later B is never judged for the range of p: another p is 8
#[test]
fn a_later_p_out_of_range_is_8() {
    let mut second = fresh();
    write(
        &mut second,
        &[a(0, 0, FIRST, 4), b(0, 0, 8), 0, a(0, 0, LAST, 4)],
    );
    assert_eq!(second.clone().tx_word(b(0, 0, 0)), refused(8));
    assert_eq!(second.tx_word(b(0, 0, 2047)), refused(8));
}

#[test]
fn refusals_7_and_8_come_before_9() {
    let mut second = full();
    assert_eq!(second.clone().tx_word(a(0, 0, FIRST, 0)), refused(7));
    assert_eq!(second.clone().tx_word(a(0, 0, FIRST, 4)), refused(9));
    second.tx_data.count -= 1;
    write(&mut second, &[a(0, 0, FIRST | LAST, 4)]);
    assert_eq!(second.clone().tx_word(b(0, 0, 0)), refused(7));
    assert_eq!(second.clone().tx_word(b(0, 0, 5)), refused(8));
    assert_eq!(second.clone().tx_word(b(0, 0, 4)), refused(9));
    // a later B on a full FIFO: 8, or taken
    let mut second = full();
    second.tx_data.count -= 4;
    write(
        &mut second,
        &[a(0, 0, FIRST, 4), b(0, 0, 8), 0, a(0, 0, LAST, 4)],
    );
    assert_eq!(second.clone().tx_word(b(1, 0, 8)), refused(8));
    assert_eq!(second.clone().tx_word(b(0, 0, 8)), took(0));
    write(&mut second, &[b(0, 0, 8)]);
    assert_eq!(second.tx_word(0), refused(9));
}

/// What can be wrong when sending, in 01's order. Each is repaired in turn, and
/// the next one answers.
#[test]
fn sending_refuses_10_2_11_15_12_13_in_this_order() {
    let mut second = with_mac_cr(0);
    second.tx_status.count = 128;
    second.memory[0] = 0;
    assert_eq!(second.send(2, &mut []), refused(10));
    second.mac_write(1, TXEN);
    assert_eq!(second.send(2, &mut []), refused(2));
    assert_eq!(second.send(0, &mut []), refused(11));
    second.tx_data.count = 3;
    second.port.whole = 1;
    assert_eq!(second.send(0, &mut []), refused(15));
    second.memory[0] = a(0, 0, FIRST | LAST, 1);
    second.memory[1] = b(1, 0, 1);
    assert_eq!(second.send(0, &mut []), refused(12));
    second.tx_status.count = 127;
    assert_eq!(second.send(0, &mut []), refused(13));
    assert_eq!(second.send(0, &mut [0; 1517]), refused(13));
    assert_eq!(second.send(0, &mut [0; 1518]), took(64));
    assert_eq!(second.send(0, &mut [0; 1518]), refused(11));
}

// Each pair alone: with both wrong, the earlier one of 01's order answers
#[test]
fn of_two_things_wrong_in_sending_the_earlier_answers() {
    const ORDER: [u32; 6] = [10, 2, 11, 15, 12, 13];
    for (k, first) in ORDER.into_iter().enumerate() {
        for later in ORDER.into_iter().skip(k) {
            // 11 leaves no head packet to be wrong
            if first == 11 && later == 15 {
                continue;
            }
            let wrong = |number| first == number || later == number;
            let mut second = with_mac_cr(if wrong(10) { 0 } else { TXEN });
            if !wrong(11) {
                write_packet(&mut second, 1, 0, &[1]);
            }
            if wrong(15) {
                second.memory[0] = 0;
            }
            second.tx_status.count = if wrong(12) { 128 } else { 127 };
            let mut out = vec![7; if wrong(13) { 1517 } else { 1518 }];
            let before = (second.clone(), out.clone());
            let said = second.send(if wrong(2) { 0x80 } else { 0 }, &mut out);
            assert_eq!(said, refused(first), "{first} and {later}");
            assert_eq!((second, out), before);
        }
    }
}

// 01, 11: "nothing to read, peek or send"
#[test]
fn refusal_11_from_every_call_that_finds_nothing() {
    let mut second = with_mac_cr(TXEN);
    let before = second.clone();
    assert_eq!(second.rx_data_read(), refused(11));
    assert_eq!(second.rx_status_pop(), refused(11));
    assert_eq!(second.rx_status_peek(), refused(11));
    assert_eq!(second.tx_status_pop(), refused(11));
    assert_eq!(second.tx_status_peek(), refused(11));
    assert_eq!(second.send(0, &mut [0; 1518]), refused(11));
    assert_eq!(second, before);
}

// Decided point 16: 13 for every out buffer under 1,518 bytes, also where the
// frame would be shorter
#[test]
fn refusal_13_also_where_the_frame_is_short() {
    let mut second = with_mac_cr(TXEN);
    write_packet(&mut second, 1, NO_CRC | NO_PADDING, &[1]);
    let mut out = [7; 1517];
    assert_eq!(second.send(0, &mut out), refused(13));
    assert_eq!(out, [7; 1517]);
}
