//! Tests of the exchange: the day of the specification with its answers,
//! every edge that the specification lists, small matches and how they are
//! rounded, auction prices on the hundred, the largest numbers and the last
//! block, the order of the refusals, what a round leaves behind, members who
//! leave one, and lists of orders. The books are checked after each call: so is
//! every match, bid, settle and claim, that enter and leave undo each other, and
//! that a list does what its orders do singly.

use second::chance::Chance;
use second::{answer_line, books, read_call, Answer, Exchange, Order, Phase, Place};

struct House {
    exchange: Exchange,
}

impl House {
    fn new() -> House {
        House { exchange: Exchange::new() }
    }

    /// Works one call line and gives code and numbers.
    fn call(&mut self, line: &str) -> (u8, u32, u32) {
        let call = read_call(line.as_bytes()).expect(line);
        let before = self.exchange.clone();
        let answer = self.exchange.call(call);
        assert_eq!(books::check_call(&before, &self.exchange, call, answer), Ok(()), "{line}");
        (answer.code, answer.first, answer.second)
    }

    /// Works call lines and compares their answers.
    fn answers(&mut self, lines: &[(&str, (u8, u32, u32))]) {
        for (line, answer) in lines {
            assert_eq!(self.call(line), *answer, "{line}");
        }
    }

    /// Works a call line for a lent buffer of so many bytes 35: code, length
    /// and the buffer after it.
    fn lent(&mut self, number: u32, line: &str, size: usize) -> (u8, usize, String) {
        let mut out = vec![b'#'; size];
        let call = read_call(line.as_bytes());
        let (code, len) = answer_line(&mut self.exchange, number, call, &mut out);
        assert_eq!(books::check(&self.exchange), Ok(()), "{line}");
        (code, len, String::from_utf8(out).unwrap())
    }

    /// Works a list of orders with so many places: its own answer, and the
    /// places after it.
    fn list(&mut self, orders: &[Order], places: usize) -> (Answer, Vec<Answer>) {
        let was = self.exchange.clone();
        let before = places_before(places);
        let mut after = before.clone();
        let answer = self.exchange.order_list(orders, &mut after);
        let told = books::check_list(&was, &self.exchange, orders, &before, &after, answer);
        assert_eq!(told, Ok(()), "{orders:?}");
        (answer, after)
    }

    /// Works call lines that must all be accepted.
    fn calls(&mut self, lines: &[&str]) {
        for line in lines {
            assert_eq!(self.call(line).0, 0, "{line}");
        }
    }

    /// Works a call line that must be refused with this code.
    fn refused(&mut self, code: u8, line: &str) {
        assert_eq!(self.call(line), (code, 0, 0), "{line}");
    }

    fn phase(&self, market: usize) -> Phase {
        self.exchange.markets()[market - 1].phase
    }
}

const DAY: [(&str, (u8, u32, u32)); 14] = [
    ("1,0,0,1000", (0, 1000, 0)),
    ("1,1,1,300", (0, 300, 0)),
    ("1,2,0,500", (0, 500, 0)),
    ("3,0,0,1,0,3000000,600", (0, 600, 0)),
    ("3,1,1,1,1,2000000,300", (0, 300, 0)),
    ("5,1,10,2500000,100000,10", (0, 2750000, 2250000)),
    ("6,0", (0, 600, 0)),
    ("6,1", (0, 300, 0)),
    ("7,1,14", (0, 240, 600)),
    ("8,1,2,19,1,60,160", (0, 60, 150)),
    ("9,1,19", (0, 600, 300)),
    ("10,0", (0, 600, 240)),
    ("10,1", (0, 300, 750)),
    ("2,1,0,751", (19, 0, 0)),
];

/// The day up to its match.
fn day_in_auction() -> House {
    let mut house = House::new();
    house.answers(&DAY[..9]);
    house
}

#[test]
fn the_day() {
    let mut house = House::new();
    house.answers(&DAY);
    assert_eq!(house.phase(1), Phase::Closed);
    assert_eq!(*house.exchange.tray(), [0; 4]);
    assert_eq!(house.exchange.last_block(), 19);
}

#[test]
fn bounds_at_the_smallest_references() {
    let mut house = House::new();
    assert_eq!(house.call("5,1,0,1,500000,1"), (0, 1, 1));
    assert_eq!(house.call("5,2,0,3,500000,1"), (0, 4, 2));
    assert_eq!(house.call("5,3,0,1000000000,500000,64"), (0, 1500000000, 500000000));
}

/// The answer of a match with these totals, whose orders have hi and lo for
/// their limits.
fn small_match(reference: u32, slack: u32, buys: u32, sells: u32) -> (u8, u32, u32) {
    let mut house = House::new();
    let (_, hi, lo) = house.call(&format!("5,1,0,{reference},{slack},1"));
    house.calls(&[&format!("1,0,0,{buys}"), &format!("1,1,1,{sells}")]);
    house.calls(&[&format!("3,0,0,1,0,{hi},{buys}"), &format!("3,1,1,1,1,{lo},{sells}")]);
    house.calls(&["6,0", "6,1"]);
    let answer = house.call("7,1,4");
    assert_eq!(house.phase(1), Phase::Auction);
    assert_eq!(house.exchange.markets()[0].start, 4);
    answer
}

#[test]
fn a_match_that_no_quote_suits_is_dropped() {
    assert_eq!(small_match(2500000, 0, 100, 3), (0, 0, 0));
    assert_eq!(small_match(2500000, 0, 100, 4), (0, 4, 10));
}

#[test]
fn a_match_above_the_high_bound_is_rounded_down() {
    // hi 2310000, lo 1890000
    assert_eq!(small_match(2100000, 100000, 1000, 1), (0, 1, 2));
    assert_eq!(small_match(2100000, 100000, 3, 1), (0, 1, 2));
    assert_eq!(small_match(2100000, 100000, 1000, 3), (0, 3, 6));
    // The buys are the smaller side.
    assert_eq!(small_match(2100000, 100000, 7, 1000), (0, 3, 6));
    // 2 quote fetch no whole base unit at the reference.
    assert_eq!(small_match(2100000, 100000, 2, 1), (0, 0, 0));
    // 8.4 rounded up is 9, within 9.24.
    assert_eq!(small_match(2100000, 100000, 1000, 4), (0, 4, 9));
}

#[test]
fn a_match_rounded_down_meets_the_low_bound() {
    // 2 quote for 1 base: lo is 2000002, then 2000000.
    assert_eq!(small_match(2400000, 166666, 1000, 1), (0, 0, 0));
    assert_eq!(small_match(2400000, 166667, 1000, 1), (0, 1, 2));
    // 7 quote for 3 base: lo is 2333336, then 2333333, the last that 7 meets.
    assert_eq!(small_match(2400000, 27777, 1000, 3), (0, 0, 0));
    assert_eq!(small_match(2400000, 27778, 1000, 3), (0, 3, 7));
    // 999 quote for 1 base: lo is 999000001, then 999000000.
    assert_eq!(small_match(999001000, 1, 1000, 1), (0, 0, 0));
    assert_eq!(small_match(999000999, 1, 1000, 1), (0, 1, 999));
}

#[test]
fn a_match_of_much_base_is_rounded_down() {
    // hi 1000002, lo 1000000: from 500000 base on the quote rounded up keeps hi.
    assert_eq!(small_match(1000001, 1, 1000000, 499999), (0, 499999, 499999));
    assert_eq!(small_match(1000001, 1, 1000000, 500000), (0, 500000, 500001));
    // hi 333334, lo 333332, and 333332.000001 quote.
    assert_eq!(small_match(333333, 4, 1000000, 999997), (0, 999997, 333332));
}

#[test]
fn a_match_rounded_down_to_no_quote_is_dropped() {
    // hi 900000, lo 300000: 1 quote for 1 base is too much.
    assert_eq!(small_match(600000, 500000, 1000, 1), (0, 0, 0));
    // 1.2 for 2 base: 2 is too much, 1 will do.
    assert_eq!(small_match(600000, 500000, 1000, 2), (0, 2, 1));
    assert_eq!(small_match(1, 500000, 1000, 1), (0, 0, 0));
}

#[test]
fn a_match_within_the_high_bound_stays_rounded_up() {
    // hi 2250000, lo 750000: 1 quote would do as well.
    assert_eq!(small_match(1500000, 500000, 9, 1), (0, 1, 2));
    // 3.9 rounded up is 4, within 4.29.
    assert_eq!(small_match(1300000, 100000, 1000, 3), (0, 3, 4));
    // hi 2000000 is just met; hi 1999999 is broken, and 1 quote is below lo.
    assert_eq!(small_match(1818182, 100000, 1000, 1), (0, 1, 2));
    assert_eq!(small_match(1818181, 100000, 1000, 1), (0, 0, 0));
    // hi 1250000 is just met; hi 1249999 is broken, and 4 quote will do.
    assert_eq!(small_match(1111111, 125001, 1000, 4), (0, 4, 5));
    assert_eq!(small_match(1111111, 125000, 1000, 4), (0, 4, 4));
}

#[test]
fn small_matches_of_many_terms() {
    for reference in (1..=5_000_000).step_by(33_333) {
        for slack in [0, 1, 1_000, 50_000, 100_000, 250_000, 333_333, 500_000] {
            for sells in 1..=5 {
                assert_eq!(small_match(reference, slack, 1000, sells).0, 0);
            }
        }
    }
}

/// A match rounded down, before its auction ends: the buys of 3 quote have 1
/// left.
const ROUNDED_DOWN: [(&str, (u8, u32, u32)); 8] = [
    ("1,0,0,3", (0, 3, 0)),
    ("1,1,1,1", (0, 1, 0)),
    ("3,0,0,1,0,2310000,3", (0, 3, 0)),
    ("3,1,1,1,1,1890000,1", (0, 1, 0)),
    ("5,1,0,2100000,100000,1", (0, 2310000, 1890000)),
    ("6,0", (0, 3, 0)),
    ("6,1", (0, 1, 0)),
    ("7,1,4", (0, 1, 2)),
];

#[test]
fn a_day_of_a_match_rounded_down() {
    let mut house = House::new();
    house.answers(&ROUNDED_DOWN);
    house.answers(&[
        ("8,1,2,4,1,1,4294967295", (17, 0, 0)),
        ("8,1,2,4,0,1,2", (18, 0, 0)),
        ("8,1,2,4,0,1,1", (19, 0, 0)),
        ("9,1,5", (13, 0, 0)),
        ("9,1,6", (0, 2, 1)),
        ("10,0", (0, 2, 1)),
        ("10,1", (0, 1, 2)),
        ("4,0,0", (0, 1, 0)),
    ]);
    assert_eq!(house.phase(1), Phase::Closed);
    assert_eq!(*house.exchange.tray(), [0; 4]);
    assert_eq!(house.exchange.balances()[0], [1, 1, 0, 0]);
    assert_eq!(house.exchange.balances()[1], [2, 0, 0, 0]);
}

#[test]
fn a_maker_takes_what_a_match_rounded_down_left() {
    let mut house = House::new();
    house.answers(&ROUNDED_DOWN);
    house.answers(&[
        ("1,2,1,1", (0, 1, 0)),
        ("9,1,4", (13, 0, 0)),
        ("8,1,2,5,0,1,0", (17, 0, 0)),
        ("8,1,2,4,0,1,1", (0, 1, 1)),
        ("9,1,4", (0, 3, 1)),
        ("10,1", (0, 1, 2)),
        ("10,0", (0, 3, 2)),
        ("4,0,0", (8, 0, 0)),
    ]);
    assert_eq!(house.phase(1), Phase::Closed);
    assert_eq!(*house.exchange.tray(), [0; 4]);
    assert_eq!(house.exchange.balances()[0], [0, 2, 0, 0]);
    assert_eq!(house.exchange.balances()[1], [2, 0, 0, 0]);
    assert_eq!(house.exchange.balances()[2], [1, 0, 0, 0]);
}

#[test]
fn shares_of_a_match_rounded_down() {
    let mut house = House::new();
    house.calls(&["1,0,0,7", "1,1,1,3", "5,1,0,2100000,100000,1"]);
    house.calls(&["3,0,0,1,0,2310000,4", "3,1,0,1,0,2310000,3"]);
    house.calls(&["3,2,1,1,1,1890000,1", "3,3,1,1,1,1890000,2"]);
    house.calls(&["6,0", "6,1", "6,2", "6,3"]);
    house.answers(&[
        ("7,1,4", (0, 3, 6)),
        ("9,1,6", (0, 6, 3)),
        ("10,2", (0, 1, 2)),
        ("10,0", (0, 4, 1)),
        ("10,3", (0, 2, 4)),
        ("10,1", (0, 3, 1)),
    ]);
    assert_eq!(house.phase(1), Phase::Closed);
    assert_eq!(*house.exchange.tray(), [1, 1, 0, 0]);
}

#[test]
fn shares_of_301() {
    let mut house = House::new();
    house.calls(&["1,0,0,100", "1,1,0,100", "1,2,0,101", "1,3,1,80"]);
    house.calls(&["3,0,0,1,0,2500000,100", "3,1,1,1,0,2500000,100"]);
    house.calls(&["3,2,2,1,0,2500000,101", "3,3,3,1,1,2500000,80"]);
    house.calls(&["5,1,10,2500000,0,5", "6,0", "6,1", "6,2", "6,3"]);
    assert_eq!(house.call("7,1,14"), (0, 80, 200));
    house.refused(13, "9,1,19");
    assert_eq!(house.call("9,1,20"), (0, 200, 80));
    assert_eq!(house.call("10,3"), (0, 80, 200));
    assert_eq!(house.call("10,0"), (0, 67, 26));
    assert_eq!(house.call("10,1"), (0, 67, 26));
    assert_eq!(*house.exchange.tray(), [0; 4]);
    assert_eq!(house.phase(1), Phase::Paying);
    assert_eq!(house.call("10,2"), (0, 68, 26));
    assert_eq!(*house.exchange.tray(), [2, 2, 0, 0]);
    assert_eq!(house.phase(1), Phase::Closed);
    // The rests are 33 each and rest again.
    for ticket in 0..3 {
        house.refused(9, &format!("10,{ticket}"));
        assert_eq!(house.call(&format!("4,{ticket},{ticket}")), (0, 33, 0));
    }
    house.refused(8, "10,3");
}

#[test]
fn the_auction_price_falls_to_a_low_bound_on_the_hundred() {
    assert_eq!(day_in_auction().call("8,1,2,14,1,60,165"), (0, 60, 165));
    assert_eq!(day_in_auction().call("8,1,2,14,1,60,164"), (18, 0, 0));
    assert_eq!(day_in_auction().call("8,1,2,24,1,60,135"), (0, 60, 135));
    assert_eq!(day_in_auction().call("8,1,2,24,1,60,134"), (18, 0, 0));
    assert_eq!(day_in_auction().call("8,1,2,25,1,60,165"), (16, 0, 0));
    assert_eq!(day_in_auction().call("8,1,2,14,1,61,4294967295"), (17, 0, 0));
}

/// Market 1 is in auction from block 4 on, with so much offered on one side;
/// member 1 has all that there can be of the token that its makers give.
fn auction(terms: [u32; 3], side: u32, offer: u32) -> House {
    let [reference, slack, length] = terms;
    let limit = [2000000000, 1][side as usize];
    let mut house = House::new();
    house.calls(&[&format!("1,0,{side},{offer}"), &format!("1,1,{},4294967295", 1 - side)]);
    house.calls(&[&format!("3,0,0,1,{side},{limit},{offer}")]);
    house.calls(&[&format!("5,1,0,{reference},{slack},{length}"), "6,0", "7,1,4"]);
    house
}

/// A bid for a million base comes to these quotes from k 0 to the auction's
/// length: its prices. A bound of one unit less, or one more on side 0, is
/// missed.
#[track_caller]
fn prices(terms: [u32; 3], side: u32, prices: &[u32]) {
    assert_eq!(prices.len(), terms[2] as usize + 1);
    for (block, &price) in (4..).zip(prices) {
        let mut house = auction(terms, side, 4294967295);
        let bid = |bound| format!("8,1,1,{block},{side},1000000,{bound}");
        house.refused(18, &bid(if side == 1 { price - 1 } else { price + 1 }));
        assert_eq!(house.call(&bid(price)), (0, 1000000, price), "block {block}");
    }
}

/// hi 1501, lo 501; without steps 1501, 1168, 835, 501 and 501, 834, 1167, 1501.
const OFF_THE_HUNDRED: [u32; 3] = [1001, 500000, 3];

#[test]
fn prices_on_the_hundred() {
    prices(OFF_THE_HUNDRED, 1, &[1501, 1200, 900, 600]);
    prices(OFF_THE_HUNDRED, 0, &[501, 800, 1100, 1500]);
    // hi 1500, lo 500: those that are multiples stay, at the ends too.
    prices([1000, 500000, 5], 1, &[1500, 1300, 1100, 900, 700, 500]);
    prices([1000, 500000, 5], 0, &[500, 700, 900, 1100, 1300, 1500]);
    // hi 1101, lo 901; without steps 1101, 1068, 1035, 1001, 968, 935, 901 and
    // 901, 934, 967, 1001, 1034, 1067, 1101.
    prices([1001, 100000, 6], 1, &[1101, 1100, 1100, 1100, 1000, 1000, 1000]);
    prices([1001, 100000, 6], 0, &[901, 901, 901, 1000, 1000, 1000, 1100]);
}

#[test]
fn prices_a_unit_from_the_hundred() {
    // hi 301, lo 101, and 201 between: stepped by 99 for side 1, by 1 for side 0.
    prices([201, 500000, 2], 1, &[301, 300, 200]);
    prices([201, 500000, 2], 0, &[101, 200, 300]);
    // hi 399, lo 199, and 299 between: stepped by 1 for side 1, by 99 for side 0.
    prices([299, 334449, 2], 1, &[399, 300, 200]);
    prices([299, 334449, 2], 0, &[199, 200, 300]);
    // hi 299, lo 101, and 200 between.
    prices([200, 495000, 2], 1, &[299, 200, 200]);
    prices([200, 495000, 2], 0, &[101, 200, 200]);
    // hi 298, lo 100, and 199 between: by 99 it comes to just lo.
    prices([199, 500000, 2], 1, &[298, 200, 100]);
    prices([199, 500000, 2], 0, &[100, 100, 200]);
}

#[test]
fn prices_that_a_step_would_take_past_a_bound() {
    // hi 1050, lo 950; 1050, 1017, 984, 950 and 950, 983, 1016, 1050 without steps.
    prices([1000, 50000, 3], 1, &[1050, 1050, 1000, 1000]);
    prices([1000, 50000, 3], 0, &[950, 950, 1000, 1000]);
    // hi 200, lo 100: a step to just the bound does not pass it.
    prices([150, 333334, 3], 1, &[200, 200, 200, 100]);
    prices([150, 333334, 3], 0, &[100, 100, 100, 200]);
}

#[test]
fn auctions_that_stand_still() {
    // hi 199, lo 101.
    prices([150, 326667, 3], 1, &[199, 199, 199, 199]);
    prices([150, 326667, 3], 0, &[101, 101, 101, 101]);
    // hi 4, lo 2.
    prices([3, 500000, 3], 1, &[4, 4, 4, 4]);
    prices([3, 500000, 3], 0, &[2, 2, 2, 2]);
    // hi as lo, by rounding and without slack.
    for (terms, price) in [([1, 500000, 2], 1), ([150, 0, 2], 150), ([1234567, 0, 2], 1234567)] {
        prices(terms, 1, &[price; 3]);
        prices(terms, 0, &[price; 3]);
    }
}

#[test]
fn large_prices_on_the_hundred() {
    // hi 1000000998, lo 999999000; 999999999 between.
    prices([999999999, 1, 2], 1, &[1000000998, 1000000000, 999999000]);
    prices([999999999, 1, 2], 0, &[999999000, 999999900, 1000000900]);
    // hi 1500000000, lo 500000000; a 63rd of the way is 15873015.
    let mut house = auction([1000000000, 500000, 63], 1, 100000);
    house.refused(18, "8,1,1,5,1,100000,148412699");
    assert_eq!(house.call("8,1,1,5,1,100000,148412700"), (0, 100000, 148412700));
    let mut house = auction([1000000000, 500000, 63], 0, 51587300);
    house.refused(17, "8,1,1,5,0,100001,0");
    house.refused(18, "8,1,1,5,0,100000,51587301");
    assert_eq!(house.call("8,1,1,5,0,100000,51587300"), (0, 100000, 51587300));
}

#[test]
fn prices_of_many_terms() {
    for reference in (1..700).chain((701..1_000_000_000).step_by(9_876_543)) {
        for slack in [0, 1, 3, 333, 50_000, 123_456, 333_333, 500_000] {
            for length in [1, 2, 7, 64] {
                let mut house = House::new();
                house.calls(&[&format!("5,1,0,{reference},{slack},{length}")]);
                let round = house.exchange.markets()[0];
                let mut last = [round.lo, round.hi];
                for k in 0..=length {
                    let now = [0, 1].map(|side| round.price(side, k));
                    assert!(now[0] >= last[0] && now[1] <= last[1], "{reference} {slack} {k}");
                    for side in [0, 1] {
                        let told = books::check_price(&round, side, k, now[side as usize]);
                        assert_eq!(told, Ok(()), "{reference} {slack} {length} {side} {k}");
                    }
                    last = now;
                }
            }
        }
    }
}

#[test]
fn bids_around_a_stepped_price() {
    // At 1200 quote for a million base: 1200.0012, and 1199.9988.
    let mut house = auction(OFF_THE_HUNDRED, 1, 3000000);
    house.refused(18, "8,1,1,5,1,1000001,1200");
    assert_eq!(house.call("8,1,1,5,1,1000001,1201"), (0, 1000001, 1201));
    house.refused(18, "8,1,1,5,1,999999,1199");
    assert_eq!(house.call("8,1,1,5,1,999999,1200"), (0, 999999, 1200));
    // 1168 would be enough without the step.
    house.refused(18, "8,1,1,5,1,1000000,1168");
    house.refused(17, "8,1,1,5,1,1000001,1168");
    assert_eq!(house.call("8,1,1,7,1,1000000,600"), (0, 1000000, 600));

    // At 1100 quote for a million base: 1100.0011, and 1099.9989.
    let mut house = auction(OFF_THE_HUNDRED, 0, 5000);
    house.refused(18, "8,1,1,6,0,1000001,1101");
    assert_eq!(house.call("8,1,1,6,0,1000001,1100"), (0, 1000001, 1100));
    house.refused(18, "8,1,1,6,0,999999,1100");
    assert_eq!(house.call("8,1,1,6,0,999999,1099"), (0, 999999, 1099));
    // 1167 would be had without the step.
    house.refused(18, "8,1,1,6,0,1000000,1167");
}

#[test]
fn what_is_left_at_a_stepped_price() {
    // At 1100 for a million base 1100.9999 is within 1100, and 1101.001 is not;
    // without the step a million would come to 1167.
    let mut house = auction(OFF_THE_HUNDRED, 0, 1100);
    house.refused(17, "8,1,1,6,0,1000910,0");
    assert_eq!(house.call("8,1,1,6,0,1000909,1100"), (0, 1000909, 1100));
    assert_eq!(house.call("9,1,6"), (0, 1100, 0));
    // At 800 for a million base 1249 come to nothing; without the step to 1.
    let mut house = auction(OFF_THE_HUNDRED, 0, 1);
    house.refused(17, "8,1,1,5,0,1249,0");
    house.refused(17, "8,1,1,5,0,2500,0");
    assert_eq!(house.call("8,1,1,5,0,1250,1"), (0, 1250, 1));
}

#[test]
fn a_maker_pays_the_stepped_price() {
    let mut house = auction(OFF_THE_HUNDRED, 1, 1000000);
    // 1168 would be enough without the step.
    house.calls(&["2,1,0,4294967295", "1,2,0,1168"]);
    house.refused(19, "8,1,2,5,1,1000000,1200");
    house.calls(&["1,2,0,31"]);
    house.refused(19, "8,1,2,5,1,1000000,1200");
    house.calls(&["1,2,0,1"]);
    assert_eq!(house.call("8,1,2,5,1,1000000,1200"), (0, 1000000, 1200));
    assert_eq!(house.exchange.balances()[2], [0, 1000000, 0, 0]);
}

#[test]
fn a_day_of_sells_at_stepped_prices() {
    let mut house = House::new();
    house.calls(&["1,0,0,1001", "1,1,1,3000000", "1,2,0,1800"]);
    house.calls(&["3,0,0,1,0,1501,1001", "3,1,1,1,1,501,1000000", "3,2,1,1,1,501,2000000"]);
    house.answers(&[
        ("5,1,10,1001,500000,3", (0, 1501, 501)),
        ("6,0", (0, 1001, 0)),
        ("6,1", (0, 1000000, 0)),
        ("6,2", (0, 3000000, 0)),
        ("7,1,14", (0, 1000000, 1001)),
        ("8,1,2,15,1,1000000,1199", (18, 0, 0)),
        ("8,1,2,15,1,1000000,1200", (0, 1000000, 1200)),
        ("8,1,2,16,1,1000000,900", (19, 0, 0)),
        ("8,1,2,17,1,1000000,599", (18, 0, 0)),
        ("8,1,2,17,1,1000000,600", (0, 1000000, 600)),
        ("9,1,17", (0, 1001, 3000000)),
        ("10,0", (0, 1001, 1000000)),
        // 1001, 1200 and 600 quote for 3000000 base: a third is 933.67.
        ("10,1", (0, 1000000, 933)),
        ("10,2", (0, 2000000, 1867)),
    ]);
    assert_eq!(house.phase(1), Phase::Closed);
    assert_eq!(*house.exchange.tray(), [1, 0, 0, 0]);
    assert_eq!(house.exchange.balances()[1], [2800, 0, 0, 0]);
    assert_eq!(house.exchange.balances()[2], [0, 2000000, 0, 0]);
}

#[test]
fn a_day_of_buys_at_stepped_prices() {
    let mut house = House::new();
    house.calls(&["1,0,0,5000", "1,1,1,1000000", "1,2,1,4000000"]);
    house.calls(&["3,0,0,1,0,1501,5000", "3,1,1,1,1,501,1000000"]);
    house.answers(&[
        ("5,1,10,1001,500000,3", (0, 1501, 501)),
        ("6,0", (0, 5000, 0)),
        ("6,1", (0, 1000000, 0)),
        ("7,1,14", (0, 1000000, 1001)),
        ("8,1,2,15,0,1000000,801", (18, 0, 0)),
        ("8,1,2,15,0,1000000,800", (0, 1000000, 800)),
        ("8,1,2,16,0,1000000,1100", (0, 1000000, 1100)),
        ("8,1,2,17,0,1000000,1501", (18, 0, 0)),
        ("8,1,2,17,0,1000000,1500", (0, 1000000, 1500)),
        // 599 quote are left: 600 are too much.
        ("8,1,2,17,0,400000,0", (17, 0, 0)),
        ("8,1,2,17,0,399334,599", (0, 399334, 599)),
        ("9,1,17", (0, 5000, 1000000)),
        ("10,0", (0, 5000, 4399334)),
        ("10,1", (0, 1000000, 1001)),
    ]);
    assert_eq!(house.phase(1), Phase::Closed);
    assert_eq!(*house.exchange.tray(), [0; 4]);
    assert_eq!(house.exchange.balances()[0], [0, 4399334, 0, 0]);
    assert_eq!(house.exchange.balances()[2], [3999, 600666, 0, 0]);
}

#[test]
fn deposits_up_to_the_most() {
    let mut house = House::new();
    assert_eq!(house.call("1,0,0,4294967294"), (0, 4294967294, 0));
    assert_eq!(house.call("1,1,0,1"), (0, 1, 0));
    house.refused(14, "1,1,0,1");
    house.refused(14, "1,0,0,4294967295");
    assert_eq!(house.call("1,1,1,4294967295"), (0, 4294967295, 0));
    house.refused(14, "1,2,1,1");
    // What is away in tickets still counts.
    house.calls(&["3,0,1,1,1,1,4294967295"]);
    house.refused(14, "1,2,1,1");
    house.calls(&["2,0,0,7"]);
    assert_eq!(house.call("1,9,0,7"), (0, 7, 0));
    house.refused(14, "1,9,0,1");
}

#[test]
fn a_match_needs_four_blocks() {
    let mut house = House::new();
    house.calls(&["5,1,10,2500000,0,5"]);
    for block in 10..14 {
        house.refused(13, &format!("7,1,{block}"));
    }
    house.refused(12, "7,1,9");
    assert_eq!(house.exchange.last_block(), 10);
    assert_eq!(house.call("7,1,14"), (0, 0, 0));
}

#[test]
fn settle_without_tickets_closes() {
    let mut house = House::new();
    house.calls(&["5,1,10,2500000,0,5", "7,1,14"]);
    assert_eq!(house.call("9,1,14"), (0, 0, 0));
    assert_eq!(house.phase(1), Phase::Closed);
    house.calls(&["5,1,14,1,0,1"]);
}

#[test]
fn settle_waits_for_both_sides() {
    // The buys are all paid, 60 base are left.
    let mut house = day_in_auction();
    for block in 14..25 {
        house.refused(13, &format!("9,1,{block}"));
    }
    house.refused(12, "9,1,13");
    assert_eq!(house.call("9,1,25"), (0, 600, 240));
    // What isn't sold rests again and goes into a second round.
    assert_eq!(house.call("10,1"), (0, 240, 600));
    house.refused(11, "6,1");
    assert_eq!(house.call("10,0"), (0, 600, 240));
    house.calls(&["5,1,25,2000000,0,1"]);
    assert_eq!(house.call("6,1"), (0, 60, 0));
    house.calls(&["7,1,29", "9,1,31"]);
    // Nothing sold: 0, 0, and the offer rests again.
    assert_eq!(house.call("10,1"), (0, 0, 0));
    assert_eq!(house.call("4,1,1"), (0, 60, 0));
}

#[test]
fn makers_on_the_buy_side() {
    let mut house = House::new();
    house.calls(&["1,0,0,1000", "1,5,2,100", "3,7,0,2,0,2000000000,1000"]);
    assert_eq!(house.call("5,2,0,3000000,500000,4"), (0, 4500000, 1500000));
    house.calls(&["6,7", "7,2,4"]);
    house.refused(17, "8,2,5,4,0,668,0");
    house.refused(19, "8,2,5,4,0,667,0");
    house.refused(18, "8,2,5,4,0,10,16");
    house.refused(19, "8,2,5,4,0,101,0");
    assert_eq!(house.call("8,2,5,4,0,10,15"), (0, 10, 15));
    assert_eq!(house.call("8,2,5,5,0,11,0"), (0, 11, 24));
    assert_eq!(house.call("8,2,5,8,0,79,355"), (0, 79, 355));
    house.refused(16, "8,2,5,9,0,1,0");
    assert_eq!(house.call("9,2,9"), (0, 394, 0));
    assert_eq!(house.call("10,7"), (0, 394, 100));
    assert_eq!(house.exchange.tickets()[7].offer, 606);
    assert_eq!(house.exchange.balances()[0], [0, 0, 100, 0]);
    assert_eq!(house.exchange.balances()[5], [394, 0, 0, 0]);
}

#[test]
fn a_bid_whose_quote_comes_to_nothing() {
    let mut house = House::new();
    house.calls(&["1,0,0,1000", "1,5,3,100", "3,0,0,3,0,1,1000"]);
    house.calls(&["5,3,0,1,0,1", "6,0", "7,3,4"]);
    house.refused(17, "8,3,5,4,0,100,0");
    house.refused(17, "8,3,5,4,0,999999,0");
    house.refused(19, "8,3,5,4,0,1000000,0");
    house.refused(18, "8,3,5,4,0,1000000,2");
}

#[test]
fn a_cost_above_the_most() {
    let mut house = House::new();
    house.calls(&["1,0,1,4294967295", "3,0,0,1,1,1,4294967295"]);
    house.calls(&["1,1,0,4294967295", "3,1,1,2,0,2000000000,4294967295"]);
    house.calls(&["5,1,0,1000000000,0,1"]);
    house.refused(11, "6,1");
    house.calls(&["6,0", "7,1,4"]);
    house.refused(18, "8,1,5,4,1,4294967295,4294967295");
    house.refused(17, "8,1,5,4,0,4294967295,0");
    house.refused(19, "8,1,5,4,1,4294967,4294967295");
    house.refused(18, "8,1,5,4,1,4294968,4294967295");
}

#[test]
fn the_largest_shares() {
    let mut house = House::new();
    house.calls(&["1,0,1,4294967295", "3,0,0,1,1,1,4294967295"]);
    house.calls(&["1,1,0,4294967295", "3,1,1,1,0,2000000000,4294967295"]);
    house.calls(&["5,1,0,1000000,0,1", "6,0", "6,1"]);
    assert_eq!(house.call("7,1,4294967295"), (0, 4294967295, 4294967295));
    assert_eq!(house.call("9,1,4294967295"), (0, 4294967295, 4294967295));
    assert_eq!(house.call("10,0"), (0, 4294967295, 4294967295));
    assert_eq!(house.call("10,1"), (0, 4294967295, 4294967295));
    assert_eq!(house.phase(1), Phase::Closed);
}

#[test]
fn the_largest_bids() {
    // The sells' base for quote, then the buys' quote for base.
    for (side, order, bid) in
        [(1, "1,0,1,4294967295", "1,5,0,4294967295"), (0, "1,0,0,4294967295", "1,5,1,4294967295")]
    {
        let mut house = House::new();
        let limit = if side == 1 { 1 } else { 2_000_000_000 };
        house.calls(&[order, bid, &format!("3,0,0,1,{side},{limit},4294967295")]);
        house.calls(&["5,1,0,1000000,0,9", "6,0", "7,1,4"]);
        if side == 1 {
            for bound in ["4294967294", "4294966295", "4293967295", "0"] {
                house.refused(18, &format!("8,1,5,4,1,4294967295,{bound}"));
            }
        } else {
            for bound in ["4294967291", "4294968", "5294967", "4294967295"] {
                house.refused(18, &format!("8,1,5,4,0,4294967,{bound}"));
            }
        }
        let all = (0, 4294967295, 4294967295);
        assert_eq!(house.call(&format!("8,1,5,4,{side},4294967295,4294967295")), all);
        house.refused(17, &format!("8,1,5,4,{side},1,4294967295"));
        let paid = if side == 1 { (0, 0, 4294967295) } else { (0, 4294967295, 0) };
        assert_eq!(house.call("9,1,4"), paid);
        assert_eq!(house.call("10,0"), all);
        assert_eq!(house.exchange.tray(), &[0; 4]);
    }
}

#[test]
fn auctions_up_to_the_last_block() {
    // start + L is the last block, one more, and far above it.
    for length in [10, 11, 64] {
        let mut house = House::new();
        house.calls(&["1,0,1,100", "1,5,0,1000", "3,0,0,1,1,1,100"]);
        house.calls(&[&format!("5,1,4294967281,2500000,100000,{length}"), "6,0", "7,1,4294967285"]);
        house.refused(13, "9,1,4294967285");
        house.calls(&["8,1,5,4294967290,1,40,1000"]);
        house.refused(13, "9,1,4294967294");
        house.refused(13, "9,1,4294967295");
        house.calls(&["8,1,5,4294967295,1,60,1000"]);
        house.refused(12, "9,1,4294967294");
        assert_eq!(house.call("9,1,4294967295"), (0, 0, 100));
        assert_eq!(house.call("10,0").1, 100);
        assert_eq!(house.phase(1), Phase::Closed);
    }
    // start + L is the block before it.
    let mut house = House::new();
    house.calls(&["1,0,1,100", "3,0,0,1,1,1,100", "5,1,4294967281,2500000,0,9", "6,0"]);
    house.calls(&["7,1,4294967285"]);
    house.refused(13, "9,1,4294967294");
    house.refused(16, "8,1,5,4294967295,1,1,1000");
    assert_eq!(house.call("9,1,4294967295"), (0, 0, 0));
}

#[test]
fn numbers_far_outside_their_ranges() {
    let mut house = day_in_auction();
    for far in ["1000", "4294967295"] {
        for line in ["1,F,0,1", "2,F,0,1", "3,9,F,1,0,1,1", "4,0,F", "8,1,F,14,1,1,9", "11,0,F"] {
            house.refused(1, &line.replace('F', far));
        }
        house.refused(2, &format!("1,0,{far},1"));
        house.refused(2, &format!("2,0,{far},1"));
        for line in ["3,9,0,F,0,1,1", "5,F,14,1,0,1", "7,F,14", "8,F,0,14,1,1,9", "9,F,14"] {
            house.refused(3, &line.replace('F', far));
        }
        for line in ["3,F,0,1,0,1,1", "4,F,0", "6,F", "10,F", "11,F,0"] {
            house.refused(4, &line.replace('F', far));
        }
    }
    for side in ["2", "3", "1000", "4294967295"] {
        house.refused(5, &format!("3,9,0,1,{side},1,1"));
        house.refused(5, &format!("8,1,2,14,{side},1,9"));
    }
    for limit in ["0", "2000000001", "3000000000", "4294967295"] {
        house.refused(6, &format!("3,9,0,1,0,{limit},1"));
    }
}

#[test]
fn strangers_far_from_the_owner() {
    for (owner, stranger) in [(0, 15), (15, 0), (3, 8), (8, 3), (2, 10), (7, 7 ^ 8)] {
        let mut house = House::new();
        house.calls(&[&format!("1,{owner},0,9"), &format!("3,5,{owner},1,0,9,9")]);
        house.refused(8, &format!("4,5,{stranger}"));
        house.refused(8, &format!("11,5,{stranger}"));
        house.calls(&["5,1,0,1,0,1", "6,5"]);
        house.refused(8, &format!("4,5,{stranger}"));
        house.refused(8, &format!("11,5,{stranger}"));
        house.calls(&[&format!("11,5,{owner}"), &format!("4,5,{owner}")]);
    }
}

#[test]
fn limits_at_the_bounds() {
    let mut house = House::new();
    house.calls(&["1,0,0,100", "1,0,1,100", "5,1,0,1000000,100000,1"]);
    house.calls(&["3,0,0,1,0,1100000,10", "3,1,0,1,0,1099999,10"]);
    house.calls(&["3,2,0,1,1,900000,10", "3,3,0,1,1,900001,10"]);
    assert_eq!(house.call("6,0"), (0, 10, 0));
    house.refused(15, "6,1");
    assert_eq!(house.call("6,2"), (0, 10, 0));
    house.refused(15, "6,3");
}

#[test]
fn refusals_in_rising_number() {
    let mut house = House::new();
    house.refused(1, "1,16,4,0");
    house.refused(2, "1,15,4,0");
    house.refused(6, "1,15,3,0");
    house.refused(1, "2,16,4,0");
    house.refused(2, "2,15,4,0");
    house.refused(6, "2,15,3,0");
    house.refused(19, "2,15,3,1");
    house.refused(1, "3,64,16,0,2,0,0");
    house.refused(3, "3,64,15,0,2,0,0");
    house.refused(3, "3,64,15,4,2,0,0");
    house.refused(4, "3,64,15,3,2,0,0");
    house.refused(5, "3,63,15,3,2,0,0");
    house.refused(6, "3,63,15,3,1,1,0");
    house.refused(6, "3,63,15,3,1,0,1");
    house.refused(6, "3,63,15,3,1,2000000001,1");
    house.refused(19, "3,63,15,3,1,2000000000,1");
    house.calls(&["1,15,3,2", "3,63,15,3,1,1,1"]);
    house.refused(7, "3,63,15,3,1,1,2");
    house.refused(1, "4,64,16");
    house.refused(4, "4,64,15");
    house.refused(8, "4,62,15");
    house.refused(8, "4,63,14");
    house.refused(1, "11,64,16");
    house.refused(1, "11,63,16");
    house.refused(4, "11,64,15");
    house.refused(8, "11,62,15");
    house.refused(8, "11,63,14");
    house.refused(9, "11,63,15");
    house.refused(3, "5,0,0,0,0,0");
    house.refused(3, "5,4,0,0,0,0");
    house.refused(10, "5,3,0,0,0,1");
    house.refused(10, "5,3,0,1000000001,0,1");
    house.refused(10, "5,3,0,1,500001,1");
    house.refused(10, "5,3,0,1,0,0");
    house.refused(10, "5,3,0,1,0,65");
    house.refused(4, "6,64");
    house.refused(8, "6,62");
    house.refused(11, "6,63");
    house.refused(11, "7,3,0");
    house.refused(11, "9,3,0");
    house.refused(9, "10,63");
    house.calls(&["5,3,7,1,0,64", "6,63"]);
    house.refused(9, "6,63");
    house.refused(9, "4,63,15");
    house.refused(8, "4,63,14");
    house.refused(1, "11,63,16");
    house.refused(8, "11,63,14");
    house.refused(11, "10,63");
    house.refused(10, "5,3,0,1,0,65");
    house.refused(11, "5,3,0,1,0,64");
    house.refused(12, "5,2,6,1,0,64");
    house.refused(3, "7,4,0");
    house.refused(12, "7,3,6");
    house.refused(13, "7,3,10");
    house.refused(11, "9,3,0");
    house.calls(&["7,3,11"]);
    house.refused(11, "7,3,0");
    house.refused(11, "10,63");
    house.refused(1, "11,63,16");
    house.refused(8, "11,63,14");
    house.refused(9, "4,63,15");
    house.refused(11, "11,63,15");
    house.refused(1, "8,0,16,0,2,0,0");
    house.refused(3, "8,0,15,0,2,0,0");
    house.refused(3, "8,4,15,0,2,0,0");
    house.refused(5, "8,3,15,0,2,0,0");
    house.refused(6, "8,3,15,0,1,0,0");
    house.refused(11, "8,2,15,0,1,2,0");
    house.refused(12, "8,3,15,10,1,2,0");
    house.refused(16, "8,3,15,76,1,2,0");
    house.refused(17, "8,3,15,75,1,2,0");
    house.refused(18, "8,3,15,75,1,1,0");
    house.refused(19, "8,3,15,75,1,1,1");
    house.refused(3, "9,0,0");
    house.refused(12, "9,3,10");
    house.refused(13, "9,3,75");
    house.calls(&["9,3,76"]);
    house.refused(11, "9,3,76");
    house.refused(11, "8,3,15,76,1,1,1");
    house.refused(4, "10,64");
    house.refused(8, "10,62");
    house.refused(8, "11,63,14");
    house.refused(11, "11,63,15");
    assert_eq!(house.call("10,63"), (0, 0, 0));
    house.refused(9, "11,63,15");
    assert_eq!(house.phase(3), Phase::Closed);
}

/// A day on which a member enters too early and leaves.
const LEAVING: [(&str, (u8, u32, u32)); 28] = [
    ("1,0,0,1000", (0, 1000, 0)),
    ("1,1,1,300", (0, 300, 0)),
    ("3,0,0,1,0,3000000,600", (0, 600, 0)),
    ("3,1,1,1,1,2000000,300", (0, 300, 0)),
    ("3,2,0,1,0,3000000,100", (0, 100, 0)),
    ("11,0,0", (9, 0, 0)),
    ("5,1,10,2500000,100000,10", (0, 2750000, 2250000)),
    ("11,0,16", (1, 0, 0)),
    ("11,64,16", (1, 0, 0)),
    ("11,64,0", (4, 0, 0)),
    ("11,63,0", (8, 0, 0)),
    ("11,0,1", (8, 0, 0)),
    ("11,0,0", (9, 0, 0)),
    ("6,0", (0, 600, 0)),
    ("6,2", (0, 700, 0)),
    ("11,0,1", (8, 0, 0)),
    ("11,0,0", (0, 600, 0)),
    ("11,0,0", (9, 0, 0)),
    ("4,0,0", (0, 600, 0)),
    ("6,1", (0, 300, 0)),
    ("7,1,14", (0, 40, 100)),
    ("11,2,0", (11, 0, 0)),
    ("9,1,25", (0, 100, 40)),
    ("11,2,0", (11, 0, 0)),
    ("10,2", (0, 100, 40)),
    ("10,1", (0, 40, 100)),
    ("11,1,1", (9, 0, 0)),
    ("4,1,1", (0, 260, 0)),
];

#[test]
fn the_day_of_leaving() {
    let mut house = House::new();
    house.answers(&LEAVING);
    assert_eq!(house.phase(1), Phase::Closed);
    assert_eq!(*house.exchange.tray(), [0; 4]);
    assert_eq!(house.exchange.balances()[0], [900, 40, 0, 0]);
    assert_eq!(house.exchange.balances()[1], [100, 260, 0, 0]);
    assert_eq!(house.exchange.last_block(), 25);
}

#[test]
fn a_round_that_all_left() {
    let mut house = House::new();
    house.answers(&[
        ("1,0,0,5", (0, 5, 0)),
        ("3,0,0,2,0,2000000000,5", (0, 5, 0)),
        ("5,2,0,1,0,1", (0, 1, 1)),
        ("6,0", (0, 5, 0)),
        ("11,0,0", (0, 5, 0)),
        ("6,0", (0, 5, 0)),
        ("11,0,0", (0, 5, 0)),
        ("7,2,4", (0, 0, 0)),
        ("9,2,4", (0, 0, 0)),
    ]);
    assert_eq!(house.phase(2), Phase::Closed);
    assert_eq!(*house.exchange.tray(), [0; 4]);
    house.calls(&["5,2,4,1,0,1", "6,0", "7,2,8"]);
    house.refused(11, "11,0,0");
}

#[test]
fn leaving_takes_the_offer_off_its_side_alone() {
    let mut house = House::new();
    house.calls(&["1,0,0,300", "1,1,1,300", "5,1,0,1000000,0,5"]);
    house.calls(&["3,0,0,1,0,1000000,100", "3,1,0,1,0,1000000,101"]);
    house.calls(&["3,2,1,1,1,1000000,30", "3,3,1,1,1,1000000,50"]);
    house.calls(&["6,0", "6,1", "6,2", "6,3"]);
    assert_eq!(house.call("11,0,0"), (0, 100, 0));
    assert_eq!(house.exchange.markets()[0].holds, [101, 80]);
    assert_eq!(house.call("11,3,1"), (0, 50, 0));
    assert_eq!(house.exchange.markets()[0].holds, [101, 30]);
    assert_eq!(house.exchange.markets()[0].marks, 0b110);
    assert_eq!(house.call("11,2,1"), (0, 30, 0));
    assert_eq!(house.exchange.markets()[0].holds, [101, 0]);
    // In again, in another order; what a side answers is its total.
    assert_eq!(house.call("6,3"), (0, 50, 0));
    assert_eq!(house.call("6,2"), (0, 80, 0));
    assert_eq!(house.call("7,1,4"), (0, 80, 80));
    assert_eq!(house.call("9,1,10"), (0, 80, 80));
    assert_eq!(house.call("10,1"), (0, 80, 80));
    house.refused(9, "10,0");
    assert_eq!(house.call("10,2"), (0, 30, 30));
    assert_eq!(house.call("10,3"), (0, 50, 50));
    assert_eq!(house.phase(1), Phase::Closed);
}

#[test]
fn leave_looks_at_the_tickets_own_market() {
    let mut house = House::new();
    house.calls(&["1,0,0,30", "3,1,0,1,0,2000000000,10"]);
    house.calls(&["3,2,0,2,0,2000000000,10", "3,3,0,2,0,2000000000,10"]);
    house.calls(&["5,1,0,1,0,1", "6,1", "7,1,4", "5,2,4,1,0,1", "6,2", "6,3"]);
    house.refused(11, "11,1,0");
    assert_eq!(house.call("11,2,0"), (0, 10, 0));
    house.calls(&["6,2", "9,1,6"]);
    house.refused(11, "11,1,0");
    assert_eq!(house.call("11,2,0"), (0, 10, 0));
    // It moves no block.
    assert_eq!(house.exchange.last_block(), 6);
    // Resting, it is 9 in any phase.
    let after = [Phase::Auction, Phase::Paying, Phase::Closed];
    house.refused(9, "11,2,0");
    for (line, phase) in ["7,2,8", "9,2,10", "10,3"].iter().zip(after) {
        house.calls(&[line]);
        assert_eq!(house.phase(2), phase);
        house.refused(9, "11,2,0");
    }
}

#[test]
fn a_ticket_that_left_meets_the_tests_of_enter() {
    let mut house = House::new();
    house.calls(&["1,0,0,10", "1,1,1,10", "5,1,0,1000000,0,1"]);
    house.calls(&["3,0,0,1,0,1000000,10", "3,1,1,1,1,1000000,10"]);
    house.calls(&["6,0", "6,1", "11,0,0", "11,1,1", "7,1,4"]);
    house.refused(11, "6,0");
    house.refused(11, "6,1");
    house.calls(&["9,1,4", "5,1,4,1000001,0,1"]);
    house.refused(15, "6,0");
    house.calls(&["6,1", "11,1,1", "7,1,8", "9,1,8", "5,1,8,999999,0,1"]);
    house.refused(15, "6,1");
    house.calls(&["6,0", "11,0,0", "6,0"]);
    house.refused(9, "6,0");
}

#[test]
fn a_rest_leaves_with_what_is_left() {
    let mut house = day_in_auction();
    house.calls(&["9,1,25", "10,0", "10,1", "5,1,25,2000000,0,1"]);
    assert_eq!(house.call("6,1"), (0, 60, 0));
    assert_eq!(house.call("11,1,1"), (0, 60, 0));
    assert_eq!(house.call("4,1,1"), (0, 60, 0));
}

#[test]
fn the_largest_offers_leave() {
    let mut house = House::new();
    house.calls(&["1,0,1,4294967295", "3,0,0,1,1,1,4294967295"]);
    house.calls(&["1,1,0,4294967295", "3,1,1,1,0,2000000000,4294967295"]);
    house.calls(&["5,1,4294967295,1000000,0,1", "6,0", "6,1"]);
    // The round can never be matched, but it can be left.
    house.refused(13, "7,1,4294967295");
    assert_eq!(house.call("11,0,0"), (0, 4294967295, 0));
    assert_eq!(house.call("11,1,1"), (0, 4294967295, 0));
    house.calls(&["4,0,0", "4,1,1", "2,0,1,4294967295", "2,1,0,4294967295"]);
}

#[test]
fn a_leave_whose_answer_has_no_room() {
    let mut house = House::new();
    house.answers(&LEAVING[..16]);
    let before = house.exchange.clone();
    for size in 0..=10 {
        assert_eq!(house.lent(17, "11,0,0", size), (21, 0, "#".repeat(size)));
        assert_eq!(house.exchange, before);
    }
    assert_eq!(house.lent(17, "11,0,1", 8), (21, 0, "########".to_string()));
    assert_eq!(house.lent(17, "11,0,1", 9), (8, 9, "17,8,0,0\n".to_string()));
    assert_eq!(house.lent(17, "11,0", 10), (20, 10, "17,20,0,0\n".to_string()));
    assert_eq!(house.exchange, before);
    assert_eq!(house.exchange.tickets()[0].place, Place::Round);
    assert_eq!(house.lent(17, "11,0,0", 12), (0, 11, "17,0,600,0\n#".to_string()));
    assert_eq!(house.exchange.tickets()[0].place, Place::Resting);
    assert_eq!(house.lent(18, "6,0", 11), (0, 11, "18,0,700,0\n".to_string()));
    assert_eq!(house.exchange, before);
    let long = (0, 11, "17,0,600,0\n".to_string() + &"#".repeat(89));
    assert_eq!(house.lent(17, "11,0,0", 100), long);
}

const ACCEPTED: Answer = Answer { code: 0, first: 0, second: 0 };
const REFUSED: Answer = Answer { code: 22, first: 0, second: 0 };

/// Places for answers, each with numbers of its own.
fn places_before(places: usize) -> Vec<Answer> {
    (0..places as u32).map(|first| Answer { code: 0, first, second: u32::MAX }).collect()
}

fn order([ticket, member, market, side, limit, amount]: [u32; 6]) -> Order {
    Order { ticket, member, market, side, limit, amount }
}

/// Orders and their answers. Member 0 has 10 quote, member 1 has 5 of token 1.
const MORNING: [([u32; 6], (u8, u32, u32)); 9] = [
    ([0, 0, 1, 0, 3000000, 4], (0, 4, 0)),
    ([0, 1, 1, 1, 1, 2], (7, 0, 0)),
    ([1, 1, 1, 1, 1, 5], (0, 5, 0)),
    ([2, 1, 1, 1, 1, 1], (19, 0, 0)),
    ([64, 16, 0, 2, 0, 0], (1, 0, 0)),
    ([64, 0, 4, 2, 0, 0], (3, 0, 0)),
    ([3, 0, 1, 0, 2000000001, 1], (6, 0, 0)),
    ([3, 0, 1, 0, 2000000000, 6], (0, 6, 0)),
    ([4, 0, 1, 0, 1, 1], (19, 0, 0)),
];

fn morning_house() -> House {
    let mut house = House::new();
    house.calls(&["1,0,0,10", "1,1,1,5"]);
    house
}

#[test]
fn the_orders_of_a_morning() {
    let orders = MORNING.map(|(fields, _)| order(fields));
    let answers = MORNING.map(|(_, (code, first, second))| Answer { code, first, second });
    let mut house = morning_house();
    assert_eq!(house.list(&orders, 9), (ACCEPTED, answers.to_vec()));
    assert_eq!(*house.exchange.balances(), [[0; 4]; 16]);
    assert_eq!(house.exchange.tickets()[3].offer, 6);
    assert_eq!(house.exchange.tickets()[4].place, Place::Free);

    // Singly, and cut in two at every place.
    let mut singly = morning_house();
    for (fields, answer) in MORNING {
        let [ticket, member, market, side, limit, amount] = fields;
        let line = format!("3,{ticket},{member},{market},{side},{limit},{amount}");
        assert_eq!(singly.call(&line), answer, "{line}");
    }
    assert_eq!(singly.exchange, house.exchange);
    for cut in 0..=9 {
        let mut parted = morning_house();
        assert_eq!(parted.list(&orders[..cut], cut), (ACCEPTED, answers[..cut].to_vec()));
        assert_eq!(parted.list(&orders[cut..], 9 - cut), (ACCEPTED, answers[cut..].to_vec()));
        assert_eq!(parted.exchange, house.exchange);
    }
}

#[test]
fn a_list_whose_orders_are_all_refused_is_accepted() {
    let mut house = morning_house();
    let before = house.exchange.clone();
    let orders = [order([0, 2, 1, 0, 1, 1]), order([63, 15, 3, 1, 0, 1])];
    let refused = [19, 6].map(Answer::refused).to_vec();
    assert_eq!(house.list(&orders, 2), (ACCEPTED, refused));
    assert_eq!(house.exchange, before);
}

/// One unit each for the tickets from 0 on, of member 0.
fn units(count: u32) -> Vec<Order> {
    (0..count).map(|ticket| order([ticket, 0, 1, 0, 1, 1])).collect()
}

#[test]
fn lists_of_every_length() {
    let mut house = House::new();
    house.calls(&["1,0,0,64"]);
    let before = house.exchange.clone();
    assert_eq!(house.list(&[], 0), (ACCEPTED, vec![]));
    assert_eq!(house.exchange, before);
    for orders in 0..=67 {
        for places in 0..=67 {
            let mut house = House { exchange: before.clone() };
            let told = house.list(&units(orders), places);
            if orders as usize == places && places <= 64 {
                let unit = Answer { code: 0, first: 1, second: 0 };
                assert_eq!(told, (ACCEPTED, vec![unit; places]));
                assert_eq!(house.exchange.balances()[0][0], 64 - u64::from(orders));
            } else {
                assert_eq!(told, (REFUSED, places_before(places)), "{orders} {places}");
                assert_eq!(house.exchange, before);
            }
        }
    }
}

#[test]
fn a_list_for_every_ticket() {
    let mut house = House::new();
    house.calls(&["1,0,0,64"]);
    for (orders, places) in [(65, 65), (64, 65), (65, 64), (1, 0), (0, 1), (64, 63), (300, 300)] {
        assert_eq!(house.list(&units(orders), places), (REFUSED, places_before(places)));
    }
    let unit = Answer { code: 0, first: 1, second: 0 };
    assert_eq!(house.list(&units(64), 64), (ACCEPTED, vec![unit; 64]));
    assert_eq!(house.exchange.balances()[0], [0; 4]);
    assert!(house.exchange.tickets().iter().all(|held| held.offer == 1));
    assert_eq!(house.list(&units(64), 64), (ACCEPTED, vec![Answer::refused(7); 64]));
}

#[test]
fn the_largest_order_of_a_list() {
    let mut house = House::new();
    house.calls(&["1,15,3,4294967295"]);
    let most = order([63, 15, 3, 1, 2000000000, u32::MAX]);
    let one = Order { ticket: 62, amount: 1, ..most };
    let nothing = order([u32::MAX; 6]);
    let answers = [Answer { code: 0, first: u32::MAX, second: 0 }]
        .into_iter()
        .chain([19, 7, 1].map(Answer::refused))
        .collect();
    assert_eq!(house.list(&[most, one, most, nothing], 4), (ACCEPTED, answers));
}

#[test]
fn a_list_while_rounds_go_on() {
    let mut house = day_in_auction();
    house.calls(&["1,2,1,1", "5,2,14,1000000,0,1"]);
    // Tickets 0 and 1 are in the round of market 1.
    let orders = [
        order([0, 2, 1, 0, 1, 1]),
        order([1, 2, 2, 0, 1, 1]),
        order([2, 2, 1, 1, 1, 1]),
        order([3, 2, 2, 0, 1000000, 500]),
        order([4, 0, 1, 0, 1, 401]),
    ];
    let answers = [(7, 0), (7, 0), (0, 1), (0, 500), (19, 0)];
    let answers = answers.map(|(code, first)| Answer { code, first, second: 0 }).to_vec();
    assert_eq!(house.list(&orders, 5), (ACCEPTED, answers));
    assert_eq!(house.exchange.last_block(), 14);
    house.refused(11, "6,2");
    assert_eq!(house.call("6,3"), (0, 500, 0));
    house.calls(&["4,2,2", "9,1,25", "10,1", "10,0"]);
}

/// A house whose first members have a few units of each token.
fn poor_house(chance: &mut Chance) -> House {
    let mut house = House::new();
    for member in [0, 1, 14, 15] {
        for token in 0..4 {
            let amount = chance.below(12);
            if amount > 0 {
                house.calls(&[&format!("1,{member},{token},{amount}")]);
            }
        }
    }
    house
}

/// An order of numbers that are often right.
fn drawn_order(chance: &mut Chance) -> Order {
    let ticket = match chance.below(12) {
        0 => chance.pick(&[64, 65, u32::MAX]),
        1 | 2 => chance.pick(&[0, 1, 62, 63]),
        _ => chance.below(64) as u32,
    };
    let member = chance.pick(&[0, 0, 1, 1, 14, 15, 15, 16]);
    let market = chance.pick(&[0, 1, 1, 2, 2, 3, 3, 3, 3, 4]);
    let side = chance.pick(&[0, 0, 0, 0, 1, 1, 1, 1, 1, 2]);
    let limit = chance.pick(&[0, 1, 2, 3000000, 3000000, 1999999999, 2000000000, 2000000001]);
    let amount = chance.pick(&[0, 1, 1, 1, 1, 2, 2, 3, 4, u32::MAX]);
    Order { ticket, member, market, side, limit, amount }
}

#[test]
fn drawn_lists_do_what_their_orders_do_singly() {
    let mut chance = Chance::new(1);
    let mut met = [0; 20];
    for _ in 0..3_000 {
        let mut house = poor_house(&mut chance);
        let mut singly = House { exchange: house.exchange.clone() };
        let mut parted = House { exchange: house.exchange.clone() };
        for _ in 0..3 {
            let count = chance.pick(&[0, 1, 2, 5, 20, 63, 64]);
            let orders: Vec<Order> = (0..count).map(|_| drawn_order(&mut chance)).collect();
            let answers: Vec<Answer> =
                orders.iter().map(|order| singly.exchange.call(order.call())).collect();
            for answer in &answers {
                met[usize::from(answer.code)] += 1;
            }
            let cut = chance.below(count as u64 + 1) as usize;
            let (first, second) = orders.split_at(cut);
            assert_eq!(parted.list(first, cut), (ACCEPTED, answers[..cut].to_vec()));
            assert_eq!(parted.list(second, count - cut), (ACCEPTED, answers[cut..].to_vec()));
            assert_eq!(house.list(&orders, count), (ACCEPTED, answers));
            assert_eq!(house.exchange, singly.exchange);
            assert_eq!(parted.exchange, singly.exchange);
            // Refused, it does nothing.
            let other = [count + 1, count.saturating_sub(1)][chance.below(2) as usize];
            if other != count {
                assert_eq!(house.list(&orders, other), (REFUSED, places_before(other)));
                assert_eq!(house.exchange, singly.exchange);
            }
        }
    }
    assert!([0, 1, 3, 4, 5, 6, 7, 19].iter().all(|&code| met[code] > 1_000), "{met:?}");
}
