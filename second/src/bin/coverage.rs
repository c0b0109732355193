//! Reads call lines from standard input, works them and prints how often
//! each kind of call met each code (kind 0 for lines that are no call), the
//! pairs that can occur but didn't, and how often certain borders were met.
//! After each call it checks the books. Where they are wrong, or a kind met a
//! code that it cannot meet, it ends with status 1 after the counts and says
//! why on standard error.

use second::engine::{bid_quote, MARKETS, MILLION, MOST, STEP, TICKETS};
use second::lines::{CODES, FIELDS, KINDS, LINE_MOST, NO_CALL};
use second::{books, read_call, Answer, Call, Exchange, Market, Phase, Place};
use std::collections::BTreeMap;
use std::io::{self, BufRead, BufReader, Write};
use std::process::ExitCode;

/// Every border that is counted, so that those not met show as 0.
const BORDERS: &[&str] = &[
    "line: empty",
    "line: 79 bytes",
    "line: 80 bytes",
    "line: 81 bytes",
    "line: 82 bytes",
    "line: 200 bytes",
    "line: 100000 bytes",
    "line: above 81 bytes",
    "line: above 4096 bytes",
    "line: NUL",
    "line: CR at its end",
    "line: letter",
    "line: space",
    "line: plus before a number",
    "line: minus before a number",
    "line: leading zero",
    "line: empty field",
    "line: comma at its start",
    "line: comma at its end",
    "line: value 4294967296",
    "line: value of more than ten digits",
    "line: too few fields",
    "line: too many fields",
    "line: kind 0",
    "line: kind 11 with one field",
    "line: kind 11 with three fields",
    "line: kind 12",
    "line: kind 4294967295",
    "line: last without byte 10",
    "line: call followed by a bad byte",
    "line: call with value 4294967295",
    "member 0 taken",
    "member 15 taken",
    "member 16 refused",
    "token 3 taken",
    "token 4 refused",
    "market 0 refused",
    "market 3 taken",
    "market 4 refused",
    "ticket 0 taken",
    "ticket 63 taken",
    "ticket 64 refused",
    "side 2 refused",
    "limit 1 taken",
    "limit 2000000000 taken",
    "limit 2000000001 refused",
    "deposit: supply to the most",
    "deposit: one above the most",
    "withdraw: balance met",
    "withdraw: balance missed by 1",
    "order: balance met",
    "order: balance missed by 1",
    "order: all 64 tickets in use after",
    "cancel: of a rest",
    "cancel: another's ticket in a round",
    "cancel: after a leave",
    "open: r 1",
    "open: r 1000000000",
    "open: r 1000000001 refused",
    "open: w 0",
    "open: w 500000",
    "open: w 500001 refused",
    "open: L 1",
    "open: L 64",
    "open: L 65 refused",
    "open: block as the last",
    "open: last block minus 1 refused",
    "open: last possible block",
    "enter: buy limit at hi",
    "enter: buy limit at hi - 1 refused",
    "enter: sell limit at lo",
    "enter: sell limit at lo + 1 refused",
    "enter: a rest of an earlier round",
    "enter: side total above 4000000000",
    "enter: after a leave, the same round",
    "enter: after a leave, a later round",
    "enter: after a leave, limit refused",
    "enter: after a leave, its round went on",
    "match: 4 blocks after open",
    "match: 3 blocks after open refused",
    "match: dropped",
    "match: dropped, lower rounding 0",
    "match: dropped, lo just missed",
    "match: dropped, lo as hi",
    "match: both roundings break",
    "match: lower rounding kept",
    "match: lower rounding kept, lo just met",
    "match: lower rounding kept, hi just broken",
    "match: lower rounding kept, some base left",
    "match: lower rounding kept, base above 1000",
    "match: lower rounding kept, limits at hi and lo",
    "match: c rounded up just hi",
    "match: three or more tickets each side",
    "match: above 2000000000",
    "match: after the last ticket left",
    "match: above 0, some left and others stayed",
    "bid: side 0",
    "bid: side 1",
    "bid: k 0",
    "bid: k L",
    "bid: k L + 1 refused",
    "bid: k between",
    "bid: side 0 bound met",
    "bid: side 0 bound missed by 1",
    "bid: side 1 bound met",
    "bid: side 1 bound missed by 1",
    "bid: side 0 balance met",
    "bid: side 0 balance missed by 1",
    "bid: side 1 balance met",
    "bid: side 1 balance missed by 1",
    "bid: side 0 all quote left",
    "bid: side 0 one more than left refused",
    "bid: side 0 quote 0 refused",
    "bid: side 1 all base left",
    "bid: side 1 one more than left refused",
    "bid: side 1 cost above the most refused",
    "bid: maker owns a ticket in the round",
    "bid: both sides in one round",
    "bid: after a lower rounding",
    "bid: side 0 price stepped by 1",
    "bid: side 1 price stepped by 1",
    "bid: side 0 price stepped by 99",
    "bid: side 1 price stepped by 99",
    "bid: side 0 price stepped by nothing, k between",
    "bid: side 1 price stepped by nothing, k between",
    "bid: side 0 price stepped to just lo",
    "bid: side 1 price stepped to just hi",
    "bid: side 0 price floored at lo",
    "bid: side 1 price capped at hi",
    "bid: side 0 price stands still",
    "bid: side 1 price stands still",
    "bid: side 0 price off the hundred, lo as hi",
    "bid: side 1 price off the hundred, lo as hi",
    "bid: side 0 price ends at hi",
    "bid: side 1 price ends at lo",
    "bid: side 0 price ends below hi",
    "bid: side 1 price ends above lo",
    "bid: side 0 price ends 99 below hi",
    "bid: side 1 price ends 99 above lo",
    "bid: side 0 price below 100",
    "bid: side 1 price below 100",
    "bid: side 0 price above 100000000, stepped",
    "bid: side 1 price above 100000000, stepped",
    "bid: side 0 quote moved by the step",
    "bid: side 1 quote moved by the step",
    "bid: side 0 quote not moved by the step",
    "bid: side 1 quote not moved by the step",
    "bid: side 0 bound met, quote moved by the step",
    "bid: side 1 bound met, quote moved by the step",
    "bid: side 0 bound missed only by the step",
    "bid: side 1 bound missed only by the step",
    "bid: side 0 bound at the quote without the step refused",
    "bid: side 1 bound at the quote without the step refused",
    "bid: side 0 quote 0 only by the step",
    "bid: side 0 quote left met only by the step",
    "bid: side 1 balance missed only by the step",
    "settle: k L with some left refused",
    "settle: k L + 1 with some left",
    "settle: nothing left before the end",
    "settle: no tickets",
    "settle: after the last ticket left",
    "claim: nothing sold",
    "claim: part sold",
    "claim: all sold",
    "claim: pays and gets nothing",
    "claim: above 2000000000",
    "claim: some left and others stayed",
    "claim: last of its round",
    "claim: last, quote to the tray",
    "claim: last, base to the tray",
    "claim: last, after a lower rounding",
    "leave: side 0",
    "leave: side 1",
    "leave: others stay on the side",
    "leave: last of its side, others stay on the other",
    "leave: last of its round",
    "leave: a rest of an earlier round",
    "leave: above 2000000000",
    "leave: market 1",
    "leave: market 2",
    "leave: market 3",
    "leave: ticket 0",
    "leave: ticket 63",
    "leave: member 0",
    "leave: member 15",
    "leave: a second time, the same round",
    "leave: a round that can never be matched",
    "leave: another market in auction",
    "leave: another market in paying",
    "leave: member and ticket out of range",
    "leave: a free ticket",
    "leave: another's resting ticket",
    "leave: another's ticket in a round",
    "leave: another's ticket in auction",
    "leave: another's ticket in paying",
    "leave: again refused",
    "leave: resting, market closed",
    "leave: resting, market in auction",
    "leave: resting, market in paying",
    "leave: in auction refused",
    "leave: in paying refused",
    "leave: refused while another market collects",
];

struct Counts {
    borders: BTreeMap<&'static str, u64>,
    /// One bit for each ticket that holds the rest of an earlier round.
    rests: u64,
    /// By market, the sides that makers took in this round.
    bids: [[bool; 2]; MARKETS],
    /// By market, whether the match of this round kept the lower rounding.
    lowered: [bool; MARKETS],
    /// Rounds begun so far, and by market the number of its round.
    rounds: u64,
    round_of: [u64; MARKETS],
    /// The round that each resting ticket left; 0 if none.
    left: [u64; TICKETS],
    /// By market, one bit for each ticket that left its round; from the match
    /// on, for those that stayed away.
    leavers: [u64; MARKETS],
}

impl Counts {
    fn new() -> Counts {
        Counts {
            borders: BTreeMap::new(),
            rests: 0,
            bids: [[false; 2]; MARKETS],
            lowered: [false; MARKETS],
            rounds: 0,
            round_of: [0; MARKETS],
            left: [0; TICKETS],
            leavers: [0; MARKETS],
        }
    }

    fn add_if(&mut self, holds: bool, name: &'static str) {
        if holds {
            *self.borders.entry(name).or_insert(0) += 1;
        }
    }

    /// The same for borders that each side has, under the side's names.
    fn add_sides(&mut self, side: u32, borders: &[(bool, [&'static str; 2])]) {
        for (holds, names) in borders {
            self.add_if(*holds, names[side as usize]);
        }
    }

    fn line(&mut self, line: &[u8], call: Option<Call>, ended: bool) {
        self.add_if(!ended, "line: last without byte 10");
        let fields: Vec<&[u8]> = line.split(|&byte| byte == b',').collect();
        if call.is_some() {
            let most = fields.contains(&&b"4294967295"[..]);
            self.add_if(most, "line: call with value 4294967295");
            return;
        }
        self.add_if(line.is_empty(), "line: empty");
        self.add_if(line.len() == 79, "line: 79 bytes");
        self.add_if(line.len() == 80, "line: 80 bytes");
        self.add_if(line.len() == 81, "line: 81 bytes");
        self.add_if(line.len() == 82, "line: 82 bytes");
        self.add_if(line.len() == 200, "line: 200 bytes");
        self.add_if(line.len() == 100_000, "line: 100000 bytes");
        self.add_if(line.len() > 81, "line: above 81 bytes");
        self.add_if(line.len() > 4096, "line: above 4096 bytes");
        self.add_if(line.contains(&0), "line: NUL");
        self.add_if(line.last() == Some(&b'\r'), "line: CR at its end");
        if let [before @ .., last] = line {
            let bad = !last.is_ascii_digit() && *last != b',';
            self.add_if(bad && read_call(before).is_some(), "line: call followed by a bad byte");
        }
        self.add_if(line.iter().any(u8::is_ascii_alphabetic), "line: letter");
        self.add_if(line.contains(&b' '), "line: space");
        self.add_if(signed(&fields, b'+'), "line: plus before a number");
        self.add_if(signed(&fields, b'-'), "line: minus before a number");
        // The others are counted where nothing else but form is wrong.
        let plain = line.iter().all(|&byte| byte == b',' || byte.is_ascii_digit());
        if !plain || line.is_empty() || line.len() > LINE_MOST {
            return;
        }
        let zero = fields.iter().any(|field| field.len() > 1 && field[0] == b'0');
        self.add_if(zero, "line: leading zero");
        self.add_if(fields.contains(&&b""[..]), "line: empty field");
        self.add_if(line.starts_with(b","), "line: comma at its start");
        self.add_if(line.ends_with(b","), "line: comma at its end");
        self.add_if(fields.contains(&&b"4294967296"[..]), "line: value 4294967296");
        let digits = fields.iter().any(|field| field.len() > 10);
        self.add_if(digits, "line: value of more than ten digits");
        self.add_if(fields[0] == b"0", "line: kind 0");
        self.add_if(fields[0] == b"12", "line: kind 12");
        self.add_if(fields[0] == b"4294967295", "line: kind 4294967295");
        let kind = (1..=KINDS).find(|kind: &usize| fields[0] == kind.to_string().as_bytes());
        if let Some(kind) = kind {
            let count = fields.len() - 1;
            self.add_if(count < FIELDS[kind], "line: too few fields");
            self.add_if(count > FIELDS[kind], "line: too many fields");
            self.add_if(kind == 11 && count == 1, "line: kind 11 with one field");
            self.add_if(kind == 11 && count == 3, "line: kind 11 with three fields");
        }
    }

    fn member(&mut self, member: u32, code: u8) {
        self.add_if(code == 0 && member == 0, "member 0 taken");
        self.add_if(code == 0 && member == 15, "member 15 taken");
        self.add_if(code == 1 && member == 16, "member 16 refused");
    }

    fn market(&mut self, market: u32, code: u8) {
        self.add_if(code == 3 && market == 0, "market 0 refused");
        self.add_if(code == 0 && market == 3, "market 3 taken");
        self.add_if(code == 3 && market == 4, "market 4 refused");
    }

    fn ticket(&mut self, ticket: u32, code: u8) {
        self.add_if(code == 0 && ticket == 0, "ticket 0 taken");
        self.add_if(code == 0 && ticket == 63, "ticket 63 taken");
        self.add_if(code == 4 && ticket == 64, "ticket 64 refused");
    }

    /// How an accepted match rounded, from the round before it: whether it kept
    /// the lower rounding.
    fn rounding(&mut self, round: &Market, answer: Answer) -> bool {
        let [buys, sells] = round.halves;
        let base = sells.total.min(buys.total * MILLION / round.reference);
        let dropped = base > 0 && answer.first == 0;
        self.add_if(dropped, "match: dropped");
        // In millionths of quote: what the base comes to at the reference, the
        // whole quotes below and above it, and the bounds.
        let worth = base * round.reference;
        let down = worth / MILLION * MILLION;
        let up = down + MILLION;
        let [hi, lo] = [round.hi, round.lo].map(|price| price * base);
        let exact = worth == down;
        self.add_if(!exact && up == hi, "match: c rounded up just hi");
        if exact || up <= hi {
            return false;
        }
        if dropped {
            self.add_if(down == 0, "match: dropped, lower rounding 0");
            self.add_if(down > 0, "match: both roundings break");
            self.add_if(down > 0 && down + base >= lo, "match: dropped, lo just missed");
            self.add_if(lo == hi, "match: dropped, lo as hi");
            return false;
        }
        self.add_if(true, "match: lower rounding kept");
        self.add_if(down == lo, "match: lower rounding kept, lo just met");
        self.add_if(up <= hi + base, "match: lower rounding kept, hi just broken");
        self.add_if(base < sells.total, "match: lower rounding kept, some base left");
        self.add_if(base > 1_000, "match: lower rounding kept, base above 1000");
        true
    }

    /// How the price of an accepted bid was stepped.
    fn price(&mut self, round: &Market, side: u32, k: u32) {
        let Market { hi, lo, length, .. } = *round;
        let price = round.price(side, k);
        let step = price.abs_diff(round.unstepped_price(side, k));
        let (first, last) = if side == 1 { (hi, lo) } else { (lo, hi) };
        let to_first = step > 0 && price == first;
        let hundred = price % STEP == 0;
        let between = k > 0 && k < length;
        let moves = lo < hi;
        let ends = moves && k == length;
        let borders = [
            (step == 1, ["bid: side 0 price stepped by 1", "bid: side 1 price stepped by 1"]),
            (step == 99, ["bid: side 0 price stepped by 99", "bid: side 1 price stepped by 99"]),
            (
                moves && between && step == 0 && hundred,
                [
                    "bid: side 0 price stepped by nothing, k between",
                    "bid: side 1 price stepped by nothing, k between",
                ],
            ),
            (
                to_first && hundred,
                ["bid: side 0 price stepped to just lo", "bid: side 1 price stepped to just hi"],
            ),
            (
                to_first && !hundred,
                ["bid: side 0 price floored at lo", "bid: side 1 price capped at hi"],
            ),
            (
                moves && k > 0 && lo.next_multiple_of(STEP) > hi,
                ["bid: side 0 price stands still", "bid: side 1 price stands still"],
            ),
            (
                !moves && k > 0 && !hundred,
                [
                    "bid: side 0 price off the hundred, lo as hi",
                    "bid: side 1 price off the hundred, lo as hi",
                ],
            ),
            (
                ends && price == last,
                ["bid: side 0 price ends at hi", "bid: side 1 price ends at lo"],
            ),
            (
                ends && price != last,
                ["bid: side 0 price ends below hi", "bid: side 1 price ends above lo"],
            ),
            (
                ends && price.abs_diff(last) == 99,
                ["bid: side 0 price ends 99 below hi", "bid: side 1 price ends 99 above lo"],
            ),
            (price < STEP, ["bid: side 0 price below 100", "bid: side 1 price below 100"]),
            (
                step > 0 && price > 100_000_000,
                [
                    "bid: side 0 price above 100000000, stepped",
                    "bid: side 1 price above 100000000, stepped",
                ],
            ),
        ];
        self.add_sides(side, &borders);
    }

    /// What the step of its price did to a bid at a block of the auction.
    fn stepped(&mut self, was: &Exchange, bid: Call, code: u8) {
        let Call::Bid { market, member, block, side, base, bound } = bid else { return };
        let round = was.markets()[market as usize - 1];
        let k = block - round.start;
        let prices = [round.price(side, k), round.unstepped_price(side, k)];
        let [quote, unstepped] = prices.map(|price| bid_quote(side, base, price));
        let left = round.halves[side as usize].left();
        let [base, bound] = [base, bound].map(u64::from);
        let balances = was.balances()[member as usize];
        // Whether it would be taken if prices had no steps.
        let fits = if side == 1 {
            base <= left && unstepped <= bound.min(balances[0])
        } else {
            (bound.max(1)..=left).contains(&unstepped) && base <= balances[market as usize]
        };
        let taken = code == 0;
        if side == 0 {
            self.add_if(fits && code == 17, "bid: side 0 quote 0 only by the step");
            self.add_if(!fits && taken, "bid: side 0 quote left met only by the step");
        } else {
            self.add_if(fits && code == 19, "bid: side 1 balance missed only by the step");
        }
        let moved = taken && quote != unstepped;
        let borders = [
            (moved, ["bid: side 0 quote moved by the step", "bid: side 1 quote moved by the step"]),
            (
                taken && !moved && prices[0] != prices[1],
                [
                    "bid: side 0 quote not moved by the step",
                    "bid: side 1 quote not moved by the step",
                ],
            ),
            (
                moved && bound == quote,
                [
                    "bid: side 0 bound met, quote moved by the step",
                    "bid: side 1 bound met, quote moved by the step",
                ],
            ),
            (
                fits && code == 18,
                [
                    "bid: side 0 bound missed only by the step",
                    "bid: side 1 bound missed only by the step",
                ],
            ),
            (
                code == 18 && bound == unstepped,
                [
                    "bid: side 0 bound at the quote without the step refused",
                    "bid: side 1 bound at the quote without the step refused",
                ],
            ),
        ];
        self.add_sides(side, &borders);
    }

    /// Looks at a call, its answer, and the exchange before and after it.
    fn call(&mut self, was: &Exchange, is: &Exchange, call: Call, answer: Answer) {
        let code = answer.code;
        let taken = code == 0;
        let last = u64::from(was.last_block());
        match call {
            Call::Deposit { member, token, amount } => {
                self.member(member, code);
                self.add_if(taken && token == 3, "token 3 taken");
                self.add_if(code == 2 && token == 4, "token 4 refused");
                if taken || code == 14 {
                    let sum = was.supply()[token as usize] + u64::from(amount);
                    self.add_if(sum == MOST, "deposit: supply to the most");
                    self.add_if(sum == MOST + 1, "deposit: one above the most");
                }
            }
            Call::Withdraw { member, token, amount } => {
                self.member(member, code);
                self.add_if(taken && token == 3, "token 3 taken");
                self.add_if(code == 2 && token == 4, "token 4 refused");
                if taken || code == 19 {
                    let balance = was.balances()[member as usize][token as usize];
                    let amount = u64::from(amount);
                    self.add_if(amount == balance, "withdraw: balance met");
                    self.add_if(amount == balance + 1, "withdraw: balance missed by 1");
                }
            }
            Call::Order { ticket, member, market, side, limit, amount } => {
                self.member(member, code);
                self.market(market, code);
                self.ticket(ticket, code);
                self.add_if(code == 5 && side == 2, "side 2 refused");
                self.add_if(taken && limit == 1, "limit 1 taken");
                self.add_if(taken && limit == 2_000_000_000, "limit 2000000000 taken");
                let high = code == 6 && amount > 0 && limit == 2_000_000_001;
                self.add_if(high, "limit 2000000001 refused");
                if taken || code == 19 {
                    let token = if side == 0 { 0 } else { market as usize };
                    let balance = was.balances()[member as usize][token];
                    let amount = u64::from(amount);
                    self.add_if(amount == balance, "order: balance met");
                    self.add_if(amount == balance + 1, "order: balance missed by 1");
                }
                if taken {
                    self.rests &= !(1 << ticket);
                    let full = is.tickets().iter().all(|t| t.place != Place::Free);
                    self.add_if(full, "order: all 64 tickets in use after");
                }
            }
            Call::Cancel { ticket, member } => {
                self.member(member, code);
                self.ticket(ticket, code);
                if taken {
                    self.add_if(self.rests >> ticket & 1 == 1, "cancel: of a rest");
                    self.add_if(self.left[ticket as usize] > 0, "cancel: after a leave");
                    self.left[ticket as usize] = 0;
                }
                if code == 8 {
                    let in_round = was.tickets()[ticket as usize].place == Place::Round;
                    self.add_if(in_round, "cancel: another's ticket in a round");
                }
            }
            Call::Open { market, block, reference, slack, length } => {
                self.market(market, code);
                self.add_if(taken && reference == 1, "open: r 1");
                self.add_if(taken && reference == 1_000_000_000, "open: r 1000000000");
                let refused = code == 10;
                self.add_if(refused && reference == 1_000_000_001, "open: r 1000000001 refused");
                self.add_if(taken && slack == 0, "open: w 0");
                self.add_if(taken && slack == 500_000, "open: w 500000");
                self.add_if(refused && slack == 500_001, "open: w 500001 refused");
                self.add_if(taken && length == 1, "open: L 1");
                self.add_if(taken && length == 64, "open: L 64");
                self.add_if(refused && length == 65, "open: L 65 refused");
                let block = u64::from(block);
                self.add_if(taken && block == last, "open: block as the last");
                let early = code == 12 && block + 1 == last;
                self.add_if(early, "open: last block minus 1 refused");
                self.add_if(taken && block == MOST, "open: last possible block");
                if taken {
                    let place = market as usize - 1;
                    self.bids[place] = [false; 2];
                    self.rounds += 1;
                    self.round_of[place] = self.rounds;
                    self.leavers[place] = 0;
                }
            }
            Call::Enter { ticket } => {
                self.ticket(ticket, code);
                if code == 11 {
                    let place = was.tickets()[ticket as usize].market as usize - 1;
                    let left = self.left[ticket as usize] == self.round_of[place];
                    let on = left && was.markets()[place].phase != Phase::Closed;
                    self.add_if(on, "enter: after a leave, its round went on");
                }
                if taken || code == 15 {
                    let held = was.tickets()[ticket as usize];
                    let round = was.markets()[held.market as usize - 1];
                    let limit = u64::from(held.limit);
                    if held.side == 0 {
                        self.add_if(limit == round.hi, "enter: buy limit at hi");
                        self.add_if(limit + 1 == round.hi, "enter: buy limit at hi - 1 refused");
                    } else {
                        self.add_if(limit == round.lo, "enter: sell limit at lo");
                        self.add_if(limit == round.lo + 1, "enter: sell limit at lo + 1 refused");
                    }
                    let place = held.market as usize - 1;
                    let left = self.left[ticket as usize];
                    let same = left == self.round_of[place];
                    self.add_if(taken && same, "enter: after a leave, the same round");
                    let later = left > 0 && !same;
                    self.add_if(taken && later, "enter: after a leave, a later round");
                    self.add_if(later && code == 15, "enter: after a leave, limit refused");
                    if taken {
                        self.left[ticket as usize] = 0;
                    }
                }
                if taken {
                    let rest = self.rests >> ticket & 1 == 1;
                    self.add_if(rest, "enter: a rest of an earlier round");
                    self.add_if(answer.first > 4_000_000_000, "enter: side total above 4000000000");
                }
            }
            Call::Match { market, block } => {
                self.market(market, code);
                if taken || code == 13 {
                    let round = was.markets()[market as usize - 1];
                    let since = block - round.opened;
                    self.add_if(since == 4, "match: 4 blocks after open");
                    self.add_if(since == 3, "match: 3 blocks after open refused");
                    if taken {
                        let mut tickets = [0; 2];
                        let mut at_bound = [false; 2];
                        for (place, held) in was.tickets().iter().enumerate() {
                            if round.marks >> place & 1 == 1 {
                                let side = held.side as usize;
                                tickets[side] += 1;
                                at_bound[side] |=
                                    u64::from(held.limit) == [round.hi, round.lo][side];
                            }
                        }
                        let lowered = self.rounding(&round, answer);
                        self.lowered[market as usize - 1] = lowered;
                        let tight = lowered && at_bound == [true; 2];
                        self.add_if(tight, "match: lower rounding kept, limits at hi and lo");
                        let many = tickets[0] >= 3 && tickets[1] >= 3;
                        self.add_if(many, "match: three or more tickets each side");
                        let large = answer.first > 2_000_000_000 && answer.second > 2_000_000_000;
                        self.add_if(large, "match: above 2000000000");
                        let leavers = &mut self.leavers[market as usize - 1];
                        *leavers &= !round.marks;
                        let left = *leavers > 0;
                        let emptied = left && round.marks == 0;
                        self.add_if(emptied, "match: after the last ticket left");
                        let stayed = left && answer.first > 0;
                        self.add_if(stayed, "match: above 0, some left and others stayed");
                    }
                }
            }
            Call::Bid { market, member, block, side, base, bound } => {
                self.member(member, code);
                self.market(market, code);
                self.add_if(code == 5 && side == 2, "side 2 refused");
                if !taken && code < 16 {
                    return;
                }
                let round = was.markets()[market as usize - 1];
                let k = block - round.start;
                self.add_if(code == 16 && k == round.length + 1, "bid: k L + 1 refused");
                if code == 16 {
                    return;
                }
                self.stepped(was, call, code);
                let quote = bid_quote(side, base, round.price(side, k));
                let left = round.halves[side as usize].left();
                let base = u64::from(base);
                let bound = u64::from(bound);
                let balances = was.balances()[member as usize];
                if side == 0 {
                    let met = quote == bound && taken;
                    self.add_if(met, "bid: side 0 bound met");
                    let missed = quote + 1 == bound && code == 18;
                    self.add_if(missed, "bid: side 0 bound missed by 1");
                    let balance = balances[market as usize];
                    self.add_if(taken && balance == base, "bid: side 0 balance met");
                    let missed = code == 19 && balance + 1 == base;
                    self.add_if(missed, "bid: side 0 balance missed by 1");
                    self.add_if(taken && quote == left, "bid: side 0 all quote left");
                    let above = code == 17 && quote == left + 1;
                    self.add_if(above, "bid: side 0 one more than left refused");
                    self.add_if(code == 17 && quote == 0, "bid: side 0 quote 0 refused");
                } else {
                    let met = quote == bound && taken;
                    self.add_if(met, "bid: side 1 bound met");
                    let missed = quote == bound + 1 && code == 18;
                    self.add_if(missed, "bid: side 1 bound missed by 1");
                    self.add_if(taken && balances[0] == quote, "bid: side 1 balance met");
                    let missed = code == 19 && balances[0] + 1 == quote;
                    self.add_if(missed, "bid: side 1 balance missed by 1");
                    self.add_if(taken && base == left, "bid: side 1 all base left");
                    let above = code == 17 && base == left + 1;
                    self.add_if(above, "bid: side 1 one more than left refused");
                    let above = code == 18 && quote > MOST;
                    self.add_if(above, "bid: side 1 cost above the most refused");
                }
                if taken {
                    self.price(&round, side, k);
                    self.add_if(side == 0, "bid: side 0");
                    self.add_if(side == 1, "bid: side 1");
                    self.add_if(k == 0, "bid: k 0");
                    self.add_if(k == round.length, "bid: k L");
                    self.add_if(k > 0 && k < round.length, "bid: k between");
                    let owns = was.tickets().iter().any(|held| {
                        held.place == Place::Round && held.market == market && held.member == member
                    });
                    self.add_if(owns, "bid: maker owns a ticket in the round");
                    let lowered = self.lowered[market as usize - 1];
                    self.add_if(lowered, "bid: after a lower rounding");
                    self.bids[market as usize - 1][side as usize] = true;
                }
            }
            Call::Settle { market, block } => {
                self.market(market, code);
                if !taken && code != 13 {
                    return;
                }
                let round = was.markets()[market as usize - 1];
                let k = block - round.start;
                let some = round.halves[0].left() + round.halves[1].left() > 0;
                let at_end = code == 13 && k == round.length;
                self.add_if(at_end, "settle: k L with some left refused");
                let after = taken && some && k == round.length + 1;
                self.add_if(after, "settle: k L + 1 with some left");
                let done = taken && !some && k <= round.length && round.marks != 0;
                self.add_if(done, "settle: nothing left before the end");
                self.add_if(taken && round.marks == 0, "settle: no tickets");
                if taken {
                    let both = self.bids[market as usize - 1] == [true; 2];
                    self.add_if(both, "bid: both sides in one round");
                    let emptied = self.leavers[market as usize - 1] > 0 && round.marks == 0;
                    self.add_if(emptied, "settle: after the last ticket left");
                }
            }
            Call::Claim { ticket } => {
                self.ticket(ticket, code);
                if !taken {
                    return;
                }
                let held = was.tickets()[ticket as usize];
                let now = is.tickets()[ticket as usize];
                let place = held.market as usize - 1;
                let rest = now.place == Place::Resting;
                self.rests = self.rests & !(1 << ticket) | u64::from(rest) << ticket;
                let nothing = answer.first == 0 && answer.second == 0;
                self.add_if(nothing, "claim: nothing sold");
                self.add_if(rest && answer.first > 0, "claim: part sold");
                self.add_if(!rest, "claim: all sold");
                self.add_if(answer.first > 0 && answer.second == 0, "claim: pays and gets nothing");
                let large = answer.first > 2_000_000_000 || answer.second > 2_000_000_000;
                self.add_if(large, "claim: above 2000000000");
                self.add_if(self.leavers[place] > 0, "claim: some left and others stayed");
                if is.markets()[place].phase == Phase::Closed {
                    let quote = is.tray()[0] - was.tray()[0];
                    let base = is.tray()[place + 1] - was.tray()[place + 1];
                    self.add_if(true, "claim: last of its round");
                    self.add_if(quote > 0, "claim: last, quote to the tray");
                    self.add_if(base > 0, "claim: last, base to the tray");
                    self.add_if(self.lowered[place], "claim: last, after a lower rounding");
                }
            }
            Call::Leave { ticket, member } => {
                self.member(member, code);
                self.ticket(ticket, code);
                let both = code == 1 && ticket as usize >= TICKETS;
                self.add_if(both, "leave: member and ticket out of range");
                if code == 1 || code == 4 {
                    return;
                }
                let held = was.tickets()[ticket as usize];
                if held.place == Place::Free {
                    self.add_if(code == 8, "leave: a free ticket");
                    return;
                }
                let place = held.market as usize - 1;
                let round = is.markets()[place];
                let others = |phase| {
                    let mut markets = is.markets().iter().enumerate();
                    markets.any(|(other, round)| other != place && round.phase == phase)
                };
                let in_auction = round.phase == Phase::Auction;
                let in_paying = round.phase == Phase::Paying;
                if code == 8 {
                    let resting = held.place == Place::Resting;
                    self.add_if(resting, "leave: another's resting ticket");
                    self.add_if(!resting, "leave: another's ticket in a round");
                    self.add_if(!resting && in_auction, "leave: another's ticket in auction");
                    self.add_if(!resting && in_paying, "leave: another's ticket in paying");
                }
                if code == 9 {
                    let left = self.left[ticket as usize];
                    let again = left > 0 && left == self.round_of[place];
                    self.add_if(again && round.phase == Phase::Collect, "leave: again refused");
                    let closed = round.phase == Phase::Closed;
                    self.add_if(closed, "leave: resting, market closed");
                    self.add_if(in_auction, "leave: resting, market in auction");
                    self.add_if(in_paying, "leave: resting, market in paying");
                }
                if code == 11 {
                    self.add_if(in_auction, "leave: in auction refused");
                    self.add_if(in_paying, "leave: in paying refused");
                    let collects = others(Phase::Collect);
                    self.add_if(collects, "leave: refused while another market collects");
                }
                if taken {
                    let side = held.side as usize;
                    self.add_if(side == 0, "leave: side 0");
                    self.add_if(side == 1, "leave: side 1");
                    let [same, other] = [side, 1 - side].map(|side| round.halves[side].total > 0);
                    self.add_if(same, "leave: others stay on the side");
                    let alone = !same && other;
                    self.add_if(alone, "leave: last of its side, others stay on the other");
                    self.add_if(round.marks == 0, "leave: last of its round");
                    let rest = self.rests >> ticket & 1 == 1;
                    self.add_if(rest, "leave: a rest of an earlier round");
                    self.add_if(answer.first > 2_000_000_000, "leave: above 2000000000");
                    self.add_if(held.market == 1, "leave: market 1");
                    self.add_if(held.market == 2, "leave: market 2");
                    self.add_if(held.market == 3, "leave: market 3");
                    self.add_if(ticket == 0, "leave: ticket 0");
                    self.add_if(ticket == 63, "leave: ticket 63");
                    self.add_if(member == 0, "leave: member 0");
                    self.add_if(member == 15, "leave: member 15");
                    let second = self.leavers[place] >> ticket & 1 == 1;
                    self.add_if(second, "leave: a second time, the same round");
                    let never = u64::from(round.opened) + 4 > MOST;
                    self.add_if(never, "leave: a round that can never be matched");
                    self.add_if(others(Phase::Auction), "leave: another market in auction");
                    self.add_if(others(Phase::Paying), "leave: another market in paying");
                    self.left[ticket as usize] = self.round_of[place];
                    self.leavers[place] |= 1 << ticket;
                }
            }
        }
    }
}

/// Some field is a number with this sign before it.
fn signed(fields: &[&[u8]], sign: u8) -> bool {
    fields.iter().any(|field| field.len() > 1 && field[0] == sign && field[1].is_ascii_digit())
}

/// Prints the counts and gives what must not be, one text for each.
fn run(mut input: impl BufRead, mut output: impl Write) -> io::Result<Vec<String>> {
    let mut exchange = Exchange::new();
    let mut table = [[0u64; 21]; KINDS + 1];
    let mut foreign = BTreeMap::new();
    let mut counts = Counts::new();
    let mut total = 0u64;
    let mut accepted = 0u64;
    let mut wrong_books = 0u64;
    let mut first_wrong = None;
    let mut line = Vec::new();
    loop {
        line.clear();
        if input.read_until(b'\n', &mut line)? == 0 {
            break;
        }
        let ended = line.last() == Some(&b'\n');
        if ended {
            line.pop();
        }
        let call = read_call(&line);
        counts.line(&line, call, ended);
        let (kind, code) = match call {
            Some(call) => {
                let was = exchange.clone();
                let answer = exchange.call(call);
                counts.call(&was, &exchange, call, answer);
                if let Err(text) = books::check_call(&was, &exchange, call, answer) {
                    wrong_books += 1;
                    first_wrong.get_or_insert((total + 1, text));
                }
                (call.kind(), answer.code)
            }
            None => (0, NO_CALL),
        };
        if let Some(count) = table[kind].get_mut(usize::from(code)) {
            *count += 1;
        }
        if !CODES[kind].contains(&code) {
            *foreign.entry((kind, code)).or_insert(0u64) += 1;
        }
        total += 1;
        accepted += u64::from(code == 0);
    }

    write!(output, "kind")?;
    for code in 0..21 {
        write!(output, "{code:>8}")?;
    }
    writeln!(output)?;
    for (kind, row) in table.iter().enumerate() {
        write!(output, "{kind:>4}")?;
        for (code, count) in row.iter().enumerate() {
            if *count > 0 || CODES[kind].contains(&(code as u8)) {
                write!(output, "{count:>8}")?;
            } else {
                write!(output, "{:>8}", ".")?;
            }
        }
        writeln!(output)?;
    }
    writeln!(output, "lines {total}, accepted {accepted}, with wrong books {wrong_books}")?;
    let mut missing = Vec::new();
    for (kind, codes) in CODES.iter().enumerate() {
        for &code in codes.iter() {
            if table[kind][usize::from(code)] == 0 {
                missing.push(format!("({kind},{code})"));
            }
        }
    }
    if missing.is_empty() {
        writeln!(output, "missing pairs: none")?;
    } else {
        writeln!(output, "missing pairs: {}", missing.join(" "))?;
    }
    writeln!(output)?;
    for name in BORDERS {
        let count = counts.borders.get(name).copied().unwrap_or(0);
        writeln!(output, "{count:>8}  {name}")?;
    }
    output.flush()?;

    let mut faults = Vec::new();
    if let Some((line, text)) = first_wrong {
        faults
            .push(format!("calls that left wrong books: {wrong_books}, first line {line}: {text}"));
    }
    for ((kind, code), count) in foreign {
        faults
            .push(format!("lines of kind {kind} with code {code}, which it cannot meet: {count}"));
    }
    Ok(faults)
}

fn main() -> ExitCode {
    let input = BufReader::with_capacity(1 << 20, io::stdin());
    match run(input, io::stdout().lock()) {
        Ok(faults) => {
            for fault in &faults {
                let _ = writeln!(io::stderr(), "coverage: {fault}");
            }
            if faults.is_empty() {
                ExitCode::SUCCESS
            } else {
                ExitCode::FAILURE
            }
        }
        Err(error) => {
            let _ = writeln!(io::stderr(), "cannot read or write: {error}");
            ExitCode::FAILURE
        }
    }
}
