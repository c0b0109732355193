//! Prints traffic for comparison runs: `traffic SEED LINES` prints LINES
//! lines, the same ones for the same seed. About half of them are accepted
//! calls that drive whole rounds in the three markets, some of them small ones
//! whose match is rounded at a border, and some whose auction has its price
//! stepped at one; the others are calls to be refused, for every kind and code,
//! and lines that are no call, of every sort. The exchange is worked along, so
//! that each line can be aimed at its state. `traffic SEED LINES FILE` prints
//! traffic that is to follow the lines of a file.

use second::chance::Chance;
use second::drafts::{offered_token, padded, wide_bound, wide_limit};
use second::drafts::{Draft, Drafts, Season, SORTS};
use second::engine::{MILLION, MOST, STEP};
use second::lines::{CODES, KINDS, LINE_MOST, NO_CALL};
use second::{read_call, Exchange, Market, Phase, Place};
use std::io::{self, BufWriter, Write};
use std::process::ExitCode;

/// Number texts that are too large.
const TOO_LARGE: [&str; 12] = [
    "4294967296",
    "4294967297",
    "4294967298",
    "4294967311",
    "5000000000",
    "9999999999",
    "10000000000",
    "42949672950",
    "18446744073709551615",
    "18446744073709551616",
    "18446744073709551617",
    "340282366920938463463374607431768211457",
];

/// What the match of a small round comes to. Its worth at the reference lies
/// between two whole quotes.
#[derive(Clone, Copy, PartialEq)]
enum Aim {
    /// The lower one, with lo just met.
    LoMet,
    /// The lower one.
    Lower,
    /// The lower one, with hi just broken by the upper one.
    HiBroken,
    /// The upper one, with hi just met.
    HiMet,
    /// Nothing, with lo just missed.
    LoMissed,
    /// Nothing: both break their bounds.
    Neither,
    /// Nothing: the lower one is 0.
    NoQuote,
}

/// The aims, which take turns.
const AIMS: [Aim; 7] =
    [Aim::LoMet, Aim::LoMissed, Aim::Lower, Aim::Neither, Aim::HiBroken, Aim::HiMet, Aim::NoQuote];

/// The terms of a small round: the base matched, the quote that it comes to
/// rounded up, reference and slack.
struct Terms {
    base: u64,
    up: u64,
    reference: u64,
    slack: u64,
}

/// Where the price of an aimed auction stands at a block, before it is
/// stepped. Side 1 starts from hi and is stepped upwards; side 0 starts from lo
/// and is stepped downwards.
#[derive(Clone, Copy)]
enum Stand {
    /// So far from the next hundred, before the end.
    Between(u64),
    /// So far from the next hundred, at the end.
    End(u64),
    /// The next hundred is the bound where it started.
    ToStart,
    /// The next hundred is past the bound where it started.
    PastStart,
    /// The same at every block: no hundred lies from lo to hi.
    Still,
}

/// The stands, which take turns. Their number is odd, as the sides take turns
/// too.
const STANDS: [Stand; 9] = [
    Stand::Between(1),
    Stand::Still,
    Stand::End(99),
    Stand::Between(0),
    Stand::PastStart,
    Stand::End(0),
    Stand::Between(99),
    Stand::ToStart,
    Stand::End(1),
];

/// The terms of an aimed auction, and the k at which its price has its stand.
struct Steps {
    reference: u64,
    slack: u64,
    length: u64,
    k: u64,
}

struct Traffic<W: Write> {
    drafts: Drafts,
    output: W,
    /// Every refusal that can be met: kind and code.
    refusals: Vec<(usize, u8)>,
    /// Lines still to print.
    left: u64,
    /// The last line has no byte 10.
    open_end: bool,
    /// Blocks of new rounds jump to `jump_to` when this many lines are left.
    jump_at: u64,
    jump_to: u64,
    /// The line of 100,000 bytes comes when this many lines are left.
    long_at: u64,
    /// Small rounds so far.
    small_rounds: usize,
    /// Auctions that came to their aim so far.
    step_rounds: usize,
    /// Seasons begun so far; they take turns.
    seasons: usize,
    season_left: u64,
    /// How often each kind met each code.
    met: [[u64; 21]; KINDS + 1],
    failed: Option<io::Error>,
}

impl<W: Write> Traffic<W> {
    fn new(seed: u64, lines: u64, exchange: Exchange, output: W) -> Traffic<W> {
        let mut chance = Chance::new(seed);
        chance.draw();
        let mut refusals = Vec::new();
        for (kind, codes) in CODES.iter().enumerate() {
            let refused = codes.iter().filter(|code| ![0, NO_CALL].contains(code));
            refusals.extend(refused.map(|&code| (kind, code)));
        }
        // Where the run is long enough, every second seed ends near the last
        // block number or at it.
        let (jump_at, jump_to) = match seed % 4 {
            0 if lines >= 5_000 => (200, MOST),
            2 if lines >= 5_000 => (500, MOST - 200),
            _ => (0, 0),
        };
        let seasons = chance.below(6) as usize;
        let long_at = lines.saturating_sub(chance.below(10_000));
        let sort = chance.below(SORTS as u64) as usize;
        let small_rounds = chance.below(AIMS.len() as u64) as usize;
        let step_rounds = chance.below(2 * STANDS.len() as u64) as usize;
        Traffic {
            drafts: Drafts::new(chance, exchange, sort),
            output,
            refusals,
            left: lines,
            open_end: seed % 3 == 1,
            jump_at,
            jump_to,
            long_at,
            small_rounds,
            step_rounds,
            seasons,
            season_left: 1_000,
            met: [[0; 21]; KINDS + 1],
            failed: None,
        }
    }

    fn run(&mut self) -> io::Result<()> {
        while self.left > 0 && self.failed.is_none() {
            if self.season_left == 0 {
                self.new_season();
            }
            if self.left <= self.long_at {
                self.long_at = 0;
                let line = self.long_line();
                self.put(&line);
            } else if self.drafts.chance.below(100) < 49 {
                self.right_step();
            } else {
                self.wrong_step();
            }
        }
        match self.failed.take() {
            Some(error) => Err(error),
            None => self.output.flush(),
        }
    }

    /// Prints a line, given without its byte 10, works it and gives its code.
    fn put(&mut self, line: &[u8]) -> u8 {
        if self.left == 0 {
            return NO_CALL;
        }
        self.left -= 1;
        if self.left <= self.jump_at {
            self.drafts.jump = Some(self.jump_to);
        }
        self.season_left = self.season_left.saturating_sub(1);
        let bare = self.left == 0 && self.open_end && !line.is_empty();
        let end: &[u8] = if bare { b"" } else { b"\n" };
        if let Err(error) = self.output.write_all(line).and_then(|()| self.output.write_all(end)) {
            self.failed = Some(error);
        }
        let (kind, code) = match read_call(line) {
            Some(call) => (call.kind(), self.drafts.exchange.call(call).code),
            None => (0, NO_CALL),
        };
        self.met[kind][usize::from(code)] += 1;
        code
    }

    fn say(&mut self, draft: Draft) -> u8 {
        self.put(&draft.text())
    }

    fn new_season(&mut self) {
        use Season::*;
        self.seasons += 1;
        self.drafts.season = [Tiny, Usual, Odd, Dear, Usual, Huge][self.seasons % 6];
        self.season_left = self.drafts.chance.between(300, 1_500);
        self.drafts.markets = match self.drafts.chance.below(6) {
            0 => vec![1],
            1 => vec![2],
            2 => vec![3],
            3 => vec![self.drafts.chance.between(1, 2), 3],
            _ => vec![1, 2, 3],
        };
        // Clear the books now and then, so that new sizes count.
        if self.drafts.season == Huge || self.drafts.chance.once_in(2) {
            for ticket in 0..64 {
                let held = self.drafts.exchange.tickets()[ticket as usize];
                if held.place == Place::Resting {
                    self.say(Draft::new(4, &[ticket, u64::from(held.member)]));
                }
            }
            for member in 0..16 {
                for token in 0..4 {
                    let balance = self.drafts.balance(member, token);
                    if balance > 0 {
                        self.say(Draft::new(2, &[member, token, balance]));
                    }
                }
            }
        }
        if self.drafts.season == Huge {
            self.giant_round();
        }
    }

    /// One round with almost all that there may be of its two tokens.
    fn giant_round(&mut self) {
        let Some(market) = self.drafts.find_market(Phase::Closed) else { return };
        let opened = self.drafts.last();
        if opened + 100 > MOST {
            return;
        }
        let mut tickets = [0; 2];
        for side in [0, 1] {
            let room = self.drafts.room(offered_token(market, side));
            if room <= MOST / 2 {
                return;
            }
            let amount = room - self.drafts.chance.pick(&[0, 0, 1, 2, 1_000]);
            let ticket = self.place_order(market, side, wide_limit(side), amount);
            let Some(ticket) = ticket else { return };
            tickets[side as usize] = ticket;
        }
        let reference = self.drafts.chance.pick(&[1_000_000, 999_999, 1_000_001, 1_000_000_000, 1]);
        let slack = self.drafts.slack();
        let length = self.drafts.length();
        self.say(Draft::new(5, &[market, opened, reference, slack, length]));
        for ticket in tickets {
            self.say(Draft::new(6, &[ticket]));
        }
        let early = self.drafts.chance.pick(&tickets);
        self.leave_and_enter(early);
        self.say(Draft::new(7, &[market, opened + 4]));
        // A cost that no bound can cover, if the price is high enough.
        self.say(Draft::new(8, &[market, 3, opened + 4, 1, MOST - 1_000, MOST]));
        self.end_auction(market, 3);
    }

    /// Places an order, after a deposit if no member has the amount, and gives
    /// its ticket.
    fn place_order(&mut self, market: u64, side: u64, limit: u64, amount: u64) -> Option<u64> {
        let ticket = self.drafts.find_ticket(|_, t| t.place == Place::Free)?;
        let member = self.payer(offered_token(market, side), amount)?;
        self.say(Draft::new(3, &[ticket, member, market, side, limit, amount]));
        Some(ticket)
    }

    /// A member with at least so much of a token, after a deposit if none has
    /// it.
    fn payer(&mut self, token: u64, amount: u64) -> Option<u64> {
        if let Some(member) = self.drafts.find_member(token, amount) {
            return Some(member);
        }
        if amount > self.drafts.room(token) {
            return None;
        }
        let member = self.drafts.chance.below(16);
        self.say(Draft::new(1, &[member, token, amount]));
        Some(member)
    }

    /// Up to so many bids, then the settle after the auction's end and the
    /// claims.
    fn end_auction(&mut self, market: u64, bids: u64) {
        for _ in 0..bids {
            if let Some(draft) = self.drafts.bid_draft(market) {
                self.say(draft);
            }
        }
        let round = self.drafts.market(market);
        let end = u64::from(round.start) + u64::from(round.length);
        self.say(Draft::new(9, &[market, self.drafts.last().max(end + 1)]));
        for ticket in self.drafts.marked(market) {
            self.say(Draft::new(10, &[ticket]));
        }
    }

    /// A round of few tickets whose match is aimed at a border of its rounding;
    /// half of these rounds come to their end at once. Nothing if blocks,
    /// tickets or amounts are wanting.
    fn small_round(&mut self, market: u64) -> Option<()> {
        let block = self.drafts.last() + self.drafts.some_blocks();
        if block + 100 > MOST {
            return None;
        }
        let aim = AIMS[self.small_rounds % AIMS.len()];
        self.small_rounds += 1;
        let terms = self.small_terms(aim);
        let length = self.drafts.length();
        self.say(Draft::new(5, &[market, block, terms.reference, terms.slack, length]));
        let totals = self.small_totals(&terms);
        self.enter_and_match(market, totals)?;
        if self.drafts.chance.once_in(2) {
            self.end_auction(market, 1);
        }
        Some(())
    }

    /// Terms at which a match comes to the aim, but for some where a bound is
    /// rounded past it.
    fn small_terms(&mut self, aim: Aim) -> Terms {
        let c = &mut self.drafts.chance;
        // Where the base divides a million, a bound can be just a whole quote
        // for it.
        let base = if c.once_in(4) {
            c.pick(&[10, 200, 5_000, 100_000])
        } else if matches!(aim, Aim::LoMet | Aim::HiMet) {
            c.pick(&[1, 1, 2, 4, 5, 8])
        } else {
            c.between(1, 9)
        };
        let down = if aim == Aim::NoQuote { 0 } else { c.any_size((999 * base).min(400_000)) };
        let up = down + 1;
        let down_price = down * MILLION / base;
        let up_price = (up * MILLION).div_ceil(base);
        // Up to this slack no reference has both quotes within its bounds.
        let apart = ((MILLION - 1) / (down + up)).min(500_000);
        // From this slack on the bounds are apart from the reference.
        let some = if down == 0 { 0 } else { base.div_ceil(down) };
        let narrow = c.between(some, apart);
        let wide = c.between(apart + 1, MILLION / up).min(500_000);
        let (reference, slack) = match aim {
            Aim::LoMet => (reference_at_lo(down_price, narrow), narrow),
            Aim::Lower => (reference_at_lo(down_price, narrow), c.between(narrow, apart)),
            Aim::LoMissed => (reference_at_lo(down_price + 1, narrow), narrow),
            Aim::HiBroken => (reference_at_hi(up_price - 1, wide), wide),
            Aim::HiMet => {
                let slack = c.pick(&[narrow, wide]);
                (reference_at_hi(up_price, slack), slack)
            }
            Aim::Neither | Aim::NoQuote => {
                (reference_at_hi(up_price - 1, narrow), c.pick(&[0, narrow / 2, narrow]))
            }
        };
        Terms { base, up, reference, slack }
    }

    /// Totals of the buys and the sells whose match has the terms' base: of all
    /// sells or, where the quote fetches no more base, for all buys.
    fn small_totals(&mut self, terms: &Terms) -> [u64; 2] {
        let more = self.drafts.chance.below(30);
        let fetched = terms.up * MILLION / terms.reference;
        if fetched == terms.base && self.drafts.chance.once_in(2) {
            [terms.up, terms.base + more]
        } else {
            [terms.up + more, terms.base]
        }
    }

    /// Orders of these totals enter a market's round, many with its bounds for
    /// their limits; then its match. Nothing if lines, tickets or amounts are
    /// wanting.
    fn enter_and_match(&mut self, market: u64, totals: [u64; 2]) -> Option<()> {
        let Market { hi, lo, .. } = self.drafts.market(market);
        for (side, total, edge) in [(0, totals[0], hi), (1, totals[1], lo)] {
            for amount in self.parts(total) {
                let limit = self.drafts.chance.pick(&[edge, edge, wide_limit(side)]);
                let ticket = self.place_order(market, side, limit, amount)?;
                self.say(Draft::new(6, &[ticket]));
            }
        }
        let block = self.drafts.match_block(market) + self.drafts.some_blocks();
        self.say(Draft::new(7, &[market, block]));
        (self.drafts.market(market).phase == Phase::Auction).then_some(())
    }

    /// An amount as one part or two, or as none where it is 0.
    fn parts(&mut self, amount: u64) -> Vec<u64> {
        if amount == 0 {
            return Vec::new();
        }
        if amount == 1 || !self.drafts.chance.once_in(3) {
            return vec![amount];
        }
        let part = self.drafts.chance.between(1, amount - 1);
        vec![part, amount - part]
    }

    /// A round whose auction is aimed at a stand of its price, for one side, and
    /// bids at that block and at others. Nothing if blocks, lines, tickets or
    /// amounts are wanting.
    fn step_round(&mut self, market: u64) -> Option<()> {
        let block = self.drafts.last() + self.drafts.some_blocks();
        if block + 100 > MOST {
            return None;
        }
        let stand = STANDS[self.step_rounds % STANDS.len()];
        let side = self.step_rounds as u64 % 2;
        let Steps { reference, slack, length, k } = self.step_terms(stand, side);
        self.say(Draft::new(5, &[market, block, reference, slack, length]));
        let totals = self.step_totals(reference, side);
        self.enter_and_match(market, totals)?;
        let start = u64::from(self.drafts.market(market).start);
        for at in 0..=length {
            if at == k {
                self.aimed_bids(market, side, start + at)?;
                self.step_rounds += 1;
            } else if at == 0 || at == length || self.drafts.chance.once_in(length / 2) {
                self.bounded_bids(market, side, start + at, 1)?;
            }
        }
        if self.drafts.chance.once_in(2) {
            self.last_bids(market, side, start + length)?;
        }
        self.end_auction(market, 0);
        Some(())
    }

    /// Terms at which the price of a side comes to a stand, but for a few where
    /// a large reference has no such bounds.
    fn step_terms(&mut self, stand: Stand, side: u64) -> Steps {
        let length = self.drafts.length().max(2);
        let c = &mut self.drafts.chance;
        // From the reference to either bound, and the least price to start from.
        let (distance, price) = match stand {
            Stand::Between(_) | Stand::End(_) => match c.below(4) {
                0 => {
                    let reference = c.between(100_000_000, 900_000_000);
                    (reference * c.between(1, 5) / MILLION, reference)
                }
                1 => (c.between(99, 5_000), c.any_size(900_000)),
                _ => (c.between(99, 300), c.between(0, 1_000)),
            },
            _ => {
                let distance = c.pick(&[5, 49]);
                let price = c.pick(&[0, 0, 200, 900_000]);
                (c.between(1, distance), c.below(price))
            }
        };
        let range = 2 * distance;
        // The first k at which the price has moved so far.
        let first = |moved: u64| (moved * length).div_ceil(range);
        let k = match stand {
            Stand::Between(step) => c.between(first(step.max(1)), length - 1),
            Stand::End(_) => length,
            _ => c.between(first(1), length),
        };
        let moved = range * k / length;
        // How far the price starts past a hundred, in its direction.
        let past = match stand {
            Stand::Between(step) | Stand::End(step) => moved - step,
            Stand::ToStart => 0,
            Stand::PastStart => c.between(moved + 1, range.max(moved + 1)),
            Stand::Still => c.between(range + 1, STEP - 1),
        };
        // A hundred at which neither bound is more than half the reference off.
        let least = if side == 1 { (3 * distance).saturating_sub(past) } else { distance + past };
        let hundred = least.max(price).next_multiple_of(STEP);
        let reference =
            if side == 1 { hundred + past - distance } else { hundred - past + distance };
        Steps { reference, slack: (distance * MILLION).div_ceil(reference), length, k }
    }

    /// Totals for an aimed auction of a side, so much that a step is worth a
    /// unit of quote; half of the time the other side offers a tenth.
    fn step_totals(&mut self, reference: u64, side: u64) -> [u64; 2] {
        let c = &mut self.drafts.chance;
        let base = if reference > MILLION {
            c.between(20_000, 200_000)
        } else {
            c.between(2_000_000, 20_000_000)
        };
        let mut totals = [base * reference / MILLION + 1, base];
        let other = &mut totals[1 - side as usize];
        *other = if c.once_in(2) { *other / 10 } else { 0 };
        totals
    }

    /// Bids around the borders of a stepped price.
    fn aimed_bids(&mut self, market: u64, side: u64, block: u64) -> Option<()> {
        self.bounded_bids(market, side, block, 4)?;
        let mut draft = self.part_bid(market, side, block)?;
        if side == 1 || self.drafts.chance.once_in(2) {
            self.bid_one_short(draft);
        }
        // One unit too little to take anything, and just enough.
        let (low, _) = self.drafts.bid_range(market, side, block);
        if low > 1 {
            for base in [low - 1, low] {
                draft.f[4] = base;
                self.say(draft);
            }
        }
        Some(())
    }

    /// Bids for all that a side has left: one unit too much, and just that.
    fn last_bids(&mut self, market: u64, side: u64, block: u64) -> Option<()> {
        let (low, high) = self.drafts.bid_range(market, side, block);
        if low > high || high >= MOST {
            return None;
        }
        let mut draft = self.paid_bid(market, side, block, high, 1)?;
        for base in [high + 1, high] {
            draft.f[4] = base;
            self.say(draft);
        }
        Some(())
    }

    /// Bids, so many of four, whose bound is the quote, a unit to either side of
    /// it, and the quote that it would be if prices had no steps.
    fn bounded_bids(&mut self, market: u64, side: u64, block: u64, count: usize) -> Option<()> {
        let mut draft = self.part_bid(market, side, block)?;
        let [quote, unstepped] = self.drafts.bid_quotes(&draft);
        let bounds = [quote, quote.saturating_sub(1), quote + 1, unstepped];
        let first = self.drafts.chance.below(4) as usize;
        for bound in bounds.into_iter().cycle().skip(first).take(count) {
            draft.f[5] = bound.min(MOST);
            self.say(draft);
        }
        Some(())
    }

    /// A bid for a part of what a side has left, which may come four times.
    fn part_bid(&mut self, market: u64, side: u64, block: u64) -> Option<Draft> {
        let (_, high) = self.drafts.bid_range(market, side, block);
        let base = self.drafts.chance.between(high / 12, high / 4).max(1);
        self.paid_bid(market, side, block, base, 4)
    }

    /// A bid by a member who can pay it so many times, after a deposit if there
    /// is none.
    fn paid_bid(
        &mut self,
        market: u64,
        side: u64,
        block: u64,
        base: u64,
        times: u64,
    ) -> Option<Draft> {
        let mut draft = Draft::new(8, &[market, 0, block, side, base, wide_bound(side)]);
        let (token, given) = self.drafts.bid_given(&draft);
        draft.f[1] = self.payer(token, times * given)?;
        Some(draft)
    }

    /// A maker who lacks one unit for a bid, then has just enough. False if no
    /// member is so poor, or there is no room for what is lacking.
    fn bid_one_short(&mut self, mut draft: Draft) -> bool {
        let (token, given) = self.drafts.bid_given(&draft);
        let Some(member) = self.drafts.find_poor(token, given) else { return false };
        let lack = given - self.drafts.balance(member, token);
        if lack > self.drafts.room(token) {
            return false;
        }
        draft.f[1] = member;
        if lack > 1 {
            self.say(Draft::new(1, &[member, token, lack - 1]));
        }
        self.say(draft);
        self.say(Draft::new(1, &[member, token, 1]));
        self.say(draft);
        true
    }

    // Calls that are right now.

    /// One accepted call, or a few lines around a border.
    fn right_step(&mut self) {
        if self.drafts.chance.once_in(11) && self.set_piece() {
            return;
        }
        let market = self.drafts.chance.pick(&self.drafts.markets);
        let closed = self.drafts.market(market).phase == Phase::Closed;
        if closed && self.drafts.chance.once_in(10) && self.small_round(market).is_some() {
            return;
        }
        if closed && self.drafts.chance.once_in(10) && self.step_round(market).is_some() {
            return;
        }
        if let Some(draft) = self.drafts.right(market) {
            self.say(draft);
        }
    }

    /// A few lines that meet a border exactly and miss it by one. False if
    /// there is none to be had now.
    fn set_piece(&mut self) -> bool {
        match self.drafts.chance.below(9) {
            // Supply to the most, and one more.
            0 => {
                if !self.drafts.chance.once_in(4) {
                    return false;
                }
                let token = self.drafts.chance.below(4);
                let member = self.drafts.chance.below(16);
                let room = self.drafts.room(token);
                if room == 0 {
                    return false;
                }
                self.say(Draft::new(1, &[member, token, room + 1]));
                self.say(Draft::new(1, &[member, token, room]));
                let other = self.drafts.chance.below(16);
                self.say(Draft::new(1, &[other, token, 1]));
                if self.drafts.season != Season::Huge {
                    self.say(Draft::new(2, &[member, token, room]));
                }
                true
            }
            // Match three and four blocks after open.
            1 => {
                let Some(market) = self.drafts.find_market(Phase::Collect) else {
                    return false;
                };
                let opened = u64::from(self.drafts.market(market).opened);
                if self.drafts.last() > opened + 3 || opened + 4 > MOST {
                    return false;
                }
                self.say(Draft::new(7, &[market, opened + 3]));
                if self.drafts.market(market).marks.count_ones() > 2
                    || self.drafts.chance.once_in(4)
                {
                    self.say(Draft::new(7, &[market, opened + 4]));
                }
                true
            }
            // The last bid of an auction, then settle at its end.
            2 => {
                let Some(market) = self.drafts.find_market(Phase::Auction) else {
                    return false;
                };
                let round = self.drafts.market(market);
                let end = u64::from(round.start) + u64::from(round.length);
                if self.drafts.last() > end || end + 1 > MOST {
                    return false;
                }
                let Some(mut draft) = self.drafts.bid_draft(market) else {
                    return false;
                };
                draft.f[2] = end + 1;
                self.say(draft);
                draft.f[2] = end;
                draft.f[5] = wide_bound(draft.f[3]);
                self.say(draft);
                self.say(Draft::new(9, &[market, end]));
                if self.drafts.chance.once_in(2) {
                    self.say(Draft::new(9, &[market, end + 1]));
                }
                true
            }
            // A maker who lacks one unit, then has just enough.
            3 => {
                let Some(market) = self.drafts.find_market(Phase::Auction) else {
                    return false;
                };
                let Some(draft) = self.drafts.bid_draft(market) else {
                    return false;
                };
                self.bid_one_short(draft)
            }
            // A bound missed by one, then met exactly.
            4 => {
                let Some(market) = self.drafts.find_market(Phase::Auction) else {
                    return false;
                };
                let Some(mut draft) = self.drafts.bid_draft(market) else {
                    return false;
                };
                let [quote, _] = self.drafts.bid_quotes(&draft);
                if quote >= MOST {
                    return false;
                }
                draft.f[5] = if draft.f[3] == 1 { quote - 1 } else { quote + 1 };
                self.say(draft);
                draft.f[5] = quote;
                self.say(draft);
                true
            }
            // An order of one more than the balance, then of all of it.
            5 => {
                let Some(mut draft) = self.drafts.draft(3) else {
                    return false;
                };
                let token = if draft.f[3] == 0 { 0 } else { draft.f[2] };
                let balance = self.drafts.balance(draft.f[1], token);
                if balance >= MOST {
                    return false;
                }
                draft.f[5] = balance + 1;
                self.say(draft);
                draft.f[5] = balance;
                self.say(draft);
                true
            }
            // A withdrawal of one more than the balance, then of all of it.
            6 => {
                let Some(mut draft) = self.drafts.draft(2) else {
                    return false;
                };
                let balance = self.drafts.balance(draft.f[0], draft.f[1]);
                if balance >= MOST {
                    return false;
                }
                draft.f[2] = balance + 1;
                self.say(draft);
                draft.f[2] = balance;
                self.say(draft);
                true
            }
            // Members who leave a round.
            7 => self.leaving().is_some(),
            // Orders at and next to the round's bounds, all entered.
            _ => {
                let Some(market) = self.drafts.find_market(Phase::Collect) else {
                    return false;
                };
                let round = self.drafts.market(market);
                for side in [0, 1] {
                    let token = offered_token(market, side);
                    let limits =
                        if side == 0 { [round.hi - 1, round.hi] } else { [round.lo + 1, round.lo] };
                    for limit in limits {
                        let free = self.drafts.find_ticket(|_, t| t.place == Place::Free);
                        let (Some(ticket), Some(member)) =
                            (free, self.drafts.find_member(token, 1))
                        else {
                            return true;
                        };
                        let amount = self.drafts.amount().min(self.drafts.balance(member, token));
                        self.say(Draft::new(3, &[ticket, member, market, side, limit, amount]));
                        self.say(Draft::new(6, &[ticket]));
                    }
                }
                true
            }
        }
    }

    /// A few lines around members who leave a round that collects. Nothing if
    /// there is no ticket for it now.
    fn leaving(&mut self) -> Option<()> {
        match self.drafts.chance.below(5) {
            // Back again, and now and then away for good.
            0 | 1 => {
                let draft = self.drafts.draft(11)?;
                self.leave_and_enter(draft.f[0]);
                if self.drafts.chance.once_in(2) {
                    self.say(draft);
                }
            }
            // Cancelled: not in the round, but after leaving it; then the
            // ticket is free.
            2 => {
                let draft = self.drafts.draft(11)?;
                let cancel = Draft::new(4, &draft.f[..2]);
                for line in [cancel, draft, cancel, draft] {
                    self.say(line);
                }
            }
            // The round goes on without the ticket.
            3 => {
                let draft = self.drafts.draft(11)?;
                let ticket = draft.f[0];
                let market = self.drafts.market_of(ticket);
                let block = self.drafts.match_block(market);
                self.say(draft);
                if block <= MOST {
                    self.say(Draft::new(7, &[market, block]));
                    self.say(Draft::new(6, &[ticket]));
                    self.say(draft);
                }
            }
            // All tickets of a small round, which then ends without them; the
            // next one takes those whose limits suit it.
            _ => {
                let few = self.drafts.find_ticket(|x, t| {
                    t.place == Place::Round
                        && Drafts::phase_of(x, t) == Phase::Collect
                        && x.markets()[t.market as usize - 1].marks.count_ones() <= 3
                })?;
                let market = self.drafts.market_of(few);
                let block = self.drafts.match_block(market);
                let marked = self.drafts.marked(market);
                for &ticket in &marked {
                    self.say(Draft::new(11, &[ticket, self.drafts.owner(ticket)]));
                }
                if block <= MOST {
                    self.say(Draft::new(7, &[market, block]));
                    self.say(Draft::new(9, &[market, block]));
                    let next = [
                        market,
                        block,
                        self.drafts.reference(),
                        self.drafts.slack(),
                        self.drafts.length(),
                    ];
                    self.say(Draft::new(5, &next));
                    for ticket in marked {
                        self.say(Draft::new(6, &[ticket]));
                    }
                }
            }
        }
        Some(())
    }

    /// Another member cannot take a ticket out of its round; its owner can,
    /// once, and it enters again.
    fn leave_and_enter(&mut self, ticket: u64) {
        let owner = self.drafts.owner(ticket);
        let other = self.drafts.other_member(owner);
        self.say(Draft::new(11, &[ticket, other]));
        self.say(Draft::new(11, &[ticket, owner]));
        self.say(Draft::new(11, &[ticket, owner]));
        self.say(Draft::new(6, &[ticket]));
    }

    // Calls to be refused.

    fn wrong_step(&mut self) {
        match self.drafts.chance.below(100) {
            0..=19 => {
                let line = if self.drafts.chance.once_in(2) {
                    self.drafts.faulty()
                } else {
                    self.no_call()
                };
                self.put(&line);
            }
            20..=32 => {
                self.say_mutated();
            }
            _ => {
                for _ in 0..6 {
                    let mut target = self.drafts.chance.pick(&self.refusals);
                    if self.drafts.chance.once_in(2) {
                        // Rather one that is rare so far.
                        for _ in 0..3 {
                            let other = self.drafts.chance.pick(&self.refusals);
                            if self.times(other) < self.times(target) {
                                target = other;
                            }
                        }
                    }
                    let (kind, code) = target;
                    if let Some(draft) = self.drafts.spoiled(kind, code) {
                        if self.drafts.code_of(draft) == code {
                            self.say(draft);
                            return;
                        }
                    }
                }
                self.say_mutated();
            }
        }
    }

    fn say_mutated(&mut self) {
        let kind = self.drafts.chance.between(1, KINDS as u64) as usize;
        let draft = self.drafts.mutated(kind);
        self.say(draft);
    }

    fn times(&self, (kind, code): (usize, u8)) -> u64 {
        self.met[kind][usize::from(code)]
    }

    // Lines that are no call.

    /// A line of 100,000 bytes that begins or ends with a call.
    fn long_line(&mut self) -> Vec<u8> {
        let kind = self.drafts.chance.between(1, KINDS as u64) as usize;
        let text = self.drafts.start(kind).text();
        if self.drafts.chance.once_in(2) {
            return padded(&mut self.drafts.chance, text, 100_000);
        }
        let mut line = vec![self.drafts.chance.pick(b"0 ,x"); 100_000 - text.len()];
        line.extend_from_slice(&text);
        line
    }

    fn no_call(&mut self) -> Vec<u8> {
        let kind = self.drafts.chance.between(1, KINDS as u64) as usize;
        let draft = self.drafts.start(kind);
        let mut numbers = draft.numbers();
        let mut text = draft.text();
        let c = &mut self.drafts.chance;
        let place = c.below(numbers.len() as u64) as usize;
        let at = c.below(text.len() as u64 + 1) as usize;
        let end = text.len();
        match c.below(26) {
            0 => return Vec::new(),
            1 => {
                numbers[0] = c
                    .pick(&["0", "12", "13", "20", "99", "100", "257", "4294967295", "4294967297"])
                    .to_string();
            }
            2 => {
                let keep = c.between(1, numbers.len() as u64 - 1) as usize;
                numbers.truncate(keep);
            }
            3 => {
                let most = if c.once_in(3) { 20 } else { 2 };
                for _ in 0..c.between(1, most) {
                    numbers.push(c.pick(&["0", "1", "7", "4294967295"]).to_string());
                }
            }
            4 | 5 => {
                let zeros = if c.once_in(4) { c.between(2, 12) } else { 1 };
                let number = numbers[place].clone();
                numbers[place] = "0".repeat(zeros as usize) + &number;
            }
            6 => numbers[place].clear(),
            7 => {
                let comma = c.pick(&[0, at, end]);
                text.insert(comma, b',');
                return text;
            }
            8 | 9 => numbers[place] = c.pick(&TOO_LARGE).to_string(),
            10 => {
                text.insert(at, bad_byte(c));
                return text;
            }
            11 => {
                text[at.min(end - 1)] = bad_byte(c);
                return text;
            }
            12 => {
                let nul = c.pick(&[0, at, end]);
                text.insert(nul, 0);
                return text;
            }
            13 => {
                text.push(b'\r');
                return text;
            }
            14 => {
                let byte = c.pick(b"\r \t+-./:;'\"\x0b\x0c\x1a");
                let spot = c.pick(&[0, at, end]);
                text.insert(spot, byte);
                return text;
            }
            15 => {
                // A digit or comma with its high bit set.
                text[at.min(end - 1)] |= 0x80;
                return text;
            }
            16 => return padded(c, text, LINE_MOST),
            17 => return padded(c, text, LINE_MOST + 1),
            18 => {
                let len = c.pick(&[78, 79, 82, 159, 160, 161, 162, 255, 256]);
                return padded(c, text, len);
            }
            19 => {
                let len = c.between(83, 900) as usize;
                return padded(c, text, len);
            }
            20 => {
                // Something long with a call at its end.
                let len = c.pick(&[1, 40, 80, 81, 160, 240, 400]);
                let mut line = vec![c.pick(b"0 ,x7\r\0"); len];
                line.extend_from_slice(&text);
                return line;
            }
            21 => {
                // Two calls on one line.
                let parts = text.clone();
                text.extend_from_slice(c.pick(&[&b","[..], b"\r", b";", b" ", b"\0", b"\r\r"]));
                text.extend_from_slice(&parts);
                return text;
            }
            22 => {
                let len = c.between(1, 40) as usize;
                return (0..len).map(|_| any_byte(c)).collect();
            }
            23 => {
                let lines: [&[u8]; 12] = [
                    b",",
                    b"0",
                    b"00",
                    b"-1",
                    b"line,code,first,second",
                    b"1,0,0,0x10",
                    b"1,0,0,1e3",
                    b"1,0,0,1_000",
                    b"1,0,0,1 000",
                    b"\xef\xbb\xbf1,0,0,5",
                    b"\xef\xbc\x91,0,0,5",
                    b"\"1\",\"0\",\"0\",\"5\"",
                ];
                return c.pick(&lines).to_vec();
            }
            24 => numbers.truncate(1),
            _ => {
                // Very long, but seldom.
                if c.once_in(20) {
                    let len =
                        c.pick(&[4_095, 4_096, 4_097, 8_192, 65_535, 65_536, 100_000, 300_000]);
                    return padded(c, text, len);
                }
                numbers.insert(place, String::new());
            }
        }
        numbers.join(",").into_bytes()
    }
}

/// The highest reference at which lo is this price.
fn reference_at_lo(price: u64, slack: u64) -> u64 {
    price * MILLION / (MILLION - slack)
}

/// The lowest reference at which hi is this price or more.
fn reference_at_hi(price: u64, slack: u64) -> u64 {
    (price * MILLION).div_ceil(MILLION + slack)
}

/// A byte that is no digit, no comma and no line end.
fn bad_byte(chance: &mut Chance) -> u8 {
    loop {
        let byte = chance.below(256) as u8;
        if !byte.is_ascii_digit() && byte != b',' && byte != b'\n' {
            return byte;
        }
    }
}

/// Any byte but the line end, digits and commas more often.
fn any_byte(chance: &mut Chance) -> u8 {
    if chance.once_in(2) {
        chance.pick(b"0123456789,")
    } else {
        loop {
            let byte = chance.below(256) as u8;
            if byte != b'\n' {
                return byte;
            }
        }
    }
}

fn main() -> ExitCode {
    let words: Vec<String> = std::env::args().skip(1).collect();
    let numbers: Vec<Option<u64>> = words.iter().take(2).map(|word| word.parse().ok()).collect();
    let (&[Some(seed), Some(lines)], true) = (&numbers[..], words.len() <= 3) else {
        let _ = writeln!(io::stderr(), "use: traffic SEED LINES [FILE]");
        return ExitCode::FAILURE;
    };
    let mut exchange = Exchange::new();
    if let Some(file) = words.get(2) {
        match std::fs::read(file) {
            Ok(bytes) => {
                let lines = bytes.split(|&byte| byte == b'\n');
                for call in lines.filter_map(read_call) {
                    exchange.call(call);
                }
            }
            Err(error) => {
                let _ = writeln!(io::stderr(), "cannot read {file}: {error}");
                return ExitCode::FAILURE;
            }
        }
    }
    let output = BufWriter::with_capacity(1 << 20, io::stdout());
    match Traffic::new(seed, lines, exchange, output).run() {
        Ok(()) => ExitCode::SUCCESS,
        Err(error) => {
            let _ = writeln!(io::stderr(), "cannot write: {error}");
            ExitCode::FAILURE
        }
    }
}
