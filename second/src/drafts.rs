//! Calls drawn for an exchange, for the tools that print traffic: calls that
//! are right in its state, calls that are to be refused with a given code, and
//! lines that are no call.

use crate::chance::Chance;
use crate::engine::{bid_quote, Exchange, Market, Phase, Place, Ticket, MILLION, MOST};
use crate::lines::{read_call, FIELDS, KINDS, NO_CALL};

/// Values that stand at or next to some border.
const BORDERS: [u64; 40] = [
    0, 1, 2, 3, 4, 5, 14, 15, 16, 17, 31, 32, 62, 63, 64, 65, 66, 127, 128, 255, 256, 65_535,
    65_536, 499_999, 500_000, 500_001, 999_999, 1_000_000, 1_000_001, 999_999_999, 1_000_000_000,
    1_000_000_001, 1_999_999_999, 2_000_000_000, 2_000_000_001, 2_147_483_647, 2_147_483_648,
    4_294_967_293, 4_294_967_294, 4_294_967_295,
];

/// How many sorts of lines that are no call take turns.
pub const SORTS: usize = 61;

/// The fill of a line that is brought to a length.
#[derive(Clone, Copy)]
enum Fill {
    Spaces,
    Zeros,
    Commas,
    /// Zeros before the last number.
    LeadingZeros,
    Fields,
}

/// A call as its kind and fields.
#[derive(Clone, Copy)]
pub struct Draft {
    pub kind: usize,
    pub f: [u64; 6],
}

impl Draft {
    pub fn new(kind: usize, fields: &[u64]) -> Draft {
        let mut f = [0; 6];
        for (place, value) in f.iter_mut().zip(fields) {
            *place = (*value).min(MOST);
        }
        Draft { kind, f }
    }

    pub fn numbers(&self) -> Vec<String> {
        let mut numbers = vec![self.kind.to_string()];
        numbers.extend(self.f[..FIELDS[self.kind]].iter().map(u64::to_string));
        numbers
    }

    pub fn text(&self) -> Vec<u8> {
        self.numbers().join(",").into_bytes()
    }
}

/// The sort of business for a while: sizes of amounts and of prices.
#[derive(Clone, Copy, PartialEq)]
pub enum Season {
    Tiny,
    Usual,
    Dear,
    Odd,
    Huge,
}

/// What calls are drawn for: the exchange, and the sizes and markets of the
/// business.
pub struct Drafts {
    pub chance: Chance,
    pub exchange: Exchange,
    pub season: Season,
    /// Markets in use.
    pub markets: Vec<u64>,
    /// New rounds begin at this block or later, where one is given.
    pub jump: Option<u64>,
    /// The next sort of line that is no call.
    sort: usize,
}

impl Drafts {
    pub fn new(chance: Chance, exchange: Exchange, sort: usize) -> Drafts {
        let markets = vec![1, 2, 3];
        Drafts { chance, exchange, season: Season::Usual, markets, jump: None, sort }
    }

    /// The code that a call would get now.
    pub fn code_of(&self, draft: Draft) -> u8 {
        match read_call(&draft.text()) {
            Some(call) => self.exchange.clone().call(call).code,
            None => NO_CALL,
        }
    }

    // The state.

    pub fn last(&self) -> u64 {
        u64::from(self.exchange.last_block())
    }

    pub fn market(&self, market: u64) -> Market {
        self.exchange.markets()[market as usize - 1]
    }

    pub fn balance(&self, member: u64, token: u64) -> u64 {
        self.exchange.balances()[member as usize][token as usize]
    }

    /// What may still be deposited of a token.
    pub fn room(&self, token: u64) -> u64 {
        MOST - self.exchange.supply()[token as usize]
    }

    /// A ticket for which the test holds, any of them, rather the first or the
    /// last now and then.
    pub fn find_ticket(&mut self, test: impl Fn(&Exchange, &Ticket) -> bool) -> Option<u64> {
        let first = match self.chance.below(8) {
            0 => self.chance.pick(&[0, 63]),
            _ => self.chance.below(64),
        };
        let x = &self.exchange;
        (0..64).map(|i| (first + i) % 64).find(|&i| test(x, &x.tickets()[i as usize]))
    }

    /// The member of a ticket.
    pub fn owner(&self, ticket: u64) -> u64 {
        u64::from(self.exchange.tickets()[ticket as usize].member)
    }

    /// The market of a ticket.
    pub fn market_of(&self, ticket: u64) -> u64 {
        u64::from(self.exchange.tickets()[ticket as usize].market)
    }

    /// The first block at which a market that collects can be matched; it may
    /// be above the most.
    pub fn match_block(&self, market: u64) -> u64 {
        self.last().max(u64::from(self.market(market).opened) + 4)
    }

    /// The tickets in a market's round.
    pub fn marked(&self, market: u64) -> Vec<u64> {
        let marks = self.market(market).marks;
        (0..64).filter(|i| marks >> i & 1 == 1).collect()
    }

    /// Any member but this one.
    pub fn other_member(&mut self, member: u64) -> u64 {
        (member + self.chance.between(1, 15)) % 16
    }

    /// A member whose balance of a token passes the test, any of them.
    fn find_balance(&mut self, token: u64, test: impl Fn(u64) -> bool) -> Option<u64> {
        let first = self.chance.below(16);
        (0..16).map(|i| (first + i) % 16).find(|&i| test(self.balance(i, token)))
    }

    /// A member with at least so much of a token.
    pub fn find_member(&mut self, token: u64, least: u64) -> Option<u64> {
        self.find_balance(token, |balance| balance >= least)
    }

    /// A member with less than so much of a token.
    pub fn find_poor(&mut self, token: u64, wanted: u64) -> Option<u64> {
        self.find_balance(token, |balance| balance < wanted)
    }

    pub fn find_market(&mut self, phase: Phase) -> Option<u64> {
        let first = self.chance.below(3);
        (0..3).map(|i| 1 + (first + i) % 3).find(|&i| self.market(i).phase == phase)
    }

    fn fits(x: &Exchange, ticket: &Ticket) -> bool {
        let round = &x.markets()[ticket.market as usize - 1];
        let limit = u64::from(ticket.limit);
        if ticket.side == 0 {
            limit >= round.hi
        } else {
            limit <= round.lo
        }
    }

    pub fn phase_of(x: &Exchange, ticket: &Ticket) -> Phase {
        x.markets()[ticket.market as usize - 1].phase
    }

    // Numbers by season.

    pub fn amount(&mut self) -> u64 {
        match self.season {
            Season::Tiny => self.chance.between(1, 30),
            Season::Usual => self.chance.between(1, 50_000),
            Season::Dear => self.chance.between(1, 20_000),
            Season::Odd => self.chance.any_size(MOST),
            Season::Huge => match self.chance.below(4) {
                0 => MOST - self.chance.below(3),
                1 => self.chance.between(1, 4_294) * MILLION,
                _ => self.chance.between(MOST / 16, MOST),
            },
        }
    }

    pub fn reference(&mut self) -> u64 {
        let c = &mut self.chance;
        match self.season {
            Season::Tiny => c.between(100_000, 5_000_000),
            Season::Usual => c.between(2_300_000, 2_700_000),
            Season::Dear => c.between(50_000_000, 1_000_000_000),
            Season::Odd => match c.below(3) {
                0 => c.pick(&[1, 2, 3, 4, 5, 999_999, 1_000_001, 999_999_999, 1_000_000_000]),
                _ => c.any_size(1_000_000_000),
            },
            Season::Huge => match c.below(6) {
                0 => c.pick(&[1, 3, 1_000_000_000]),
                1 => c.any_size(1_000_000_000),
                2 => c.between(900_000, 1_100_000),
                _ => 1_000_000,
            },
        }
    }

    pub fn slack(&mut self) -> u64 {
        match self.chance.below(8) {
            0 | 1 => 0,
            2 => 500_000,
            3 => self.chance.pick(&[1, 2, 499_999]),
            4 | 5 => self.chance.between(0, 500_000),
            _ => self.chance.between(1, 100) * 1_000,
        }
    }

    pub fn length(&mut self) -> u64 {
        match self.chance.below(6) {
            0 => 1,
            1 => 64,
            2 => self.chance.between(1, 64),
            _ => self.chance.between(2, 20),
        }
    }

    /// A number of blocks to move on, mostly none or few.
    pub fn some_blocks(&mut self) -> u64 {
        match self.chance.below(10) {
            0..=6 => 0,
            7 | 8 => 1,
            _ => self.chance.between(2, 6),
        }
    }

    fn side_limit(&mut self, market: u64, side: u64) -> u64 {
        let round = self.market(market);
        let wide = wide_limit(side);
        if round.phase == Phase::Collect {
            let (edge, off) =
                if side == 0 { (round.hi, round.hi - 1) } else { (round.lo, round.lo + 1) };
            let limit = match self.chance.below(10) {
                0..=3 => edge,
                4 | 5 => off,
                6 if side == 0 => edge + self.chance.below(1_000),
                6 => edge - self.chance.below(edge),
                7 => self.chance.any_size(2_000_000_000),
                _ => wide,
            };
            return limit.clamp(1, 2_000_000_000);
        }
        match self.chance.below(6) {
            0 => self.chance.any_size(2_000_000_000),
            1 | 2 => {
                let r = self.reference();
                if side == 0 {
                    r + self.chance.below(r)
                } else {
                    r - self.chance.below(r)
                }
            }
            _ => wide,
        }
    }

    // Calls that are right now.

    /// A call of a kind that is right now, if there is one to be had.
    pub fn draft(&mut self, kind: usize) -> Option<Draft> {
        let market = self.chance.pick(&self.markets);
        match kind {
            1 => {
                let token = if self.chance.once_in(2) { 0 } else { market };
                let room = self.room(token);
                let amount = match self.chance.below(12) {
                    0 => 1,
                    1..=4 => self.amount(),
                    _ => self.amount().saturating_mul(4),
                };
                let amount = amount.min(room);
                let member = self.chance.below(16);
                (amount > 0).then(|| Draft::new(1, &[member, token, amount]))
            }
            2 => {
                let token = self.chance.below(4);
                let member = self.find_member(token, 1)?;
                let balance = self.balance(member, token);
                let amount = match self.chance.below(4) {
                    0 => balance,
                    1 => 1,
                    2 => self.chance.between(1, balance),
                    _ => self.amount().min(balance),
                };
                Some(Draft::new(2, &[member, token, amount]))
            }
            3 => {
                let ticket = self.find_ticket(|_, t| t.place == Place::Free)?;
                let side = self.chance.below(2);
                let token = offered_token(market, side);
                let member = self.find_member(token, 1)?;
                let balance = self.balance(member, token);
                let amount = match self.chance.below(8) {
                    0 => 1,
                    1 | 2 => balance,
                    3 => self.chance.between(1, balance),
                    _ => self.amount().min(balance),
                };
                let limit = self.side_limit(market, side);
                Some(Draft::new(3, &[ticket, member, market, side, limit, amount]))
            }
            4 => {
                let ticket = self.find_ticket(|_, t| t.place == Place::Resting)?;
                Some(Draft::new(4, &[ticket, self.owner(ticket)]))
            }
            5 => {
                if self.market(market).phase != Phase::Closed {
                    return None;
                }
                let mut block = self.last() + self.some_blocks();
                if let Some(least) = self.jump {
                    block = block.max(least);
                } else if self.chance.once_in(50) {
                    block = (block + self.chance.any_size(100_000)).min(3_000_000_000);
                    block = block.max(self.last());
                }
                let draft = [market, block, self.reference(), self.slack(), self.length()];
                Some(Draft::new(5, &draft))
            }
            6 => {
                let ticket = self.find_ticket(|x, t| {
                    t.place == Place::Resting
                        && Self::phase_of(x, t) == Phase::Collect
                        && Self::fits(x, t)
                })?;
                Some(Draft::new(6, &[ticket]))
            }
            7 => {
                if self.market(market).phase != Phase::Collect {
                    return None;
                }
                let block = self.match_block(market) + self.some_blocks();
                (block <= MOST).then(|| Draft::new(7, &[market, block]))
            }
            8 => {
                let draft = self.bid_draft(market)?;
                (self.code_of(draft) == 0).then_some(draft)
            }
            9 => {
                let round = self.market(market);
                if round.phase != Phase::Auction {
                    return None;
                }
                let open = round.halves[0].left() + round.halves[1].left() > 0;
                let mut block = self.last();
                if open {
                    let end = u64::from(round.start) + u64::from(round.length);
                    if block <= end && !self.chance.once_in(4) {
                        // Leave time for bids.
                        return None;
                    }
                    block = block.max(end + 1);
                }
                block += self.some_blocks();
                (block <= MOST).then(|| Draft::new(9, &[market, block]))
            }
            10 => {
                let ticket = self.find_ticket(|x, t| {
                    t.place == Place::Round && Self::phase_of(x, t) == Phase::Paying
                })?;
                Some(Draft::new(10, &[ticket]))
            }
            11 => {
                let ticket = self.find_ticket(|x, t| {
                    t.place == Place::Round && Self::phase_of(x, t) == Phase::Collect
                })?;
                Some(Draft::new(11, &[ticket, self.owner(ticket)]))
            }
            _ => unreachable!("no kind {kind}"),
        }
    }

    /// A block at which the market's auction still takes bids.
    fn bid_block(&mut self, market: u64) -> Option<u64> {
        let round = self.market(market);
        if round.phase != Phase::Auction {
            return None;
        }
        let end = (u64::from(round.start) + u64::from(round.length)).min(MOST);
        let last = self.last();
        if last > end {
            return None;
        }
        Some(match self.chance.below(10) {
            0..=5 => last,
            6 | 7 => (last + 1).min(end),
            8 => self.chance.between(last, end),
            _ => end,
        })
    }

    /// The quote of a bid in an auction, and what it would be if prices had no
    /// steps.
    pub fn bid_quotes(&self, bid: &Draft) -> [u64; 2] {
        let [market, _, block, side, base, _] = bid.f;
        let round = self.market(market);
        let side = side as u32;
        let k = block as u32 - round.start;
        [round.price(side, k), round.unstepped_price(side, k)]
            .map(|price| bid_quote(side, base as u32, price))
    }

    /// The least and the most base with which a bid takes something and no more
    /// than its side has left; the most may be above all numbers.
    pub fn bid_range(&self, market: u64, side: u64, block: u64) -> (u64, u64) {
        let round = self.market(market);
        let left = round.halves[side as usize].left();
        if side == 1 {
            return (1, left);
        }
        let price = round.price(0, block as u32 - round.start);
        (MILLION.div_ceil(price), ((left + 1) * MILLION - 1) / price)
    }

    /// The token that the maker of a bid gives, and how much of it.
    pub fn bid_given(&self, bid: &Draft) -> (u64, u64) {
        let [market, _, _, side, base, _] = bid.f;
        if side == 1 {
            (0, self.bid_quotes(bid)[0])
        } else {
            (market, base)
        }
    }

    /// A bid with side, size and bound that fit; its maker may be too poor.
    pub fn bid_draft(&mut self, market: u64) -> Option<Draft> {
        let block = self.bid_block(market)?;
        let round = self.market(market);
        let k = block as u32 - round.start;
        let mut side = self.chance.below(2);
        if round.halves[side as usize].left() == 0 {
            side = 1 - side;
        }
        let price = round.price(side as u32, k);
        let (low, high) = self.bid_range(market, side, block);
        let high = high.min(MOST);
        if low > high {
            return None;
        }
        let mut base = match self.chance.below(6) {
            0 => low,
            1 | 2 => high,
            3 => self.amount().clamp(low, high),
            _ => self.chance.between(low, high),
        };
        let given_token = if side == 1 { 0 } else { market };
        let mut given = if side == 1 { bid_quote(1, base as u32, price) } else { base };
        let mut member = self.chance.below(16);
        if self.balance(member, given_token) < given {
            // Rather a member who can pay, or a smaller bid.
            match self.find_member(given_token, given) {
                Some(found) => member = found,
                None if self.chance.once_in(2) => {
                    member = self.find_member(given_token, 1).unwrap_or(member);
                    let balance = self.balance(member, given_token);
                    let most = if side == 1 { balance * MILLION / price } else { balance };
                    base = most.clamp(low, high);
                    given = if side == 1 { bid_quote(1, base as u32, price) } else { base };
                }
                None => {}
            }
        }
        let quote = if side == 1 { given } else { bid_quote(0, base as u32, price) };
        let bound = match (self.chance.below(4), side) {
            (0 | 1, _) => quote,
            (2, _) => wide_bound(side),
            (_, 1) => quote + self.chance.below(100),
            (_, _) => quote - self.chance.below(quote.min(100)),
        };
        Some(Draft::new(8, &[market, member, block, side, base, bound]))
    }

    /// A call that is right now and moves a market on from its phase, or some
    /// other one.
    pub fn right(&mut self, market: u64) -> Option<Draft> {
        let kinds: &[usize] = match self.market(market).phase {
            Phase::Closed => &[1, 1, 2, 3, 3, 3, 4, 5, 5, 5, 10],
            // It can never be matched, but it can be left.
            Phase::Collect if self.match_block(market) > MOST => &[1, 3, 3, 6, 6, 6, 11, 11],
            Phase::Collect => &[1, 2, 3, 3, 3, 3, 4, 6, 6, 6, 6, 6, 6, 6, 6, 7, 11],
            Phase::Auction => &[1, 3, 4, 6, 8, 8, 8, 8, 8, 8, 8, 9, 9],
            Phase::Paying => &[1, 2, 3, 8, 10, 10, 10, 10, 10, 10, 10],
        };
        for _ in 0..4 {
            let kind = self.chance.pick(kinds);
            if let Some(draft) = self.draft(kind) {
                return Some(draft);
            }
        }
        self.draft(1)
    }

    // Calls to be refused.

    /// A call that is right now, or one with fields that are in their ranges.
    pub fn start(&mut self, kind: usize) -> Draft {
        if let Some(draft) = self.draft(kind) {
            return draft;
        }
        let ticket = self.chance.below(64);
        let member = self.chance.below(16);
        let token = self.chance.below(4);
        let market = self.chance.between(1, 3);
        let side = self.chance.below(2);
        let amount = self.amount();
        let block = (self.last() + self.chance.below(10)).saturating_sub(self.chance.below(5));
        match kind {
            1 | 2 => Draft::new(kind, &[member, token, amount]),
            3 => {
                let limit = self.side_limit(market, side);
                Draft::new(3, &[ticket, member, market, side, limit, amount])
            }
            4 | 11 => Draft::new(kind, &[ticket, member]),
            5 => {
                let draft = [market, block, self.reference(), self.slack(), self.length()];
                Draft::new(5, &draft)
            }
            7 | 9 => Draft::new(kind, &[market, block]),
            8 => Draft::new(8, &[market, member, block, side, amount, wide_bound(side)]),
            6 | 10 => Draft::new(kind, &[ticket]),
            _ => unreachable!("no kind {kind}"),
        }
    }

    /// A call of a kind with one to three fields set to border values.
    pub fn mutated(&mut self, kind: usize) -> Draft {
        let mut draft = self.start(kind);
        for _ in 0..self.chance.between(1, 3) {
            let place = self.chance.below(FIELDS[kind] as u64) as usize;
            let value = draft.f[place];
            draft.f[place] = match self.chance.below(5) {
                0 => value.saturating_sub(1),
                1 => (value + 1).min(MOST),
                2 => self.chance.any_size(MOST),
                _ => self.chance.pick(&BORDERS),
            };
        }
        // Blocks far ahead would end all rounds for good.
        let block = match kind {
            5 | 7 | 9 => Some(1),
            8 => Some(2),
            _ => None,
        };
        if let Some(place) = block {
            if draft.f[place] > self.last() + 1_000 && self.code_of(draft) == 0 {
                draft.f[place] = self.last();
            }
        }
        draft
    }

    fn bad_member(&mut self) -> u64 {
        match self.chance.below(3) {
            0 => 16,
            1 => self.chance.pick(&[17, 31, 32, 255, 256, 65_536, MOST]),
            _ => 15 + self.chance.any_size(MOST - 15),
        }
    }

    fn bad_token(&mut self) -> u64 {
        match self.chance.below(3) {
            0 | 1 => 4,
            _ => 3 + self.chance.any_size(MOST - 3),
        }
    }

    fn bad_market(&mut self) -> u64 {
        match self.chance.below(5) {
            0 | 1 => 0,
            2 | 3 => 4,
            _ => 3 + self.chance.any_size(MOST - 3),
        }
    }

    fn bad_ticket(&mut self) -> u64 {
        match self.chance.below(3) {
            0 | 1 => 64,
            _ => 63 + self.chance.any_size(MOST - 63),
        }
    }

    fn bad_side(&mut self) -> u64 {
        match self.chance.below(3) {
            0 | 1 => 2,
            _ => 1 + self.chance.any_size(MOST - 1),
        }
    }

    fn bad_limit(&mut self) -> u64 {
        match self.chance.below(3) {
            0 => 0,
            1 => 2_000_000_001,
            _ => 2_000_000_000 + self.chance.any_size(MOST - 2_000_000_000),
        }
    }

    /// A block before the last accepted one.
    fn early_block(&mut self) -> Option<u64> {
        let last = self.last();
        if last == 0 {
            return None;
        }
        Some(match self.chance.below(3) {
            0 => 0,
            1 => last - 1,
            _ => self.chance.below(last),
        })
    }

    /// True now and then: whether a later condition is broken too.
    fn also(&mut self) -> bool {
        self.chance.once_in(4)
    }

    /// A call that is meant to be refused with this code. Later conditions
    /// are broken too now and then.
    pub fn spoiled(&mut self, kind: usize, code: u8) -> Option<Draft> {
        let mut draft = self.start(kind);
        match kind {
            1 | 2 => self.spoil_deposit(&mut draft, code)?,
            3 => self.spoil_order(&mut draft, code)?,
            4 | 11 => self.spoil_owned(&mut draft, code)?,
            5 => self.spoil_open(&mut draft, code)?,
            6 | 10 => self.spoil_ticket(&mut draft, code)?,
            7 => self.spoil_match(&mut draft, code)?,
            8 => self.spoil_bid(&mut draft, code)?,
            9 => self.spoil_settle(&mut draft, code)?,
            _ => unreachable!("no kind {kind}"),
        }
        Some(draft)
    }

    fn spoil_deposit(&mut self, draft: &mut Draft, code: u8) -> Option<()> {
        let f = &mut draft.f;
        match code {
            1 => f[0] = self.bad_member(),
            2 => f[1] = self.bad_token(),
            6 => f[2] = 0,
            14 => {
                let room = self.room(f[1]);
                if room == MOST {
                    return None;
                }
                f[2] = match self.chance.below(3) {
                    0 => room + 1,
                    1 => MOST,
                    _ => self.chance.between(room + 1, MOST),
                };
            }
            _ => {
                let balance = self.balance(f[0], f[1]);
                if balance == MOST {
                    return None;
                }
                f[2] = match self.chance.below(3) {
                    0 | 1 => balance + 1,
                    _ => self.chance.between(balance + 1, MOST),
                };
            }
        }
        if code < 2 && self.also() {
            f[1] = self.bad_token();
        }
        if code < 6 && self.also() {
            f[2] = 0;
        }
        Some(())
    }

    fn spoil_order(&mut self, draft: &mut Draft, code: u8) -> Option<()> {
        let f = &mut draft.f;
        match code {
            1 => f[1] = self.bad_member(),
            3 => f[2] = self.bad_market(),
            4 => f[0] = self.bad_ticket(),
            5 => f[3] = self.bad_side(),
            6 => match self.chance.below(3) {
                0 => f[5] = 0,
                1 => f[4] = self.bad_limit(),
                _ => {
                    f[5] = 0;
                    f[4] = self.bad_limit();
                }
            },
            7 => f[0] = self.find_ticket(|_, t| t.place != Place::Free)?,
            _ => {
                f[0] = self.find_ticket(|_, t| t.place == Place::Free)?;
                f[1] = self.chance.below(16);
                let token = if f[3] == 0 { 0 } else { f[2] };
                let balance = self.balance(f[1], token);
                f[5] = match self.chance.below(2) {
                    0 => balance + 1,
                    _ => self.chance.between(balance + 1, MOST),
                }
                .min(MOST);
            }
        }
        if code < 3 && self.also() {
            f[2] = self.bad_market();
        }
        if code < 4 && self.also() {
            f[0] = self.bad_ticket();
        }
        if code < 5 && self.also() {
            f[3] = self.bad_side();
        }
        if code < 6 && self.also() {
            f[self.chance.between(4, 5) as usize] = 0;
        }
        if code < 7 && code != 4 && f[0] < 64 && self.also() {
            if let Some(ticket) = self.find_ticket(|_, t| t.place != Place::Free) {
                f[0] = ticket;
            }
        }
        if code == 7 && self.also() {
            f[5] = MOST;
        }
        Some(())
    }

    /// Cancel (4) and leave (11).
    fn spoil_owned(&mut self, draft: &mut Draft, code: u8) -> Option<()> {
        let leave = draft.kind == 11;
        let f = &mut draft.f;
        match code {
            1 => f[1] = self.bad_member(),
            4 => f[0] = self.bad_ticket(),
            8 => match self.chance.below(3) {
                0 => f[0] = self.find_ticket(|_, t| t.place == Place::Free)?,
                sort => {
                    let place = if sort == 1 { Place::Resting } else { Place::Round };
                    f[0] = self.find_ticket(|_, t| t.place == place)?;
                    f[1] = self.other_member(self.owner(f[0]));
                }
            },
            9 => {
                let place = if leave { Place::Resting } else { Place::Round };
                f[0] = self.find_ticket(|_, t| t.place == place)?;
                f[1] = self.owner(f[0]);
            }
            11 => {
                let phase = self.chance.pick(&[Phase::Auction, Phase::Paying]);
                f[0] = self
                    .find_ticket(|x, t| t.place == Place::Round && Self::phase_of(x, t) == phase)?;
                f[1] = self.owner(f[0]);
            }
            _ => unreachable!("code {code} refuses neither"),
        }
        if code == 1 && self.also() {
            f[0] = self.bad_ticket();
        }
        Some(())
    }

    fn spoil_open(&mut self, draft: &mut Draft, code: u8) -> Option<()> {
        let f = &mut draft.f;
        if code == 12 {
            f[0] = self.find_market(Phase::Closed)?;
            f[1] = self.early_block()?;
            return Some(());
        }
        if code == 11 || (code < 11 && self.also()) {
            let phase = self.chance.pick(&[Phase::Collect, Phase::Auction, Phase::Paying]);
            f[0] = self.find_market(phase).unwrap_or(f[0]);
        }
        if code == 10 || (code < 10 && self.also()) {
            match self.chance.below(3) {
                0 => f[2] = self.chance.pick(&[0, 1_000_000_001, MOST]),
                1 => f[3] = self.chance.pick(&[500_001, 1_000_000, 1_000_001, MOST]),
                _ => f[4] = self.chance.pick(&[0, 65, MOST]),
            }
        }
        if code == 3 {
            f[0] = self.bad_market();
        }
        if self.also() {
            f[1] = self.early_block().unwrap_or(f[1]);
        }
        Some(())
    }

    /// Enter (6) and claim (10).
    fn spoil_ticket(&mut self, draft: &mut Draft, code: u8) -> Option<()> {
        let enter = draft.kind == 6;
        draft.f[0] = match (code, enter) {
            (4, _) => self.bad_ticket(),
            (8, _) => self.find_ticket(|_, t| t.place == Place::Free)?,
            (9, true) => self.find_ticket(|_, t| t.place == Place::Round)?,
            (9, false) => self.find_ticket(|_, t| t.place == Place::Resting)?,
            (11, true) => self.find_ticket(|x, t| {
                t.place == Place::Resting && Self::phase_of(x, t) != Phase::Collect
            })?,
            (11, false) => self.find_ticket(|x, t| {
                t.place == Place::Round && Self::phase_of(x, t) != Phase::Paying
            })?,
            _ => self.find_ticket(|x, t| {
                t.place == Place::Resting
                    && Self::phase_of(x, t) == Phase::Collect
                    && !Self::fits(x, t)
            })?,
        };
        Some(())
    }

    fn spoil_match(&mut self, draft: &mut Draft, code: u8) -> Option<()> {
        let f = &mut draft.f;
        match code {
            3 => f[0] = self.bad_market(),
            11 => {
                let phase = self.chance.pick(&[Phase::Closed, Phase::Auction, Phase::Paying]);
                f[0] = self.find_market(phase)?;
            }
            12 => {
                f[0] = self.find_market(Phase::Collect)?;
                f[1] = self.early_block()?;
            }
            _ => {
                f[0] = self.find_market(Phase::Collect)?;
                let most = u64::from(self.market(f[0]).opened) + 3;
                if most < self.last() {
                    return None;
                }
                f[1] = match self.chance.below(2) {
                    0 => most,
                    _ => self.chance.between(self.last(), most),
                };
            }
        }
        if code < 12 && self.also() {
            f[1] = self.early_block().unwrap_or(f[1]);
        }
        Some(())
    }

    fn spoil_settle(&mut self, draft: &mut Draft, code: u8) -> Option<()> {
        let f = &mut draft.f;
        match code {
            3 => f[0] = self.bad_market(),
            11 => {
                let phase = self.chance.pick(&[Phase::Closed, Phase::Collect, Phase::Paying]);
                f[0] = self.find_market(phase)?;
            }
            12 => {
                f[0] = self.find_market(Phase::Auction)?;
                f[1] = self.early_block()?;
            }
            _ => {
                f[0] = self.find_market(Phase::Auction)?;
                let round = self.market(f[0]);
                let end = u64::from(round.start) + u64::from(round.length);
                if end < self.last() {
                    return None;
                }
                f[1] = match self.chance.below(2) {
                    0 => end,
                    _ => self.chance.between(self.last(), end),
                };
            }
        }
        if code < 12 && self.also() {
            f[1] = self.early_block().unwrap_or(f[1]);
        }
        Some(())
    }

    fn spoil_bid(&mut self, draft: &mut Draft, code: u8) -> Option<()> {
        if code <= 11 {
            let f = &mut draft.f;
            match code {
                1 => f[1] = self.bad_member(),
                3 => f[0] = self.bad_market(),
                5 => f[3] = self.bad_side(),
                6 => f[4] = 0,
                _ => {
                    let phase = self.chance.pick(&[Phase::Closed, Phase::Collect, Phase::Paying]);
                    f[0] = self.find_market(phase)?;
                }
            }
            if code < 3 && self.also() {
                f[0] = self.bad_market();
            }
            if code < 5 && self.also() {
                f[3] = self.bad_side();
            }
            if code < 6 && self.also() {
                f[4] = 0;
            }
            if self.also() {
                f[2] = self.early_block().unwrap_or(f[2]);
            }
            return Some(());
        }
        let market = self.find_market(Phase::Auction)?;
        let round = self.market(market);
        if code == 12 {
            draft.f[0] = market;
            draft.f[2] = self.early_block()?;
            return Some(());
        }
        if code == 16 {
            let first = self.last().max(u64::from(round.start) + u64::from(round.length) + 1);
            if first > MOST {
                return None;
            }
            let block = match self.chance.below(3) {
                0 | 1 => first,
                _ => self.chance.between(first, MOST),
            };
            if let Some(bid) = self.bid_draft(market) {
                *draft = bid;
            }
            draft.f[0] = market;
            draft.f[2] = block;
            return Some(());
        }
        if code == 17 {
            let block = self.bid_block(market)?;
            let side = self.chance.below(2);
            let left = round.halves[side as usize].left();
            let (low, high) = self.bid_range(market, side, block);
            if low == 1 && high >= MOST {
                return None;
            }
            // Too little, or too much where there is a number for it.
            let sorts = if high < MOST { 4 } else { 2 };
            let base = match self.chance.below(sorts) {
                0 if low > 1 => low - 1,
                1 if low > 1 => self.chance.between(1, low - 1),
                2 => self.chance.between(high + 1, MOST),
                _ => high + 1,
            };
            let bound = self.chance.pick(&[0, 1, left, MOST]);
            let member = self.chance.below(16);
            *draft = Draft::new(8, &[market, member, block, side, base, bound]);
            return Some(());
        }
        *draft = self.bid_draft(market)?;
        if code == 18 {
            let side = draft.f[3];
            let [quote, unstepped] = self.bid_quotes(draft);
            draft.f[5] = match (self.chance.below(3), side) {
                (0, _) if unstepped != quote => unstepped.min(MOST),
                (0 | 1, 1) => (quote - 1).min(MOST),
                (0 | 1, _) => (quote + 1).min(MOST),
                (_, 1) => self.chance.below(quote.min(MOST)),
                (_, _) => MOST,
            };
            if self.also() {
                draft.f[1] = self.chance.below(16);
            }
        } else {
            let (token, given) = self.bid_given(draft);
            draft.f[1] = self.find_poor(token, given)?;
        }
        Some(())
    }

    // Lines that are no call.

    /// A call with one fault. The sorts of faults take turns, so that each
    /// comes up in a few hundred lines of this kind.
    pub fn faulty(&mut self) -> Vec<u8> {
        let sort = self.sort;
        self.sort = (sort + 1) % SORTS;
        let kind = match sort {
            59 | 60 => 11,
            _ => self.chance.between(1, KINDS as u64) as usize,
        };
        let draft = self.start(kind);
        let mut numbers = draft.numbers();
        let mut text = draft.text();
        let c = &mut self.chance;
        let last = numbers.len() - 1;
        let place = c.below(numbers.len() as u64) as usize;
        let field = c.between(1, last as u64) as usize;
        let value: u128 = numbers[place].parse().unwrap_or(0);
        let end = text.len();
        let inside = c.between(1, end as u64 - 1) as usize;
        let letter = c.pick(b"aAexXzZ");
        match sort {
            0 => return Vec::new(),
            // Leading zeros.
            1 => numbers[0].insert(0, '0'),
            2 => numbers[1].insert(0, '0'),
            3 => numbers[last].insert(0, '0'),
            4 => numbers[field] = "00".to_string(),
            // Empty fields, and commas at the ends.
            5 => numbers[0].clear(),
            6 => numbers[1].clear(),
            7 => numbers[last].clear(),
            8 => text.insert(0, b','),
            9 => text.push(b','),
            10 => numbers.insert(field, String::new()),
            // Values that are too large, some with the right low bits.
            11 => numbers[0] = "4294967296".to_string(),
            12 => numbers[field] = "4294967296".to_string(),
            13 => numbers[last] = "4294967296".to_string(),
            14 => numbers[place] = (value + (1 << 32)).to_string(),
            15 => numbers[place] = (value + (1 << 64)).to_string(),
            16 => numbers[place] += &"0".repeat(c.between(11, 50) as usize),
            // Lengths.
            17..=21 => text = filled(text, [79, 80, 81, 82, 200][sort - 17], Fill::LeadingZeros),
            22..=26 => text = filled(text, [79, 80, 81, 82, 200][sort - 22], Fill::Spaces),
            27..=31 => text = padded(c, text, [79, 80, 81, 82, 200][sort - 27]),
            32 => {
                let fill = c.pick(b"0 ,x");
                let len = c.pick(&[80, 81]);
                text.splice(0..0, vec![fill; len]);
            }
            // Bytes that are neither digit nor comma: at the start, inside, at the end.
            33..=35 => text.insert([0, inside, end][sort - 33], b'\r'),
            36..=38 => text.insert([0, inside, end][sort - 36], 0),
            39..=41 => text.insert([0, inside, end][sort - 39], letter),
            42..=44 => text.insert([0, inside, end][sort - 42], b' '),
            45 => numbers[place].insert(0, '+'),
            46 => numbers[place].insert(0, '-'),
            47 => numbers[field] = "-0".to_string(),
            // Bytes beside the digits, the comma and byte 10; high bits.
            48 => text[inside] = c.pick(b"/:+-"),
            49 => text.push(c.pick(b"\x09\x0b\x8a")),
            50 => text[inside] |= 0x80,
            // Wrong numbers of fields, of kind 11 too.
            51 | 59 => numbers.truncate(last),
            52 => numbers.truncate(1),
            53 | 60 => numbers.push("0".to_string()),
            54 => numbers.extend(vec!["1".to_string(); 6]),
            // Unknown kinds.
            55..=58 => numbers[0] = ["0", "12", "13", "4294967295"][sort - 55].to_string(),
            _ => unreachable!("no sort {sort}"),
        }
        // The fault is in the text or in the numbers.
        if text != draft.text() {
            return text;
        }
        numbers.join(",").into_bytes()
    }
}

/// The token that a side's orders offer.
pub fn offered_token(market: u64, side: u64) -> u64 {
    if side == 0 {
        0
    } else {
        market
    }
}

/// The limit with which a side's orders enter any round.
pub fn wide_limit(side: u64) -> u64 {
    if side == 0 {
        2_000_000_000
    } else {
        1
    }
}

/// The bound that a side's bids keep at any quote.
pub fn wide_bound(side: u64) -> u64 {
    if side == 0 {
        0
    } else {
        MOST
    }
}

/// A call's text brought to a length that no call has.
pub fn padded(chance: &mut Chance, text: Vec<u8>, len: usize) -> Vec<u8> {
    use Fill::*;
    let fill = chance.pick(&[Spaces, Zeros, Commas, LeadingZeros, Fields]);
    filled(text, len, fill)
}

fn filled(mut text: Vec<u8>, len: usize, fill: Fill) -> Vec<u8> {
    match fill {
        Fill::Spaces => text.resize(len, b' '),
        Fill::Zeros => text.resize(len, b'0'),
        Fill::Commas => text.resize(len, b','),
        Fill::LeadingZeros => {
            let comma = text.iter().rposition(|&byte| byte == b',').unwrap_or(0);
            let zeros = vec![b'0'; len.saturating_sub(text.len())];
            text.splice(comma + 1..comma + 1, zeros);
        }
        Fill::Fields => {
            while text.len() < len {
                text.extend_from_slice(b",0");
            }
            text.truncate(len);
        }
    }
    text
}
