//! The exchange: balances, tickets, the three markets with their rounds, the
//! tray and the last block, held in fixed arrays and changed in place by the
//! eleven calls, and by lists of orders. Each call first tests its reasons for
//! refusal in rising number, then moves; an answer is a code and two numbers.
//! Every token amount is at most the token's supply (deposits less
//! withdrawals), which never passes 4,294,967,295, so that sums of amounts fit
//! and products fit in 64 bits.

/// Number of members.
pub const MEMBERS: usize = 16;
/// Number of tokens; token 0 is the quote.
pub const TOKENS: usize = 4;
/// Number of tickets.
pub const TICKETS: usize = 64;
/// Number of markets; market n stands at place n - 1.
pub const MARKETS: usize = 3;
/// Most places of a list of orders, and of its answers.
pub const LIST_MOST: usize = 64;

/// A price counts millionths of a quote unit for each base unit.
pub const MILLION: u64 = 1_000_000;
/// Most of any number on a line, and of a token's supply.
pub const MOST: u64 = 4_294_967_295;

const MOST_LIMIT: u32 = 2_000_000_000;
const MOST_REFERENCE: u32 = 1_000_000_000;
const MOST_SLACK: u32 = 500_000;
const MOST_LENGTH: u32 = 64;
const COLLECT_BLOCKS: u32 = 4;

/// Prices of an auction go in steps of so many millionths.
pub const STEP: u64 = 100;

/// Code of lists that differ in length or are too long.
pub const NO_LIST: u8 = 22;

/// What a call comes back with; code 0 is acceptance.
#[derive(Clone, Copy, PartialEq, Eq, Debug)]
pub struct Answer {
    pub code: u8,
    pub first: u32,
    pub second: u32,
}

impl Answer {
    /// The answer of a refusal.
    #[inline]
    pub fn refused(code: u8) -> Answer {
        Answer { code, first: 0, second: 0 }
    }

    /// The answer of an accepted call. Both numbers are at most `MOST`.
    #[inline]
    pub(crate) fn accepted(first: u64, second: u64) -> Answer {
        Answer { code: 0, first: first as u32, second: second as u32 }
    }
}

/// One of the eleven calls with its fields, not yet tested.
#[derive(Clone, Copy, PartialEq, Eq, Debug)]
pub enum Call {
    Deposit { member: u32, token: u32, amount: u32 },
    Withdraw { member: u32, token: u32, amount: u32 },
    Order { ticket: u32, member: u32, market: u32, side: u32, limit: u32, amount: u32 },
    Cancel { ticket: u32, member: u32 },
    Open { market: u32, block: u32, reference: u32, slack: u32, length: u32 },
    Enter { ticket: u32 },
    Match { market: u32, block: u32 },
    Bid { market: u32, member: u32, block: u32, side: u32, base: u32, bound: u32 },
    Settle { market: u32, block: u32 },
    Claim { ticket: u32 },
    Leave { ticket: u32, member: u32 },
}

impl Call {
    /// The call's kind number, 1 to 11.
    pub fn kind(&self) -> usize {
        match self {
            Call::Deposit { .. } => 1,
            Call::Withdraw { .. } => 2,
            Call::Order { .. } => 3,
            Call::Cancel { .. } => 4,
            Call::Open { .. } => 5,
            Call::Enter { .. } => 6,
            Call::Match { .. } => 7,
            Call::Bid { .. } => 8,
            Call::Settle { .. } => 9,
            Call::Claim { .. } => 10,
            Call::Leave { .. } => 11,
        }
    }
}

/// The fields of one order of a list, not yet tested.
#[derive(Clone, Copy, PartialEq, Eq, Debug)]
pub struct Order {
    pub ticket: u32,
    pub member: u32,
    pub market: u32,
    pub side: u32,
    pub limit: u32,
    pub amount: u32,
}

impl Order {
    /// The call that makes the order singly.
    pub fn call(self) -> Call {
        let Order { ticket, member, market, side, limit, amount } = self;
        Call::Order { ticket, member, market, side, limit, amount }
    }
}

/// Where a ticket stands.
#[derive(Clone, Copy, PartialEq, Eq, Debug, Default)]
pub enum Place {
    #[default]
    Free,
    Resting,
    Round,
}

/// A ticket and its order; all numbers are 0 when it is free.
#[derive(Clone, Copy, PartialEq, Eq, Debug, Default)]
pub struct Ticket {
    pub place: Place,
    pub member: u32,
    pub market: u32,
    /// 0 buys and offers quote, 1 sells and offers base.
    pub side: u32,
    pub limit: u32,
    pub offer: u64,
}

/// Where a market stands.
#[derive(Clone, Copy, PartialEq, Eq, Debug, Default)]
pub enum Phase {
    #[default]
    Closed,
    Collect,
    Auction,
    Paying,
}

/// One side of a round: offers entered, and of these paid, and got for it.
#[derive(Clone, Copy, PartialEq, Eq, Debug, Default)]
pub struct Half {
    pub total: u64,
    pub paid: u64,
    pub got: u64,
}

impl Half {
    /// What the side still offers.
    #[inline]
    pub fn left(&self) -> u64 {
        self.total.saturating_sub(self.paid)
    }
}

/// A market and its round; all numbers are 0 when it is closed.
#[derive(Clone, Copy, PartialEq, Eq, Debug, Default)]
pub struct Market {
    pub phase: Phase,
    /// Block of the open.
    pub opened: u32,
    /// Block of the match, where the auction starts.
    pub start: u32,
    pub length: u32,
    pub reference: u64,
    pub hi: u64,
    pub lo: u64,
    /// One bit for each ticket in the round.
    pub marks: u64,
    /// The buys, then the sells.
    pub halves: [Half; 2],
    /// What the round holds: quote, then base. Side s offers `holds[s]`.
    pub holds: [u64; 2],
}

impl Market {
    /// The auction's price for a side, k blocks after its start, k at most
    /// the length. For side 1 it is rounded up to a multiple of 100, but never
    /// above hi; for side 0 it is rounded down to one, but never below lo.
    /// Where such a rounding would pass hi or lo, hi or lo itself is the price.
    #[inline]
    pub fn price(&self, side: u32, k: u32) -> u64 {
        let price = self.unstepped_price(side, k);
        if side == 1 {
            price.next_multiple_of(STEP).min(self.hi)
        } else {
            (price / STEP * STEP).max(self.lo)
        }
    }

    /// The price before it is rounded to a step.
    #[inline]
    pub fn unstepped_price(&self, side: u32, k: u32) -> u64 {
        let moved = (self.hi - self.lo) * u64::from(k) / u64::from(self.length.max(1));
        if side == 1 {
            self.hi.saturating_sub(moved)
        } else {
            self.lo + moved
        }
    }

    /// The base and the quote that a match trades now. The quote is rounded up.
    /// Where that breaks hi, it is rounded down instead and kept when it is at
    /// least 1 and meets lo; only otherwise are both 0.
    fn trade(&self) -> (u64, u64) {
        let [buys, sells] = &self.halves;
        let base = sells.total.min(buys.total * MILLION / self.reference);
        let product = base * self.reference;
        let up = product.div_ceil(MILLION);
        if up * MILLION <= self.hi * base {
            return (base, up);
        }
        let down = product / MILLION;
        if down >= 1 && down * MILLION >= self.lo * base {
            return (base, down);
        }
        (0, 0)
    }
}

/// The quote of a bid: rounded up where the maker pays it (side 1), rounded
/// down where the maker gets it (side 0).
#[inline]
pub fn bid_quote(side: u32, base: u32, price: u64) -> u64 {
    let product = u64::from(base) * price;
    if side == 1 {
        product.div_ceil(MILLION)
    } else {
        product / MILLION
    }
}

/// The whole exchange.
#[derive(Clone, PartialEq, Eq, Debug)]
pub struct Exchange {
    balances: [[u64; TOKENS]; MEMBERS],
    /// Deposits less withdrawals, per token.
    supply: [u64; TOKENS],
    /// What rounding left, per token.
    tray: [u64; TOKENS],
    tickets: [Ticket; TICKETS],
    markets: [Market; MARKETS],
    last_block: u32,
}

impl Default for Exchange {
    fn default() -> Exchange {
        Exchange::new()
    }
}

/// The token that a side offers.
#[inline]
fn offered(side: u32, market: u32) -> usize {
    if side == 0 {
        0
    } else {
        market as usize
    }
}

#[inline]
fn is_market(market: u32) -> bool {
    (1..=MARKETS as u32).contains(&market)
}

impl Exchange {
    /// A fresh exchange: all zero, free and closed.
    pub fn new() -> Exchange {
        Exchange {
            balances: [[0; TOKENS]; MEMBERS],
            supply: [0; TOKENS],
            tray: [0; TOKENS],
            tickets: [Ticket::default(); TICKETS],
            markets: [Market::default(); MARKETS],
            last_block: 0,
        }
    }

    pub fn balances(&self) -> &[[u64; TOKENS]; MEMBERS] {
        &self.balances
    }

    pub fn supply(&self) -> &[u64; TOKENS] {
        &self.supply
    }

    pub fn tray(&self) -> &[u64; TOKENS] {
        &self.tray
    }

    pub fn tickets(&self) -> &[Ticket; TICKETS] {
        &self.tickets
    }

    /// The markets; market n stands at place n - 1.
    pub fn markets(&self) -> &[Market; MARKETS] {
        &self.markets
    }

    pub fn last_block(&self) -> u32 {
        self.last_block
    }

    /// Works one call.
    #[inline]
    pub fn call(&mut self, call: Call) -> Answer {
        match call {
            Call::Deposit { member, token, amount } => self.deposit(member, token, amount),
            Call::Withdraw { member, token, amount } => self.withdraw(member, token, amount),
            Call::Order { ticket, member, market, side, limit, amount } => {
                self.order(ticket, member, market, side, limit, amount)
            }
            Call::Cancel { ticket, member } => self.cancel(ticket, member),
            Call::Open { market, block, reference, slack, length } => {
                self.open(market, block, reference, slack, length)
            }
            Call::Enter { ticket } => self.enter(ticket),
            Call::Match { market, block } => self.match_round(market, block),
            Call::Bid { market, member, block, side, base, bound } => {
                self.bid(market, member, block, side, base, bound)
            }
            Call::Settle { market, block } => self.settle(market, block),
            Call::Claim { ticket } => self.claim(ticket),
            Call::Leave { ticket, member } => self.leave(ticket, member),
        }
    }

    /// 1. Answers the new balance, 0.
    pub fn deposit(&mut self, member: u32, token: u32, amount: u32) -> Answer {
        if member >= MEMBERS as u32 {
            return Answer::refused(1);
        }
        if token >= TOKENS as u32 {
            return Answer::refused(2);
        }
        if amount == 0 {
            return Answer::refused(6);
        }
        let supply = &mut self.supply[token as usize];
        let amount = u64::from(amount);
        if *supply + amount > MOST {
            return Answer::refused(14);
        }
        *supply += amount;
        let balance = &mut self.balances[member as usize][token as usize];
        *balance += amount;
        Answer::accepted(*balance, 0)
    }

    /// 2. Answers the new balance, 0.
    pub fn withdraw(&mut self, member: u32, token: u32, amount: u32) -> Answer {
        if member >= MEMBERS as u32 {
            return Answer::refused(1);
        }
        if token >= TOKENS as u32 {
            return Answer::refused(2);
        }
        if amount == 0 {
            return Answer::refused(6);
        }
        let balance = &mut self.balances[member as usize][token as usize];
        let amount = u64::from(amount);
        if *balance < amount {
            return Answer::refused(19);
        }
        *balance -= amount;
        self.supply[token as usize] -= amount;
        Answer::accepted(*balance, 0)
    }

    /// 3. Answers the amount, 0.
    pub fn order(
        &mut self,
        ticket: u32,
        member: u32,
        market: u32,
        side: u32,
        limit: u32,
        amount: u32,
    ) -> Answer {
        if member >= MEMBERS as u32 {
            return Answer::refused(1);
        }
        if !is_market(market) {
            return Answer::refused(3);
        }
        if ticket >= TICKETS as u32 {
            return Answer::refused(4);
        }
        if side > 1 {
            return Answer::refused(5);
        }
        if amount == 0 || limit == 0 || limit > MOST_LIMIT {
            return Answer::refused(6);
        }
        let slot = &mut self.tickets[ticket as usize];
        if slot.place != Place::Free {
            return Answer::refused(7);
        }
        let balance = &mut self.balances[member as usize][offered(side, market)];
        let offer = u64::from(amount);
        if *balance < offer {
            return Answer::refused(19);
        }
        *balance -= offer;
        *slot = Ticket { place: Place::Resting, member, market, side, limit, offer };
        Answer::accepted(offer, 0)
    }

    /// Works a list of orders, from first to last, and puts the answer of each
    /// in its place, refused or not. Answers 0, 0. Where the lists differ in
    /// length or are too long, both stay and nothing moves: 22.
    pub fn order_list(&mut self, orders: &[Order], answers: &mut [Answer]) -> Answer {
        if orders.len() != answers.len() || orders.len() > LIST_MOST {
            return Answer::refused(NO_LIST);
        }
        for (order, answer) in orders.iter().zip(answers) {
            let Order { ticket, member, market, side, limit, amount } = *order;
            *answer = self.order(ticket, member, market, side, limit, amount);
        }
        Answer::accepted(0, 0)
    }

    /// The refusals that cancel and leave share: 1, 4 and 8.
    fn not_owned(&self, ticket: u32, member: u32) -> Option<Answer> {
        if member >= MEMBERS as u32 {
            return Some(Answer::refused(1));
        }
        if ticket >= TICKETS as u32 {
            return Some(Answer::refused(4));
        }
        let slot = &self.tickets[ticket as usize];
        if slot.place == Place::Free || slot.member != member {
            return Some(Answer::refused(8));
        }
        None
    }

    /// 4. Answers the amount returned, 0.
    pub fn cancel(&mut self, ticket: u32, member: u32) -> Answer {
        if let Some(refusal) = self.not_owned(ticket, member) {
            return refusal;
        }
        let slot = &mut self.tickets[ticket as usize];
        if slot.place == Place::Round {
            return Answer::refused(9);
        }
        let offer = slot.offer;
        self.balances[member as usize][offered(slot.side, slot.market)] += offer;
        *slot = Ticket::default();
        Answer::accepted(offer, 0)
    }

    /// 5. Answers the high and the low bound.
    pub fn open(
        &mut self,
        market: u32,
        block: u32,
        reference: u32,
        slack: u32,
        length: u32,
    ) -> Answer {
        if !is_market(market) {
            return Answer::refused(3);
        }
        if reference == 0
            || reference > MOST_REFERENCE
            || slack > MOST_SLACK
            || length == 0
            || length > MOST_LENGTH
        {
            return Answer::refused(10);
        }
        let round = &mut self.markets[market as usize - 1];
        if round.phase != Phase::Closed {
            return Answer::refused(11);
        }
        if block < self.last_block {
            return Answer::refused(12);
        }
        let reference = u64::from(reference);
        let slack = u64::from(slack);
        let hi = reference * (MILLION + slack) / MILLION;
        let lo = (reference * (MILLION - slack)).div_ceil(MILLION);
        *round = Market {
            phase: Phase::Collect,
            opened: block,
            length,
            reference,
            hi,
            lo,
            ..Market::default()
        };
        self.last_block = block;
        Answer::accepted(hi, lo)
    }

    /// 6. Answers the total of the ticket's side, 0.
    pub fn enter(&mut self, ticket: u32) -> Answer {
        if ticket >= TICKETS as u32 {
            return Answer::refused(4);
        }
        let slot = &mut self.tickets[ticket as usize];
        match slot.place {
            Place::Free => return Answer::refused(8),
            Place::Round => return Answer::refused(9),
            Place::Resting => {}
        }
        let round = &mut self.markets[slot.market as usize - 1];
        if round.phase != Phase::Collect {
            return Answer::refused(11);
        }
        let limit = u64::from(slot.limit);
        let fits = if slot.side == 0 { limit >= round.hi } else { limit <= round.lo };
        if !fits {
            return Answer::refused(15);
        }
        let side = slot.side as usize;
        slot.place = Place::Round;
        round.marks |= 1 << ticket;
        round.holds[side] += slot.offer;
        round.halves[side].total += slot.offer;
        Answer::accepted(round.halves[side].total, 0)
    }

    /// 7. Answers the base and the quote matched within.
    pub fn match_round(&mut self, market: u32, block: u32) -> Answer {
        if !is_market(market) {
            return Answer::refused(3);
        }
        let round = &mut self.markets[market as usize - 1];
        if round.phase != Phase::Collect {
            return Answer::refused(11);
        }
        if block < self.last_block {
            return Answer::refused(12);
        }
        if block - round.opened < COLLECT_BLOCKS {
            return Answer::refused(13);
        }
        let (base, quote) = round.trade();
        let [buys, sells] = &mut round.halves;
        buys.paid = quote;
        buys.got = base;
        sells.paid = base;
        sells.got = quote;
        round.phase = Phase::Auction;
        round.start = block;
        self.last_block = block;
        Answer::accepted(base, quote)
    }

    /// 8. Answers the base and the quote moved.
    pub fn bid(
        &mut self,
        market: u32,
        member: u32,
        block: u32,
        side: u32,
        base: u32,
        bound: u32,
    ) -> Answer {
        if member >= MEMBERS as u32 {
            return Answer::refused(1);
        }
        if !is_market(market) {
            return Answer::refused(3);
        }
        if side > 1 {
            return Answer::refused(5);
        }
        if base == 0 {
            return Answer::refused(6);
        }
        let round = &mut self.markets[market as usize - 1];
        if round.phase != Phase::Auction {
            return Answer::refused(11);
        }
        if block < self.last_block {
            return Answer::refused(12);
        }
        let k = block - round.start;
        if k > round.length {
            return Answer::refused(16);
        }
        let quote = bid_quote(side, base, round.price(side, k));
        let base = u64::from(base);
        let bound = u64::from(bound);
        let balances = &mut self.balances[member as usize];
        // Taken from the side's offers, and given by the maker in exchange.
        let (taken, given, taken_token, given_token);
        if side == 1 {
            if base > round.halves[1].left() {
                return Answer::refused(17);
            }
            if quote > bound {
                return Answer::refused(18);
            }
            (taken, given) = (base, quote);
            (taken_token, given_token) = (market as usize, 0);
        } else {
            if quote == 0 || quote > round.halves[0].left() {
                return Answer::refused(17);
            }
            if quote < bound {
                return Answer::refused(18);
            }
            (taken, given) = (quote, base);
            (taken_token, given_token) = (0, market as usize);
        }
        if balances[given_token] < given {
            return Answer::refused(19);
        }
        balances[given_token] -= given;
        balances[taken_token] += taken;
        let side = side as usize;
        round.halves[side].paid += taken;
        round.halves[side].got += given;
        round.holds[side] -= taken;
        round.holds[1 - side] += given;
        self.last_block = block;
        Answer::accepted(base, quote)
    }

    /// 9. Answers the quote paid by buys and the base paid by sells.
    pub fn settle(&mut self, market: u32, block: u32) -> Answer {
        if !is_market(market) {
            return Answer::refused(3);
        }
        let round = &mut self.markets[market as usize - 1];
        if round.phase != Phase::Auction {
            return Answer::refused(11);
        }
        if block < self.last_block {
            return Answer::refused(12);
        }
        let [buys, sells] = &round.halves;
        let some_left = buys.left() != 0 || sells.left() != 0;
        if some_left && block - round.start <= round.length {
            return Answer::refused(13);
        }
        let answer = Answer::accepted(buys.paid, sells.paid);
        if round.marks == 0 {
            *round = Market::default();
        } else {
            round.phase = Phase::Paying;
        }
        self.last_block = block;
        answer
    }

    /// 10. Answers what the offer pays and what it gets.
    pub fn claim(&mut self, ticket: u32) -> Answer {
        if ticket >= TICKETS as u32 {
            return Answer::refused(4);
        }
        let slot = &mut self.tickets[ticket as usize];
        match slot.place {
            Place::Free => return Answer::refused(8),
            Place::Resting => return Answer::refused(9),
            Place::Round => {}
        }
        let market = slot.market as usize;
        let round = &mut self.markets[market - 1];
        if round.phase != Phase::Paying {
            return Answer::refused(11);
        }
        let side = slot.side as usize;
        let half = round.halves[side];
        let pays = (slot.offer * half.paid).div_ceil(half.total);
        let gets = slot.offer * half.got / half.total;
        let rest = slot.offer - pays;

        round.holds[side] -= rest;
        round.holds[1 - side] -= gets;
        let got_token = if side == 0 { market } else { 0 };
        self.balances[slot.member as usize][got_token] += gets;
        if rest == 0 {
            *slot = Ticket::default();
        } else {
            slot.place = Place::Resting;
            slot.offer = rest;
        }
        round.marks &= !(1 << ticket);
        if round.marks == 0 {
            self.tray[0] += round.holds[0];
            self.tray[market] += round.holds[1];
            *round = Market::default();
        }
        Answer::accepted(pays, gets)
    }

    /// 11. Answers the offer that rests again, 0.
    pub fn leave(&mut self, ticket: u32, member: u32) -> Answer {
        if let Some(refusal) = self.not_owned(ticket, member) {
            return refusal;
        }
        let slot = &mut self.tickets[ticket as usize];
        if slot.place != Place::Round {
            return Answer::refused(9);
        }
        let round = &mut self.markets[slot.market as usize - 1];
        if round.phase != Phase::Collect {
            return Answer::refused(11);
        }
        let side = slot.side as usize;
        slot.place = Place::Resting;
        round.marks &= !(1 << ticket);
        round.holds[side] -= slot.offer;
        round.halves[side].total -= slot.offer;
        Answer::accepted(slot.offer, 0)
    }
}

#[cfg(test)]
mod tests {
    //! That the books notice what is wrong: a right state, changed in one place.

    use super::*;
    use crate::books::{check, check_call, check_list, check_price};
    use crate::lines::read_call;

    type Change = fn(&mut Exchange);

    fn accept(x: &mut Exchange, lines: &[&str]) {
        for line in lines {
            assert_eq!(x.call(read_call(line.as_bytes()).expect(line)).code, 0, "{line}");
        }
    }

    /// Market 1 collects, with tickets 0 (buys) and 1 (sells). Market 2 is in
    /// auction after a bid, with tickets 2 (buys) and 3 (sells). Market 3 is
    /// closed. Tickets 4 (buys) and 5 (sells in market 1) rest. The others are
    /// free.
    fn in_auction() -> Exchange {
        let mut x = Exchange::new();
        accept(&mut x, &["1,0,0,1000", "1,1,1,300", "1,1,2,300", "1,2,0,500"]);
        accept(&mut x, &["3,0,0,1,0,3000000,300", "3,1,1,1,1,2000000,150"]);
        accept(&mut x, &["3,2,0,2,0,3000000,500", "3,3,1,2,1,2000000,300"]);
        accept(&mut x, &["3,4,0,3,0,3000000,50", "3,5,1,1,1,2000000,100"]);
        accept(&mut x, &["5,2,10,2500000,100000,10", "6,2", "6,3", "7,2,14"]);
        accept(&mut x, &["5,1,15,2500000,100000,10", "6,0", "6,1", "8,2,2,19,1,60,160"]);
        x
    }

    /// The same, with market 2 paying and ticket 2 claimed.
    fn in_paying() -> Exchange {
        let mut x = in_auction();
        accept(&mut x, &["9,2,25", "10,2"]);
        x
    }

    /// The state is right, and each change of it is told by this text.
    fn tells(right: &Exchange, text: &str, changes: &[Change]) {
        assert_eq!(check(right), Ok(()));
        for (number, change) in changes.iter().enumerate() {
            let mut x = right.clone();
            change(&mut x);
            assert_eq!(check(&x), Err(text), "change {number}");
        }
    }

    #[test]
    fn wrong_tickets_are_told() {
        let x = in_auction();
        tells(&x, "a free ticket is not zero", &[|x| x.tickets[63].limit = 1]);
        let ranges: [Change; 6] = [
            |x| x.tickets[0].market = 0,
            |x| x.tickets[0].side = 2,
            |x| x.tickets[0].member = 16,
            |x| x.tickets[5].market = 4,
            |x| x.tickets[5].side = 2,
            |x| x.tickets[5].member = 16,
        ];
        tells(&x, "an order is out of its ranges", &ranges);
        let nothing: [Change; 2] = [|x| x.tickets[0].offer = 0, |x| x.tickets[4].offer = 0];
        tells(&x, "a ticket in use offers nothing", &nothing);
    }

    #[test]
    fn wrong_rounds_are_told() {
        let x = in_auction();
        tells(&x, "a closed market is not zero", &[|x| x.markets[2].opened = 1]);
        let marks: [Change; 4] = [
            |x| x.markets[0].marks |= 1 << 63,
            |x| x.markets[0].marks &= !1,
            |x| x.markets[1].marks &= !(1 << 3),
            |x| x.tickets[5].place = Place::Round,
        ];
        for x in [&x, &in_paying()] {
            tells(x, "the marks of a round are not its tickets", &marks);
        }
        let totals: [Change; 5] = [
            |x| x.markets[0].halves[0].total += 1,
            |x| x.markets[0].halves[1].total -= 1,
            |x| x.markets[1].halves[0].total -= 1,
            |x| x.markets[1].halves[1].total += 1,
            |x| x.tickets[0].offer += 1,
        ];
        tells(&x, "a total is not its tickets' offers", &totals);
        let traded: [Change; 2] =
            [|x| x.markets[0].halves[0].paid = 1, |x| x.markets[0].halves[1].got = 1];
        tells(&x, "a collecting round has paid or got", &traded);
        let holds: [Change; 6] = [
            |x| x.markets[0].holds[0] += 1,
            |x| x.markets[0].holds[1] -= 1,
            |x| x.markets[1].holds[0] -= 1,
            |x| x.markets[1].holds[1] += 1,
            |x| x.markets[1].halves[0].paid += 1,
            |x| x.markets[1].halves[1].got -= 1,
        ];
        tells(&x, "a round does not hold its totals less paid plus got", &holds);
    }

    #[test]
    fn wrong_amounts_are_told() {
        let changes: [Change; 7] = [
            |x| x.balances[0][0] += 1,
            |x| x.balances[15][3] += 1,
            |x| x.balances[1][1] -= 1,
            |x| x.supply[2] += 1,
            |x| x.tray[2] += 1,
            |x| x.tickets[4].offer -= 1,
            |x| x.tickets[5].offer += 1,
        ];
        for x in [in_auction(), in_paying()] {
            tells(&x, "an amount came up or went missing", &changes);
        }
        let holds: [Change; 2] = [|x| x.markets[1].holds[0] += 1, |x| x.markets[1].holds[1] -= 1];
        tells(&in_paying(), "an amount came up or went missing", &holds);
    }

    #[test]
    fn wrong_refusals_are_told() {
        let was = in_auction();
        let call = Call::Enter { ticket: 63 };
        let refused = Answer::refused(8);
        assert_eq!(check_call(&was, &was, call, refused), Ok(()));
        for answer in [Answer { first: 1, ..refused }, Answer { second: 1, ..refused }] {
            let told = check_call(&was, &was, call, answer);
            assert_eq!(told, Err("a refusal does not answer two zeros"));
        }
        let is = Exchange { last_block: 20, ..was.clone() };
        assert_eq!(check_call(&was, &is, call, refused), Err("a refusal changed something"));
    }

    /// An accepted call, its answer and the exchange after it, and that all of
    /// it is right.
    fn accepted(was: &Exchange, call: Call) -> (Exchange, Answer) {
        let mut is = was.clone();
        let answer = is.call(call);
        assert_eq!(answer.code, 0, "{call:?}");
        assert_eq!(check_call(was, &is, call, answer), Ok(()), "{call:?}");
        (is, answer)
    }

    /// Each change of the exchange after an accepted call is told by this text.
    fn call_tells(was: &Exchange, call: Call, text: &str, changes: &[Change]) {
        let (is, answer) = accepted(was, call);
        for change in changes {
            let mut x = is.clone();
            change(&mut x);
            told(was, &x, call, answer, text);
        }
    }

    /// This text tells what is wrong with an acceptance.
    #[track_caller]
    fn told(was: &Exchange, is: &Exchange, call: Call, answer: Answer, text: &str) {
        assert_eq!(check_call(was, is, call, answer), Err(text), "{call:?}");
    }

    #[test]
    fn wrong_acceptances_are_told() {
        let was = in_auction();
        let deposit = Call::Deposit { member: 0, token: 0, amount: 5 };
        let missing: [Change; 1] = [|x| x.balances[0][0] -= 1];
        call_tells(&was, deposit, "an amount came up or went missing", &missing);
        // balanced, but not by the amount or not in the token
        let moved: [Change; 3] = [
            |x| (x.supply[0], x.balances[0][0]) = (x.supply[0] + 1, x.balances[0][0] + 1),
            |x| (x.supply[0], x.balances[0][0]) = (x.supply[0] - 5, x.balances[0][0] - 5),
            |x| (x.supply[3], x.balances[0][3]) = (5, 5),
        ];
        let withdraw = Call::Withdraw { member: 2, token: 0, amount: 5 };
        let cancel = Call::Cancel { ticket: 4, member: 0 };
        for call in [deposit, withdraw, cancel, Call::Enter { ticket: 5 }] {
            call_tells(&was, call, "the supply did not move by what came and went", &moved);
        }

        let not_moved = "enter or leave does not just move the ticket";
        let wrong_place = "enter or leave of a ticket from the wrong place";
        let leave = Call::Leave { ticket: 1, member: 1 };
        for call in [Call::Enter { ticket: 5 }, leave] {
            let block: [Change; 1] = [|x| x.last_block += 1];
            call_tells(&was, call, "enter and leave do not undo each other", &block);
            let order: [Change; 2] = [
                |x| (x.tickets[1].limit, x.tickets[5].limit) = (1, 1),
                |x| (x.tickets[1].member, x.tickets[5].member) = (15, 15),
            ];
            call_tells(&was, call, not_moved, &order);
            let (is, answer) = accepted(&was, call);
            told(&was, &was, call, answer, not_moved);
            told(&is, &is, call, answer, wrong_place);
            let (first, second) = (answer.first + 1, answer.second + 1);
            for answer in [Answer { first, ..answer }, Answer { second, ..answer }] {
                told(&was, &is, call, answer, "enter or leave answers another amount");
            }
        }
        let (is, answer) = accepted(&was, leave);
        let other = Call::Leave { ticket: 1, member: 2 };
        told(&was, &is, other, answer, "a leave by another member");
        for call in [Call::Enter { ticket: 64 }, Call::Leave { ticket: 64, member: 1 }] {
            told(&was, &was, call, answer, wrong_place);
        }
        // in auction, and back, as if the round collected
        let mut is = was.clone();
        let offer = is.tickets[2].offer;
        is.tickets[2].place = Place::Resting;
        is.markets[1].marks &= !(1 << 2);
        is.markets[1].halves[0].total -= offer;
        is.markets[1].holds[0] -= offer;
        let leave = Call::Leave { ticket: 2, member: 0 };
        for (was, is, call) in [(&was, &is, leave), (&is, &was, Call::Enter { ticket: 2 })] {
            let text = "enter or leave where the round does not collect";
            told(was, is, call, Answer::accepted(offer, 0), text);
        }
    }

    #[test]
    fn wrong_blocks_are_told() {
        let was = in_auction();
        let later: [Change; 2] = [|x| x.last_block += 1, |x| x.last_block = u32::MAX];
        let deposit = Call::Deposit { member: 0, token: 0, amount: 5 };
        let open = Call::Open { market: 3, block: 19, reference: 1, slack: 0, length: 1 };
        for call in [deposit, open, Call::Match { market: 1, block: 19 }] {
            call_tells(&was, call, "the last block is not the call's", &later);
        }
        let (is, answer) = accepted(&was, open);
        let early = Call::Open { market: 3, block: 18, reference: 1, slack: 0, length: 1 };
        told(&was, &is, early, answer, "a call before the last block");
        // Three blocks after its open.
        let mut was = was;
        was.markets[0].opened = 16;
        let call = Call::Match { market: 1, block: 19 };
        let (mut is, answer) = (was.clone(), Answer::accepted(120, 300));
        is.last_block = 19;
        told(&was, &is, call, answer, "a match fewer than 4 blocks after its open");
    }

    #[test]
    fn wrong_cancels_are_told() {
        let was = in_auction();
        let call = Call::Cancel { ticket: 4, member: 0 };
        let (is, answer) = accepted(&was, call);
        assert_eq!(answer, Answer::accepted(50, 0));
        told(&was, &was, call, answer, "a cancel does not just free its ticket");
        told(&is, &is, call, answer, "a cancel of a ticket that does not rest");
        told(&was, &is, call, Answer::accepted(51, 0), "a cancel answers another amount");
        for member in [1, 15, u32::MAX] {
            let other = Call::Cancel { ticket: 4, member };
            told(&was, &is, other, answer, "a cancel by another member");
        }
        let round = Call::Cancel { ticket: 0, member: 0 };
        told(&was, &is, round, answer, "a cancel of a ticket that does not rest");
        let moved: [Change; 1] =
            [|x| (x.balances[0][0], x.balances[9][0]) = (x.balances[0][0] - 50, 50)];
        call_tells(&was, call, "a cancel does not give the offer back", &moved);
    }

    #[test]
    fn wrong_settles_are_told() {
        let was = in_auction();
        let call = Call::Settle { market: 2, block: 25 };
        let (is, answer) = accepted(&was, call);
        let before = "a settle with something left before the end";
        for block in [19, 20, 23, 24] {
            let early = Call::Settle { market: 2, block };
            let mut is = is.clone();
            is.last_block = block;
            told(&was, &is, early, answer, before);
        }
        // An auction that ends at the last block, or would past it.
        for length in [10, 11, 64] {
            let mut was = was.clone();
            (was.markets[1].start, was.markets[1].length) = (u32::MAX - 10, length);
            let (mut is, call) = (was.clone(), Call::Settle { market: 2, block: u32::MAX });
            (is.markets[1].phase, is.last_block) = (Phase::Paying, u32::MAX);
            told(&was, &is, call, answer, before);
        }
        for wrong in [Answer::accepted(500, 301), Answer::accepted(499, 300)] {
            told(&was, &is, call, wrong, "a settle answers other amounts than were paid");
        }
        let closed = Call::Settle { market: 1, block: 25 };
        told(&was, &is, closed, answer, "a settle outside an auction");
        let phase: [Change; 1] = [|x| x.markets[1].phase = Phase::Auction];
        call_tells(&was, call, "a settle does not just end its auction", &phase);
        let moved: [Change; 1] =
            [|x| (x.balances[0][0], x.balances[2][0]) = (x.balances[2][0], x.balances[0][0])];
        call_tells(&was, call, "a settle moves a balance", &moved);
    }

    #[test]
    fn wrong_claims_are_told() {
        let mut was = in_auction();
        accept(&mut was, &["9,2,25"]);
        for (ticket, other) in [(2, 3), (3, 2)] {
            let call = Call::Claim { ticket };
            let (is, answer) = accepted(&was, call);
            let Answer { first, second, .. } = answer;
            let wrong = |first, second| Answer { code: 0, first, second };
            let paid = "a claim does not pay its share rounded up";
            told(&was, &is, call, wrong(first - 1, second), paid);
            told(&was, &is, call, wrong(0, second), paid);
            let got = "a claim does not get its share rounded down";
            told(&was, &is, call, wrong(first, second - 1), got);
            told(&was, &is, call, wrong(first, 0), got);
            let more = "a claim of more than there is";
            told(&was, &is, call, wrong(u32::MAX, second), more);
            told(&was, &is, call, wrong(first, u32::MAX), more);
            told(&was, &was, call, answer, "a claim does not leave its ticket what it did not pay");
            told(&is, &is, call, answer, "a claim of a ticket in no round");
            let again = Call::Claim { ticket: other };
            let (last, answer) = accepted(&is, again);
            assert_eq!(last.markets[1], Market::default());
            told(&is, &is, again, answer, "a claim does not leave its ticket what it did not pay");
        }
        let collects = Call::Claim { ticket: 0 };
        let nothing = Answer::accepted(0, 0);
        told(&was, &was, collects, nothing, "a claim where the round does not pay");
        let moved: [Change; 1] = [|x| (x.balances[0][2], x.balances[9][2]) = (0, x.balances[0][2])];
        let call = Call::Claim { ticket: 2 };
        call_tells(&was, call, "a claim does not give its member what it got", &moved);
        let (mut was, _) = accepted(&was, call);
        // One unit more is held, so that it goes to the tray.
        (was.markets[1].holds[0], was.supply[0]) = (was.markets[1].holds[0] + 1, was.supply[0] + 1);
        let call = Call::Claim { ticket: 3 };
        let (is, _) = accepted(&was, call);
        assert_eq!(is.tray[0], 1);
        let stays: [Change; 1] = [|x| (x.tray[0], x.balances[15][0]) = (0, 1)];
        call_tells(&was, call, "a claim does not give its member what it got", &stays);
    }

    #[test]
    fn wrong_lists_are_told() {
        let mut was = Exchange::new();
        accept(&mut was, &["1,0,0,10", "1,1,1,5"]);
        let order = Order { ticket: 0, member: 0, market: 1, side: 0, limit: 1, amount: 10 };
        let orders = [order, order, Order { ticket: 1, member: 1, side: 1, amount: 5, ..order }];
        let places = [Answer::accepted(7, 8); LIST_MOST + 2];
        let right = Answer::accepted(0, 0);
        let refusal = Answer::refused(NO_LIST);
        let mut is = was.clone();
        let mut after = places[..3].to_vec();
        assert_eq!(is.order_list(&orders, &mut after), right);
        let told = |x: &Exchange, orders: &[Order], before: &[Answer], after: &[Answer], answer| {
            check_list(&was, x, orders, before, after, answer)
        };
        let before = &places[..3];
        assert_eq!(told(&is, &orders, before, &after, right), Ok(()));
        let text = Err("a list of orders answers another answer");
        for answer in [refusal, Answer::accepted(1, 0), Answer::accepted(0, 1)] {
            assert_eq!(told(&is, &orders, before, &after, answer), text);
        }
        let text = Err("a place does not hold its order's answer");
        for place in 0..3 {
            let mut other = after.clone();
            other[place] = places[place];
            assert_eq!(told(&is, &orders, before, &other, right), text);
        }
        assert_eq!(told(&is, &orders, before, &after[..2], right), text);
        let text = Err("a list does not leave what its orders leave singly");
        assert_eq!(told(&was, &orders, before, &after, right), text);

        // lengths that differ, and too many places
        let many = [order; LIST_MOST + 1];
        for (orders, before) in [(&orders[..], &places[..2]), (&many[..], &places[..65])] {
            assert_eq!(told(&was, orders, before, before, refusal), Ok(()));
            let text = Err("a list of orders answers another answer");
            assert_eq!(told(&was, orders, before, before, right), text);
            let text = Err("a refused list changed something");
            assert_eq!(told(&is, orders, before, before, refusal), text);
            let mut other = before.to_vec();
            other[1] = refusal;
            assert_eq!(told(&was, orders, before, &other, refusal), text);
        }
    }

    /// Market 1 collects at this reference and slack, with so much offered on
    /// each side.
    fn collecting(reference: u32, slack: u32, buys: u32, sells: u32) -> Exchange {
        let mut x = Exchange::new();
        x.deposit(0, 0, buys);
        x.deposit(1, 1, sells);
        x.order(0, 0, 1, 0, MOST_LIMIT, buys);
        x.order(1, 1, 1, 1, 1, sells);
        x.open(1, 0, reference, slack, 1);
        accept(&mut x, &["6,0", "6,1"]);
        x
    }

    /// Each trade of a match of market 1 that is not the engine's, told by its
    /// text.
    fn match_tells(was: &Exchange, trades: &[(u64, u64, &str)]) {
        let call = Call::Match { market: 1, block: 4 };
        let (is, _) = accepted(was, call);
        for &(base, quote, text) in trades {
            let mut x = is.clone();
            let [buys, sells] = &mut x.markets[0].halves;
            (buys.paid, buys.got) = (quote, base);
            (sells.paid, sells.got) = (base, quote);
            told(was, &x, call, Answer::accepted(base, quote), text);
        }
    }

    #[test]
    fn wrong_matches_are_told() {
        let dropped = "a match dropped that a quote would suit";
        let other = "a match of other base than both sides offer";
        let more = "a match takes more quote than the buys offer";
        let bound = "a match breaks a bound";
        let off = "a match a unit of quote off its worth";
        let down = "a match rounded down where up keeps hi";
        // 3 base for 6 of 7 quote, between 5.67 and 6.93; rounded up it would be 7
        let wrong = [
            (0, 0, dropped),
            (2, 4, other),
            (4, 6, other),
            (0, 6, other),
            (3, 8, more),
            (3, 7, bound),
            (3, 5, bound),
            (3, 0, bound),
        ];
        match_tells(&collecting(2_100_000, 100_000, 7, 9), &wrong);
        // 10 base for 21 quote, between 18.9 and 23.1
        let wrong = [(10, 20, off), (10, 22, off), (0, 0, dropped)];
        match_tells(&collecting(2_100_000, 100_000, 30, 10), &wrong);
        // 1 base for 2 quote, between 0.75 and 2.25
        match_tells(&collecting(1_500_000, 500_000, 9, 1), &[(1, 1, down), (0, 0, dropped)]);
        // nothing: no whole quote is 7.5, and none is from 0.3 to 0.9
        match_tells(&collecting(2_500_000, 0, 100, 3), &[(3, 7, bound), (3, 8, bound)]);
        match_tells(&collecting(600_000, 500_000, 9, 1), &[(1, 0, bound), (1, 1, bound)]);

        let was = collecting(2_100_000, 100_000, 7, 9);
        let call = Call::Match { market: 1, block: 4 };
        let (is, answer) = accepted(&was, call);
        let text = "a match does not start the auction it answers";
        let changes: [Change; 3] = [
            |x| x.markets[0].start = 5,
            |x| x.markets[0].hi += 1,
            |x| x.markets[0].phase = Phase::Paying,
        ];
        call_tells(&was, call, text, &changes);
        told(&was, &is, call, Answer::accepted(3, 5), text);
        let text = "a match where the round does not collect";
        for market in [0, 1, 2, 4] {
            told(&is, &is, Call::Match { market, block: 4 }, answer, text);
        }
    }

    /// Market 1 is in auction from block 4 on at prices from 1501 to 501, over
    /// three blocks; ticket 0 buys for 4000 quote, or ticket 1 sells 3000000
    /// base. Member 2 has some of both tokens.
    fn stepping(side: u32) -> Exchange {
        let mut x = Exchange::new();
        accept(&mut x, &["1,0,0,4000", "1,1,1,3000000", "1,2,0,2000", "1,2,1,1500000"]);
        accept(&mut x, &["3,0,0,1,0,1501,4000", "3,1,1,1,1,501,3000000"]);
        accept(&mut x, &["5,1,0,1001,500000,3", ["6,0", "6,1"][side as usize], "7,1,4"]);
        x
    }

    #[test]
    fn wrong_prices_are_told() {
        let bound = Err("a price breaks a bound");
        let whole = Err("a price is a whole step off");
        let other = Err("a price is not the first on a step or at its bound");
        let round = stepping(1).markets[0];
        let still = Market { hi: 199, lo: 101, ..round };
        // side, k and price
        let right =
            [(1, 0, 1501), (1, 1, 1200), (1, 3, 600), (0, 0, 501), (0, 1, 800), (0, 3, 1500)];
        for (side, k, price) in right {
            assert_eq!(check_price(&round, side, k, price), Ok(()));
        }
        for k in 0..=3 {
            assert_eq!(check_price(&still, 1, k, 199), Ok(()));
            assert_eq!(check_price(&still, 0, k, 101), Ok(()));
        }
        let wrong = [
            (&round, 1, 0, [(1500, other), (1502, bound), (1600, bound)]),
            (&round, 1, 1, [(1168, other), (1199, other), (1201, other)]),
            (&round, 1, 1, [(1100, other), (1268, whole), (1068, whole)]),
            (&round, 1, 3, [(501, other), (599, other), (601, whole)]),
            (&round, 0, 0, [(502, other), (500, bound), (600, other)]),
            (&round, 0, 1, [(834, other), (799, other), (801, other)]),
            (&round, 0, 1, [(900, other), (934, whole), (734, whole)]),
            (&round, 0, 3, [(1501, other), (1499, other), (1401, whole)]),
            (&still, 1, 3, [(101, other), (198, other), (200, bound)]),
            (&still, 0, 3, [(199, other), (102, other), (100, bound)]),
        ];
        for (round, side, k, prices) in wrong {
            for (price, text) in prices {
                assert_eq!(check_price(round, side, k, price), text, "{side} {k} {price}");
            }
        }
    }

    #[test]
    fn wrong_prices_before_the_step_are_told() {
        let bound = Err("a price before its step breaks a bound");
        let off = Err("a price before its step is off its line");
        let round = stepping(1).markets[0];
        let no_length = Market { length: 0, ..round };
        let no_lo = Market { lo: 0, ..round };
        // Past the auction's end; of no length; and past the end, held at 0.
        let wrong = [
            (&round, 1, 4, bound),
            (&round, 0, 4, bound),
            (&no_length, 1, 0, off),
            (&no_length, 0, 0, off),
            (&no_lo, 1, 4, off),
        ];
        for (round, side, k, text) in wrong {
            assert_eq!(check_price(round, side, k, round.price(side, k)), text, "{side} {k}");
        }
    }

    /// A bid of member 2 at k 1.
    fn stepped_bid(side: u32, base: u32, bound: u32) -> Call {
        Call::Bid { market: 1, member: 2, block: 5, side, base, bound }
    }

    #[test]
    fn wrong_quotes_of_bids_are_told() {
        let off = "a bid a unit of quote off its worth";
        let gains = "a bid rounded in its maker's favour";
        // side, base, quote and wrong quotes: side 1 at 1200, and 1168 without
        // steps; side 0 at 800, and 834
        let bids = [
            (1, 1_000_000, 1_200, [(1_199, off), (1_168, off), (1_201, off)]),
            (1, 1_000_001, 1_201, [(1_200, gains), (1_199, off), (1_202, off)]),
            (0, 1_000_000, 800, [(801, off), (834, off), (799, off)]),
            (0, 1_249_999, 999, [(1_000, gains), (998, off), (1_042, off)]),
        ];
        for (side, base, quote, wrong) in bids {
            let was = stepping(side);
            let call = stepped_bid(side, base, quote);
            let (is, answer) = accepted(&was, call);
            assert_eq!(answer, Answer { code: 0, first: base, second: quote });
            for (second, text) in wrong {
                told(&was, &is, call, Answer { second, ..answer }, text);
            }
            let other = Answer { first: base + 1, ..answer };
            told(&was, &is, call, other, "a bid answers other base than its own");
            let missed = if side == 1 { quote - 1 } else { quote + 1 };
            told(&was, &is, stepped_bid(side, base, missed), answer, "a bid misses its bound");
        }
    }

    #[test]
    fn wrong_moves_of_bids_are_told() {
        // a unit more from the maker than the answer says
        let more: [Change; 2] = [
            |x| {
                x.balances[2][1] -= 1;
                x.markets[0].halves[0].got += 1;
                x.markets[0].holds[1] += 1;
            },
            |x| {
                x.balances[2][0] -= 1;
                x.markets[0].halves[1].got += 1;
                x.markets[0].holds[0] += 1;
            },
        ];
        let others: [Change; 2] = [
            |x| (x.balances[2][0], x.balances[3][0]) = (x.balances[2][0] - 1, 1),
            |x| (x.balances[2][1], x.balances[15][1]) = (x.balances[2][1] - 1, 1),
        ];
        let left = "a bid takes nothing or more than is left";
        for (side, more) in (0..).zip(more) {
            let was = stepping(side);
            let call = stepped_bid(side, 1_000_000, 1_200 * side);
            let (is, answer) = accepted(&was, call);
            call_tells(&was, call, "a bid does not move in its round what it answers", &[more]);
            call_tells(&was, call, "a bid does not move in balances what it answers", &others);
            let mut poor = was.clone();
            poor.balances[2] = [799; TOKENS];
            told(&poor, &is, call, answer, "a bid by a maker who lacks what it costs");
            let mut sold = was.clone();
            let half = &mut sold.markets[0].halves[side as usize];
            half.paid = half.total;
            told(&sold, &is, call, answer, left);

            let bid = |market, member, block, side| Call::Bid {
                market,
                member,
                block,
                side,
                base: 1_000_000,
                bound: 1_200 * side,
            };
            for (market, block) in [(0, 5), (2, 5), (4, 5), (1, 3), (1, 8)] {
                let call = bid(market, 2, block, side);
                told(&was, &is, call, answer, "a bid outside an auction");
            }
            for (member, side) in [(16, side), (2, 2)] {
                let call = bid(1, member, 5, side);
                told(&was, &is, call, answer, "a bid is out of its ranges");
            }
        }
        let was = stepping(0);
        told(&was, &was, stepped_bid(0, 1_249, 0), Answer::accepted(1_249, 0), left);
    }
}
