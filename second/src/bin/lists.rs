//! Prints lines for the tool lending: `lists SEED LINES` prints LINES lines,
//! the same ones for the same seed. They place lists of orders, of every
//! length at a border and of drawn ones, with as many places for answers or
//! with others. About half of the orders are right; the others are to be
//! refused, with each code that an order meets. Between the lists, and among
//! their orders, come other calls that drive rounds, right ones and wrong ones,
//! and lines that are no call. The exchange is worked along, so that each line
//! can be aimed at its state.

use second::chance::Chance;
use second::drafts::{offered_token, wide_limit, Draft, Drafts, Season, SORTS};
use second::engine::{LIST_MOST, MOST, TICKETS};
use second::lending::{room_of, Lending, GATHERED_MOST, INPUT_MOST};
use second::lines::CODES;
use second::{Exchange, Phase, Place};
use std::io::{self, BufWriter, Write};
use std::process::ExitCode;

/// Stands for a number of places that is far too large.
const FAR: u64 = u64::MAX;

/// Orders and places of lists at the borders, which take turns. From the 66th
/// on, orders in a row are made singly.
const SHAPES: [(u64, u64); 13] = [
    (64, 64),
    (0, 0),
    (1, 1),
    (65, 65),
    (1, 0),
    (63, 63),
    (0, 1),
    (64, 65),
    (70, 65),
    (64, 63),
    (1, FAR),
    (65, 64),
    (66, FAR),
];

/// The codes that refuse an order; they take turns.
const CODES_OF_ORDERS: [u8; 7] = [1, 3, 4, 5, 6, 7, 19];

/// Seasons, which take turns.
const SEASONS: [Season; 6] =
    [Season::Tiny, Season::Usual, Season::Odd, Season::Dear, Season::Usual, Season::Huge];

/// How many sorts of faults a line that places a list can have.
const FORMS: usize = 14;

/// How many sorts of far too large numbers of places there are.
const FARS: usize = 5;

/// What the orders of a list are.
#[derive(Clone, Copy, PartialEq)]
enum Orders {
    Right,
    Wrong,
    Mixed,
}

struct Lists<W: Write> {
    drafts: Drafts,
    lending: Lending,
    output: W,
    /// Lines still to print.
    left: u32,
    /// The last line has no byte 10.
    open_end: bool,
    /// The last line is an order, which is never placed; else a list.
    order_last: bool,
    /// The next shape, code of an order, fault of a list's line, number of
    /// places that is far too large, and season.
    shape: usize,
    code: usize,
    form: usize,
    far: usize,
    season: usize,
    failed: Option<io::Error>,
}

impl<W: Write> Lists<W> {
    fn new(seed: u64, lines: u32, output: W) -> Lists<W> {
        let mut chance = Chance::new(seed);
        chance.draw();
        let sort = chance.below(SORTS as u64) as usize;
        let shape = chance.below(SHAPES.len() as u64) as usize;
        let code = chance.below(CODES_OF_ORDERS.len() as u64) as usize;
        let form = chance.below(FORMS as u64) as usize;
        let far = chance.below(FARS as u64) as usize;
        let season = chance.below(SEASONS.len() as u64) as usize;
        Lists {
            drafts: Drafts::new(chance, Exchange::new(), sort),
            lending: Lending::new(),
            output,
            left: lines,
            open_end: seed % 3 == 1,
            order_last: seed % 2 == 0,
            shape,
            code,
            form,
            far,
            season,
            failed: None,
        }
    }

    fn run(&mut self) -> io::Result<()> {
        self.full_list();
        while self.left > 0 && self.failed.is_none() {
            if self.drafts.chance.once_in(4) {
                self.new_season();
            }
            for _ in 0..self.drafts.chance.below(12) {
                self.aside();
            }
            if self.drafts.chance.once_in(40) {
                self.full_list();
            } else {
                self.list();
            }
        }
        match self.failed.take() {
            Some(error) => Err(error),
            None => self.output.flush(),
        }
    }

    /// Prints a line, given without its byte 10, and takes it. The last line is
    /// another one.
    fn put(&mut self, line: &[u8]) {
        if self.left == 0 {
            return;
        }
        self.left -= 1;
        let mut line = line.to_vec();
        let mut end: &[u8] = b"\n";
        if self.left == 0 {
            line = if self.order_last {
                Draft::new(3, &[63, 15, 3, 1, 1, 1]).text()
            } else {
                format!("0,{}", self.lending.gathered().len()).into_bytes()
            };
            end = if self.open_end { b"" } else { b"\n" };
        }
        if let Err(error) = self.output.write_all(&line).and_then(|()| self.output.write_all(end)) {
            self.failed = Some(error);
        }
        self.lending.take(&line);
    }

    fn say(&mut self, draft: Draft) {
        self.put(&draft.text());
    }

    /// Lines to come are drawn for the exchange as it is.
    fn aim(&mut self) {
        self.drafts.exchange = self.lending.exchange().clone();
    }

    /// Lines to come are drawn for the exchange that the gathered orders would
    /// leave.
    fn aim_ahead(&mut self) {
        self.drafts.exchange = self.lending.ahead();
    }

    fn new_season(&mut self) {
        self.drafts.season = SEASONS[self.season];
        self.season = (self.season + 1) % SEASONS.len();
        let c = &mut self.drafts.chance;
        self.drafts.markets = match c.below(6) {
            0 => vec![c.between(1, 3)],
            1 => vec![c.between(1, 2), 3],
            _ => vec![1, 2, 3],
        };
        if self.drafts.season == Season::Huge {
            self.huge_list();
        }
    }

    // Lines beside the lists.

    /// A line that is no order.
    fn aside(&mut self) {
        self.aim();
        match self.drafts.chance.below(20) {
            0 => {
                let market = self.drafts.find_market(Phase::Auction);
                match market.and_then(|market| self.drafts.bid_draft(market)) {
                    Some(draft) => self.say(draft),
                    None => self.right(),
                }
            }
            1..=10 => self.right(),
            11..=15 => self.wrong(),
            16 => {
                let kind = self.kind();
                let draft = self.drafts.mutated(kind);
                self.say(draft);
            }
            17 | 18 => {
                let line = self.drafts.faulty();
                self.put(&line);
            }
            _ => self.faulty_list(),
        }
    }

    /// Any kind but order.
    fn kind(&mut self) -> usize {
        self.drafts.chance.pick(&[1, 2, 4, 5, 6, 7, 8, 9, 10, 11])
    }

    /// A call that is right now.
    fn right(&mut self) {
        for _ in 0..4 {
            let market = self.drafts.chance.pick(&self.drafts.markets);
            match self.drafts.right(market) {
                Some(draft) if draft.kind != 3 => return self.say(draft),
                _ => {}
            }
        }
        let kind = self.kind();
        let draft = self.drafts.start(kind);
        self.say(draft);
    }

    /// A call that is to be refused.
    fn wrong(&mut self) {
        let kind = self.kind();
        for _ in 0..4 {
            let code = self.drafts.chance.pick(CODES[kind]);
            if code == 0 {
                continue;
            }
            if let Some(draft) = self.drafts.spoiled(kind, code) {
                if self.drafts.code_of(draft) == code {
                    return self.say(draft);
                }
            }
        }
        let draft = self.drafts.mutated(kind);
        self.say(draft);
    }

    /// A line that would place the gathered orders but for a fault, which take
    /// turns.
    fn faulty_list(&mut self) {
        let form = self.form;
        self.form = (form + 1) % FORMS;
        let m = self.lending.gathered().len();
        let line = match form {
            0 => "0".to_string(),
            1 => format!("0,{m},{m}"),
            2 => format!("00,{m}"),
            3 => format!("0,0{m}"),
            4 => "0,".to_string(),
            5 => format!(",0,{m}"),
            6 => format!("0,{m},"),
            7 => format!("0,,{m}"),
            8 => format!("0,{}", (1u64 << 32) + m as u64),
            9 => format!("0,{m}\r"),
            10 => format!(" 0,{m}"),
            11 => format!("0,-{m}"),
            12 => format!("0,{m} "),
            _ => format!("0,{m}0000000000"),
        };
        self.put(line.as_bytes());
    }

    /// A call that brings a ticket closer to being free.
    fn freeing(&mut self) -> Option<Draft> {
        let drafts = &mut self.drafts;
        let [first, then] = drafts.chance.pick(&[[4, 10], [10, 4]]);
        if let Some(draft) = drafts.draft(first).or_else(|| drafts.draft(then)) {
            return Some(draft);
        }
        let market = drafts
            .find_ticket(|_, ticket| ticket.place == Place::Round)
            .map(|ticket| drafts.market_of(ticket))?;
        self.next_phase(market)
    }

    /// Brings a round one phase further, if there is one.
    fn move_on(&mut self) {
        self.aim();
        let drafts = &mut self.drafts;
        let phase = drafts.chance.pick(&[Phase::Collect, Phase::Auction]);
        let market = drafts.find_market(phase);
        if let Some(draft) = market.and_then(|market| self.next_phase(market)) {
            self.say(draft);
        }
    }

    /// The match of a market that collects, or its settle after the auction's
    /// end.
    fn next_phase(&self, market: u64) -> Option<Draft> {
        let round = self.drafts.market(market);
        match round.phase {
            Phase::Collect => Some(Draft::new(7, &[market, self.drafts.match_block(market)])),
            Phase::Auction => {
                let end = u64::from(round.start) + u64::from(round.length);
                Some(Draft::new(9, &[market, self.drafts.last().max(end + 1)]))
            }
            _ => None,
        }
    }

    /// Calls until so many tickets are free, or nearly.
    fn free_tickets(&mut self, wanted: usize) {
        for _ in 0..2 * TICKETS {
            self.aim();
            let tickets = self.drafts.exchange.tickets();
            let free = tickets.iter().filter(|ticket| ticket.place == Place::Free).count();
            if free >= wanted {
                return;
            }
            match self.freeing() {
                Some(draft) => self.say(draft),
                None => return,
            }
        }
    }

    /// Deposits, so that some members have something of each token; the first
    /// and the last member often.
    fn fund(&mut self, members: usize) {
        self.aim();
        let drafts = &mut self.drafts;
        let token = drafts.chance.below(4);
        let member = drafts.chance.pick(&[0, 15]);
        let amount = drafts.amount().min(drafts.room(token));
        if drafts.balance(member, token) == 0 && amount > 0 {
            self.say(Draft::new(1, &[member, token, amount]));
        }
        for token in 0..4 {
            for _ in 0..members {
                self.aim();
                let drafts = &mut self.drafts;
                let having = (0..16).filter(|&member| drafts.balance(member, token) > 20).count();
                if having >= members {
                    break;
                }
                let amount = drafts.amount().saturating_mul(4).max(100).min(drafts.room(token));
                let member = drafts.chance.below(16);
                if amount > 0 {
                    self.say(Draft::new(1, &[member, token, amount]));
                }
            }
        }
    }

    // The lists.

    /// 64 orders, all of them right, after every ticket was freed.
    fn full_list(&mut self) {
        self.put(b"0,0");
        self.free_tickets(TICKETS);
        self.fund(3);
        for _ in 0..LIST_MOST {
            if let Some(mut draft) = self.right_draft() {
                let part = (self.offered_balance(&draft) / 16).max(1);
                draft.f[5] = self.drafts.chance.between(1, part);
                self.say(draft);
            }
        }
        self.put(b"0,64");
        // A few more, for which no ticket is free.
        let more = self.drafts.chance.between(1, 3);
        for _ in 0..more {
            self.some_orders(Orders::Mixed, 1);
        }
        self.put(format!("0,{more}").as_bytes());
    }

    /// A list with an order of almost all that there may be of a token.
    fn huge_list(&mut self) {
        self.aim();
        let token = self.drafts.chance.below(4);
        for member in 0..16 {
            let balance = self.drafts.balance(member, token);
            if balance > 100_000_000 {
                self.say(Draft::new(2, &[member, token, balance]));
            }
        }
        self.aim();
        let member = self.drafts.chance.below(16);
        self.say(Draft::new(1, &[member, token, self.drafts.room(token)]));
        self.aim();
        let balance = self.drafts.balance(member, token);
        let (market, side) = if token == 0 { (1, 0) } else { (token, 1) };
        let mut tickets = 0;
        for amount in [balance + 1, balance, 1] {
            self.aim_ahead();
            let Some(ticket) = self.drafts.find_ticket(|_, ticket| ticket.place == Place::Free)
            else {
                break;
            };
            self.say(Draft::new(3, &[ticket, member, market, side, wide_limit(side), amount]));
            tickets += 1;
        }
        self.put(format!("0,{tickets}").as_bytes());
    }

    /// A run of orders and the line that places them.
    fn list(&mut self) {
        let (orders, places) = self.draw_shape();
        let sort = match self.drafts.chance.below(8) {
            0..=2 => Orders::Right,
            3 => Orders::Wrong,
            _ => Orders::Mixed,
        };
        if self.drafts.chance.once_in(3) {
            self.move_on();
            self.move_on();
        } else if sort != Orders::Wrong && orders > 0 {
            let part = self.drafts.chance.pick(&[1, 2, 2, 4]);
            self.free_tickets((orders / part).min(TICKETS as u64) as usize);
            self.fund(2);
        }
        let mut made = 0;
        while made < orders && self.left > 0 {
            let number = self.lending.number() + 1;
            let few = self.lending.gathered().len() < GATHERED_MOST;
            let little = few && number % 8 == 1 && !self.drafts.chance.once_in(3);
            if little || self.drafts.chance.once_in(16) {
                self.aside();
            }
            made += self.some_orders(sort, orders - made);
        }
        if self.drafts.chance.once_in(6) {
            self.faulty_list();
        }
        let line = format!("0,{places}");
        self.put(line.as_bytes());
    }

    /// How many orders and places the next list has.
    fn draw_shape(&mut self) -> (u64, u64) {
        // Now and then the orders that are made singly come where an answer line
        // has no room.
        let later = self.lending.number() + 80;
        let c = &mut self.drafts.chance;
        if room_of(later - later % 8 + 1) < 10 && c.once_in(5) {
            return (76, 65);
        }
        let (orders, places) = if c.once_in(2) {
            let shape = SHAPES[self.shape];
            self.shape = (self.shape + 1) % SHAPES.len();
            shape
        } else {
            let orders = match c.below(12) {
                0 => c.between(0, 70),
                1 | 2 => c.between(2, 40),
                _ => c.between(1, 12),
            };
            let places = match c.below(16) {
                0 => orders + 1,
                1 => orders.saturating_sub(1),
                2 => c.between(0, 65),
                3 => FAR,
                _ => orders,
            };
            (orders, places)
        };
        if places != FAR {
            return (orders, places);
        }
        let gathered = orders.min(GATHERED_MOST as u64);
        let far = match self.far {
            0 => MOST,
            1 => gathered + 256,
            2 => 66,
            3 => gathered + c.pick(&[65_536, 1 << 31]),
            _ => 65 + c.any_size(MOST - 65),
        };
        self.far = (self.far + 1) % FARS;
        (orders, far)
    }

    /// One order or a few, but no more than given. Tells how many.
    fn some_orders(&mut self, sort: Orders, most: u64) -> u64 {
        let piece = match sort {
            Orders::Right => 15,
            Orders::Wrong => 0,
            Orders::Mixed => self.drafts.chance.below(17),
        };
        match piece {
            9 if most > 1 => self.twice(),
            10 if most > 1 => self.after_refusal(),
            11 if most > 1 => self.spent(),
            12 | 13 => self.edge_order(),
            8 => {
                self.aim_ahead();
                let draft = self.drafts.mutated(3);
                self.say(draft);
                1
            }
            0..=7 => self.wrong_order(),
            _ => self.right_order(),
        }
    }

    /// An order that is right now, if there is one to be had.
    fn right_draft(&mut self) -> Option<Draft> {
        self.aim_ahead();
        let mut draft = self.drafts.draft(3)?;
        let balance = self.offered_balance(&draft);
        let c = &mut self.drafts.chance;
        draft.f[5] = match c.below(12) {
            0 => balance,
            1 => 1,
            2 | 3 => draft.f[5],
            _ => c.between(1, (balance / 16).max(1)),
        };
        Some(draft)
    }

    /// What its member has of the token that an order offers.
    fn offered_balance(&self, draft: &Draft) -> u64 {
        self.drafts.balance(draft.f[1], offered_token(draft.f[2], draft.f[3]))
    }

    fn right_order(&mut self) -> u64 {
        match self.right_draft() {
            Some(draft) => {
                self.say(draft);
                1
            }
            None => self.wrong_order(),
        }
    }

    /// An order that is refused with the next code that can be had.
    fn wrong_order(&mut self) -> u64 {
        self.aim_ahead();
        for _ in CODES_OF_ORDERS {
            let code = CODES_OF_ORDERS[self.code];
            self.code = (self.code + 1) % CODES_OF_ORDERS.len();
            if let Some(draft) = self.drafts.spoiled(3, code) {
                if self.drafts.code_of(draft) == code {
                    self.say(draft);
                    return 1;
                }
            }
        }
        let draft = self.drafts.mutated(3);
        self.say(draft);
        1
    }

    /// Two orders for the same ticket.
    fn twice(&mut self) -> u64 {
        let Some(draft) = self.right_draft() else { return self.wrong_order() };
        self.say(draft);
        let mut other = self.right_draft().unwrap_or(draft);
        other.f[0] = draft.f[0];
        self.say(other);
        2
    }

    /// An order that is refused, and a right one for the same ticket.
    fn after_refusal(&mut self) -> u64 {
        let Some(draft) = self.right_draft() else { return self.wrong_order() };
        let mut first = draft;
        match self.drafts.chance.below(3) {
            0 => first.f[1] = 16,
            1 => first.f[4] = 0,
            _ => first.f[5] = self.offered_balance(&draft) + 1,
        }
        self.say(Draft::new(3, &first.f));
        self.say(draft);
        2
    }

    /// An order of a member's whole balance, and another one of that token.
    fn spent(&mut self) -> u64 {
        let Some(mut draft) = self.right_draft() else { return self.wrong_order() };
        let balance = self.offered_balance(&draft);
        draft.f[5] = balance;
        self.say(draft);
        self.aim_ahead();
        let free = self.drafts.find_ticket(|_, ticket| ticket.place == Place::Free);
        let Some(ticket) = free else { return 1 };
        let c = &mut self.drafts.chance;
        (draft.f[0], draft.f[5]) = (ticket, c.pick(&[1, 1, balance]));
        self.say(draft);
        2
    }

    /// A right order with the first or last ticket, member, market or limit, or
    /// one beside it.
    fn edge_order(&mut self) -> u64 {
        let Some(mut draft) = self.right_draft() else { return self.wrong_order() };
        let c = &mut self.drafts.chance;
        let (place, value) = match c.below(6) {
            0 => (0, c.pick(&[0, 63, 63, 64])),
            1 => (1, c.pick(&[0, 15, 15, 16])),
            2 => (2, c.pick(&[0, 1, 3, 4])),
            3 => (3, c.pick(&[0, 1, 2])),
            4 => (4, c.pick(&[0, 1, 2_000_000_000, 2_000_000_001])),
            _ => (5, c.pick(&[0, 1])),
        };
        draft.f[place] = value;
        if let (0..=15, 1..=3, 0 | 1) = (draft.f[1], draft.f[2], draft.f[3]) {
            // Rather with a balance that allows it.
            let balance = self.offered_balance(&draft);
            draft.f[5] = draft.f[5].min(balance.max(1));
        }
        self.say(draft);
        1
    }
}

fn main() -> ExitCode {
    let words: Vec<String> = std::env::args().skip(1).collect();
    let numbers = match &words[..] {
        [seed, lines] => seed.parse().ok().zip(lines.parse().ok()),
        _ => None,
    };
    let Some((seed, lines)) = numbers.filter(|&(_, lines)| lines <= INPUT_MOST) else {
        let _ = writeln!(io::stderr(), "use: lists SEED LINES, of at most {INPUT_MOST} lines");
        return ExitCode::FAILURE;
    };
    let output = BufWriter::with_capacity(1 << 20, io::stdout());
    match Lists::new(seed, lines, output).run() {
        Ok(()) => ExitCode::SUCCESS,
        Err(error) => {
            let _ = writeln!(io::stderr(), "cannot write: {error}");
            ExitCode::FAILURE
        }
    }
}

#[cfg(test)]
mod tests {
    use super::*;
    use second::lending::Taken;

    fn printed(seed: u64, lines: u32) -> Vec<u8> {
        let mut output = Vec::new();
        Lists::new(seed, lines, &mut output).run().unwrap();
        output
    }

    #[test]
    fn as_many_lines_as_asked_for() {
        for seed in 0..6 {
            for lines in [0, 1, 2, 50, 300] {
                let text = printed(seed, lines);
                let count = text.split_inclusive(|&byte| byte == b'\n').count();
                assert_eq!(count, lines as usize);
                let open = lines > 0 && seed % 3 == 1;
                assert_eq!(text.last().is_some_and(|&byte| byte != b'\n'), open);
                assert_eq!(printed(seed, lines), text);
            }
        }
        assert_ne!(printed(1, 300), printed(2, 300));
    }

    #[test]
    fn lines_stay_small() {
        for seed in 1..=10 {
            assert!(printed(seed, 4_000).len() < 200_000);
        }
        assert!(printed(1, 10_000).len() < 500_000);
    }

    #[test]
    fn about_half_is_wrong() {
        let [mut right, mut wrong] = [0, 0];
        for seed in 1..=10 {
            let mut lending = Lending::new();
            for line in printed(seed, 2_000).split(|&byte| byte == b'\n') {
                let codes = match lending.take(line) {
                    Taken::List { answer, after, .. } if answer.code == 0 => {
                        after.iter().map(|answer| answer.code).collect()
                    }
                    Taken::List { answer, .. } | Taken::Plain(_, answer) => vec![answer.code],
                    Taken::Line { code, .. } => vec![code],
                    Taken::Gathered => Vec::new(),
                };
                right += codes.iter().filter(|&&code| code == 0).count();
                wrong += codes.iter().filter(|&&code| code != 0).count();
            }
        }
        assert!(right > wrong / 2 && wrong > right / 2, "{right} {wrong}");
    }

    #[test]
    fn an_error_is_told() {
        let length = printed(1, 100).len();
        let mut room = vec![0; length];
        assert!(Lists::new(1, 100, &mut room[..]).run().is_ok());
        assert!(Lists::new(1, 100, &mut room[1..]).run().is_err());
    }
}
