//! What must hold of the exchange after every call. What is wrong is told by a
//! text.

use crate::engine::{Answer, Call, Exchange, Half, Market, Order, Phase, Place, Ticket};
use crate::engine::{LIST_MOST, MARKETS, MEMBERS, MILLION, NO_LIST};

/// All that was deposited and not withdrawn is somewhere, free tickets and
/// closed markets are zero, and the rounds agree with their tickets: marks in
/// every phase; totals, and what a round holds, until the settle.
pub fn check(x: &Exchange) -> Result<(), &'static str> {
    let mut sums = *x.tray();
    for row in x.balances() {
        for (sum, amount) in sums.iter_mut().zip(row) {
            *sum += amount;
        }
    }
    let mut marks = [0u64; MARKETS];
    let mut offers = [[0u64; 2]; MARKETS];
    for (number, held) in x.tickets().iter().enumerate() {
        if held.place == Place::Free {
            wrong_if(*held != Ticket::default(), "a free ticket is not zero")?;
            continue;
        }
        let market = held.market as usize;
        let known = (1..=MARKETS).contains(&market) && held.side <= 1;
        wrong_if(!known || held.member as usize >= MEMBERS, "an order is out of its ranges")?;
        wrong_if(held.offer == 0, "a ticket in use offers nothing")?;
        if held.place == Place::Round {
            marks[market - 1] |= 1 << number;
            offers[market - 1][held.side as usize] += held.offer;
        } else {
            sums[if held.side == 0 { 0 } else { market }] += held.offer;
        }
    }
    for (place, round) in x.markets().iter().enumerate() {
        let closed = round.phase == Phase::Closed;
        wrong_if(closed && *round != Market::default(), "a closed market is not zero")?;
        wrong_if(round.marks != marks[place], "the marks of a round are not its tickets")?;
        let collects = round.phase == Phase::Collect;
        let traded = round.halves.iter().any(|half| half.paid > 0 || half.got > 0);
        wrong_if(collects && traded, "a collecting round has paid or got")?;
        if round.phase != Phase::Paying {
            for side in [0, 1] {
                let Half { total, paid, .. } = round.halves[side];
                wrong_if(total != offers[place][side], "a total is not its tickets' offers")?;
                let kept = round.holds[side] + paid == total + round.halves[1 - side].got;
                wrong_if(!kept, "a round does not hold its totals less paid plus got")?;
            }
        }
        sums[0] += round.holds[0];
        sums[place + 1] += round.holds[1];
    }
    wrong_if(sums != *x.supply(), "an amount came up or went missing")
}

/// The books are right after a call. A refused one answers two zeros and
/// changes nothing. Only accepted deposits and withdrawals move the supply, by
/// their amounts, and only calls with a block the last block. Cancel, enter and
/// leave, match, bid, settle and claim are as `check_cancel` and the like say.
pub fn check_call(
    was: &Exchange,
    is: &Exchange,
    call: Call,
    answer: Answer,
) -> Result<(), &'static str> {
    check(is)?;
    if answer.code != 0 {
        wrong_if(answer != Answer::refused(answer.code), "a refusal does not answer two zeros")?;
        return wrong_if(is != was, "a refusal changed something");
    }
    for (token, (was, is)) in was.supply().iter().zip(is.supply()).enumerate() {
        let [came, went] = match call {
            Call::Deposit { token: of, amount, .. } if of as usize == token => [amount, 0],
            Call::Withdraw { token: of, amount, .. } if of as usize == token => [0, amount],
            _ => [0, 0],
        };
        let right = was + u64::from(came) == is + u64::from(went);
        wrong_if(!right, "the supply did not move by what came and went")?;
    }
    check_cancel(was, is, call, answer)?;
    check_move(was, is, call, answer)?;
    check_match(was, is, call, answer)?;
    check_bid(was, is, call, answer)?;
    check_settle(was, is, call, answer)?;
    check_claim(was, is, call, answer)?;
    check_block(was, is, call)
}

/// An accepted open, match, bid or settle is not before the last block, and its
/// block is then the last. Other calls leave it.
fn check_block(was: &Exchange, is: &Exchange, call: Call) -> Result<(), &'static str> {
    let last = was.last_block();
    let block = match call {
        Call::Open { block, .. } | Call::Match { block, .. } => block,
        Call::Bid { block, .. } | Call::Settle { block, .. } => block,
        _ => last,
    };
    wrong_if(block < last, "a call before the last block")?;
    wrong_if(is.last_block() != block, "the last block is not the call's")
}

/// An accepted cancel frees a resting ticket of the member who calls, and gives
/// its offer, which it answers, to that member. Other calls pass.
fn check_cancel(
    was: &Exchange,
    is: &Exchange,
    call: Call,
    answer: Answer,
) -> Result<(), &'static str> {
    let Call::Cancel { ticket, member } = call else { return Ok(()) };
    let held = was.tickets().get(ticket as usize).copied().unwrap_or_default();
    wrong_if(held.place != Place::Resting, "a cancel of a ticket that does not rest")?;
    wrong_if(held.member != member, "a cancel by another member")?;
    wrong_if(answer != Answer::accepted(held.offer, 0), "a cancel answers another amount")?;
    let mut tickets = *was.tickets();
    tickets[ticket as usize] = Ticket::default();
    wrong_if(*is.tickets() != tickets, "a cancel does not just free its ticket")?;
    let mut balances = *was.balances();
    let token = if held.side == 0 { 0 } else { held.market };
    balances[member as usize][token as usize] += held.offer;
    wrong_if(*is.balances() != balances, "a cancel does not give the offer back")
}

/// A list of orders leaves what its orders leave singly, from first to last,
/// and in each place the order's answer; it answers 0, 0. Where the lists
/// differ in length or are too long, it answers 22 and changes neither the
/// places nor the exchange. The books are right after each order.
pub fn check_list(
    was: &Exchange,
    is: &Exchange,
    orders: &[Order],
    before: &[Answer],
    after: &[Answer],
    answer: Answer,
) -> Result<(), &'static str> {
    let refused = orders.len() != before.len() || orders.len() > LIST_MOST;
    let right = if refused { Answer::refused(NO_LIST) } else { Answer::accepted(0, 0) };
    wrong_if(answer != right, "a list of orders answers another answer")?;
    if refused {
        return wrong_if(is != was || after != before, "a refused list changed something");
    }
    let mut singly = was.clone();
    let mut answers = Vec::new();
    for order in orders {
        let was = singly.clone();
        let answer = singly.call(order.call());
        check_call(&was, &singly, order.call(), answer)?;
        answers.push(answer);
    }
    wrong_if(answers != after, "a place does not hold its order's answer")?;
    wrong_if(singly != *is, "a list does not leave what its orders leave singly")
}

/// An accepted enter or leave moves its ticket, with its order, between rest
/// and a round that collects; only its own member leaves. Enter answers its
/// side's total and leave the offer. The other call at once after it is
/// accepted and gives the exchange that was there before. Other calls pass.
fn check_move(
    was: &Exchange,
    is: &Exchange,
    call: Call,
    answer: Answer,
) -> Result<(), &'static str> {
    let (ticket, from, to) = match call {
        Call::Enter { ticket } => (ticket, Place::Resting, Place::Round),
        Call::Leave { ticket, .. } => (ticket, Place::Round, Place::Resting),
        _ => return Ok(()),
    };
    let place = ticket as usize;
    let held = was.tickets().get(place).copied().unwrap_or_default();
    wrong_if(held.place != from, "enter or leave of a ticket from the wrong place")?;
    let moved = Ticket { place: to, ..held };
    wrong_if(is.tickets()[place] != moved, "enter or leave does not just move the ticket")?;
    let round_of = |x: &Exchange| x.markets()[held.market as usize - 1];
    let collects = round_of(was).phase == Phase::Collect;
    wrong_if(!collects, "enter or leave where the round does not collect")?;

    let entered = |x| Answer::accepted(round_of(x).halves[held.side as usize].total, 0);
    let left = Answer::accepted(held.offer, 0);
    let (right, undo, undone) = match call {
        Call::Leave { member, .. } => {
            wrong_if(member != held.member, "a leave by another member")?;
            (left, Call::Enter { ticket }, entered(was))
        }
        _ => (entered(is), Call::Leave { ticket, member: held.member }, left),
    };
    wrong_if(answer != right, "enter or leave answers another amount")?;
    let mut back = is.clone();
    let same = back.call(undo) == undone && back == *was;
    wrong_if(!same, "enter and leave do not undo each other")
}

/// An accepted match trades what both sides offer at the reference, for a
/// whole quote next to its worth that keeps both bounds: above it where that
/// keeps hi. It trades nothing only where no whole quote keeps both. The
/// auction starts with what it answers. Other calls pass.
fn check_match(
    was: &Exchange,
    is: &Exchange,
    call: Call,
    answer: Answer,
) -> Result<(), &'static str> {
    let Call::Match { market, block } = call else { return Ok(()) };
    let place = (market as usize).wrapping_sub(1);
    let round = was.markets().get(place).copied().unwrap_or_default();
    wrong_if(round.phase != Phase::Collect, "a match where the round does not collect")?;
    let early = u64::from(block) < u64::from(round.opened) + 4;
    wrong_if(early, "a match fewer than 4 blocks after its open")?;
    let [buys, sells] = round.halves;
    let (base, quote) = (u64::from(answer.first), u64::from(answer.second));
    let halves =
        [Half { paid: quote, got: base, ..buys }, Half { paid: base, got: quote, ..sells }];
    let started = Market { phase: Phase::Auction, start: block, halves, ..round };
    wrong_if(is.markets()[place] != started, "a match does not start the auction it answers")?;

    let offered = sells.total.min(buys.total * MILLION / round.reference);
    let least = (round.lo * offered).div_ceil(MILLION);
    let most = round.hi * offered / MILLION;
    if (base, quote) == (0, 0) {
        return wrong_if(offered > 0 && least <= most, "a match dropped that a quote would suit");
    }
    wrong_if(base != offered, "a match of other base than both sides offer")?;
    wrong_if(quote > buys.total, "a match takes more quote than the buys offer")?;
    wrong_if(!(least..=most).contains(&quote), "a match breaks a bound")?;
    let (worth, paid) = (base * round.reference, quote * MILLION);
    wrong_if(paid.abs_diff(worth) >= MILLION, "a match a unit of quote off its worth")?;
    wrong_if(paid < worth && quote < most, "a match rounded down where up keeps hi")
}

/// An accepted bid is made within its auction, at a price as `check_price`
/// says. Its quote is what its base comes to at that price, rounded up where
/// the maker pays it and down where the maker gets it; it keeps the bound, and
/// takes no more than the side has left. The round and the maker's balances
/// move by just what it answers. Other calls pass.
fn check_bid(
    was: &Exchange,
    is: &Exchange,
    call: Call,
    answer: Answer,
) -> Result<(), &'static str> {
    let Call::Bid { market, member, block, side, base, bound } = call else { return Ok(()) };
    let place = (market as usize).wrapping_sub(1);
    let round = was.markets().get(place).copied().unwrap_or_default();
    let k = block.wrapping_sub(round.start);
    let within = round.phase == Phase::Auction && k <= round.length;
    wrong_if(!within, "a bid outside an auction")?;
    wrong_if(member as usize >= MEMBERS || side > 1, "a bid is out of its ranges")?;
    let price = round.price(side, k);
    check_price(&round, side, k, price)?;

    wrong_if(answer.first != base, "a bid answers other base than its own")?;
    let [base, quote, bound] = [base, answer.second, bound].map(u64::from);
    let (worth, paid) = (base * price, quote * MILLION);
    wrong_if(paid.abs_diff(worth) >= MILLION, "a bid a unit of quote off its worth")?;
    let (gains, misses) =
        if side == 1 { (paid < worth, quote > bound) } else { (paid > worth, quote < bound) };
    wrong_if(gains, "a bid rounded in its maker's favour")?;
    wrong_if(misses, "a bid misses its bound")?;

    // Taken from the side's offers, and given by the maker in exchange.
    let (taken, given) = if side == 1 { (base, quote) } else { (quote, base) };
    let side = side as usize;
    let left = round.halves[side].left();
    wrong_if(!(1..=left).contains(&taken), "a bid takes nothing or more than is left")?;
    let mut after = round;
    after.halves[side].paid += taken;
    after.halves[side].got += given;
    after.holds[side] -= taken;
    after.holds[1 - side] += given;
    wrong_if(is.markets()[place] != after, "a bid does not move in its round what it answers")?;
    let [taken_token, given_token] = if side == 1 { [place + 1, 0] } else { [0, place + 1] };
    let mut balances = *was.balances();
    let row = &mut balances[member as usize];
    wrong_if(row[given_token] < given, "a bid by a maker who lacks what it costs")?;
    row[given_token] -= given;
    row[taken_token] += taken;
    wrong_if(*is.balances() != balances, "a bid does not move in balances what it answers")
}

/// Before its step, a price of an auction went from its first bound so far as k
/// blocks of the way to the other come to, rounded down, and not past that. The
/// price itself lies from lo to hi, and less than 100 from there. From there on
/// it is the first that is a multiple of 100 or the bound: upwards to hi for
/// side 1, downwards to lo for side 0.
pub fn check_price(round: &Market, side: u32, k: u32, price: u64) -> Result<(), &'static str> {
    let Market { hi, lo, .. } = *round;
    let from = round.unstepped_price(side, k);
    wrong_if(!(lo..=hi).contains(&from), "a price before its step breaks a bound")?;
    let moved = if side == 1 { hi - from } else { from - lo };
    let (way, length) = ((hi - lo) * u64::from(k), u64::from(round.length));
    let line = moved * length..(moved + 1) * length;
    wrong_if(!line.contains(&way), "a price before its step is off its line")?;
    wrong_if(!(lo..=hi).contains(&price), "a price breaks a bound")?;
    wrong_if(price.abs_diff(from) >= 100, "a price is a whole step off")?;
    let stops = |at: &u64| *at % 100 == 0 || *at == if side == 1 { hi } else { lo };
    let first = if side == 1 { (from..=hi).find(stops) } else { (lo..=from).rev().find(stops) };
    wrong_if(first != Some(price), "a price is not the first on a step or at its bound")
}

/// An accepted settle ends an auction in which nothing is left, or past its last
/// block, however late that is. It answers what the sides paid, moves nothing,
/// and closes a round without tickets. Other calls pass.
fn check_settle(
    was: &Exchange,
    is: &Exchange,
    call: Call,
    answer: Answer,
) -> Result<(), &'static str> {
    let Call::Settle { market, block } = call else { return Ok(()) };
    let place = (market as usize).wrapping_sub(1);
    let round = was.markets().get(place).copied().unwrap_or_default();
    wrong_if(round.phase != Phase::Auction, "a settle outside an auction")?;
    let [buys, sells] = round.halves;
    let some = buys.paid != buys.total || sells.paid != sells.total;
    let over = u64::from(block) > u64::from(round.start) + u64::from(round.length);
    wrong_if(some && !over, "a settle with something left before the end")?;
    let paid = Answer::accepted(buys.paid, sells.paid);
    wrong_if(answer != paid, "a settle answers other amounts than were paid")?;
    let after = match round.marks {
        0 => Market::default(),
        _ => Market { phase: Phase::Paying, ..round },
    };
    wrong_if(is.markets()[place] != after, "a settle does not just end its auction")?;
    wrong_if(is.balances() != was.balances(), "a settle moves a balance")
}

/// An accepted claim pays a ticket its share of what its side paid, rounded up,
/// and gets its share of what the side got, rounded down. What it does not pay
/// rests with its order; what it gets is its member's. The round holds that
/// much less, and the last claim leaves what it holds to the tray. Other calls
/// pass.
fn check_claim(
    was: &Exchange,
    is: &Exchange,
    call: Call,
    answer: Answer,
) -> Result<(), &'static str> {
    let Call::Claim { ticket } = call else { return Ok(()) };
    let held = was.tickets().get(ticket as usize).copied().unwrap_or_default();
    wrong_if(held.place != Place::Round, "a claim of a ticket in no round")?;
    let place = held.market as usize - 1;
    let round = was.markets()[place];
    wrong_if(round.phase != Phase::Paying, "a claim where the round does not pay")?;

    let side = held.side as usize;
    let Half { total, paid, got } = round.halves[side];
    let [pays, gets] = [answer.first, answer.second].map(u64::from);
    wrong_if(pays > held.offer || gets > got, "a claim of more than there is")?;
    // A product of two amounts fits in 64 bits.
    let up = (pays * total).checked_sub(held.offer * paid);
    wrong_if(!up.is_some_and(|up| up < total), "a claim does not pay its share rounded up")?;
    let down = (held.offer * got).checked_sub(gets * total);
    wrong_if(
        !down.is_some_and(|down| down < total),
        "a claim does not get its share rounded down",
    )?;

    let rest = held.offer - pays;
    let kept = Ticket { place: Place::Resting, offer: rest, ..held };
    let mut tickets = *was.tickets();
    tickets[ticket as usize] = if rest > 0 { kept } else { Ticket::default() };
    wrong_if(*is.tickets() != tickets, "a claim does not leave its ticket what it did not pay")?;
    let mut balances = *was.balances();
    balances[held.member as usize][if side == 0 { place + 1 } else { 0 }] += gets;
    wrong_if(*is.balances() != balances, "a claim does not give its member what it got")?;
    let mut after = Market { marks: round.marks & !(1 << ticket), ..round };
    after.holds[side] -= rest;
    after.holds[1 - side] -= gets;
    let mut tray = *was.tray();
    if after.marks == 0 {
        tray[0] += after.holds[0];
        tray[place + 1] += after.holds[1];
        after = Market::default();
    }
    wrong_if(is.markets()[place] != after, "a claim does not move in its round what it answers")?;
    wrong_if(*is.tray() != tray, "a claim does not leave the rest of its round to the tray")
}

fn wrong_if(wrong: bool, text: &'static str) -> Result<(), &'static str> {
    if wrong {
        Err(text)
    } else {
        Ok(())
    }
}
