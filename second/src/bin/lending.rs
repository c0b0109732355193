//! Takes lines that try lists of orders and lent buffers, from standard input,
//! and prints what they answer: `lending`. Orders are gathered, at most 65 of
//! them, and nothing is printed for them. The first of these that applies
//! tells what becomes of line k:
//!
//! - `0,m` places the gathered orders as a list with m places for answers, 65
//!   at most. Place i holds `0,i,4294967295` before. It prints the list's own
//!   answer as `k,code,first,second`, and every place as `i,code,first,second`.
//! - An order is gathered, while fewer than 65 are.
//! - A call is made without a line where k is even: `k,code,first,second`.
//! - All else is taken as a line, for a lent buffer of 35 bytes, but of k / 8
//!   modulo 32 where k modulo 8 is 1. It prints the answer line or, where that
//!   has no room, `k,21,0,0`.
//!
//! `lending --coverage` prints instead how often certain borders were met. It
//! checks the books after each line. Where they are wrong, it ends with status
//! 1 after the counts and says why on standard error.
//!
//! An input of more than 1,048,576 bytes is an error, and nothing is printed.

use second::engine::{LIST_MOST, NO_LIST, TICKETS};
use second::lending::{room_of, Lending, Taken, GATHERED_MOST, INPUT_MOST};
use second::lines::{read_after_zero, CODES, KINDS, NO_CALL, NO_ROOM};
use second::{answer_line, books, Answer, Call, Exchange, Order, Phase, Place};
use std::io::{self, BufWriter, ErrorKind, Read, Write};
use std::process::ExitCode;

/// What was being done when an error came up, and the error.
type Fault = (&'static str, io::Error);

/// Orders and places of the lists that are counted by their lengths.
const LENGTHS: [(usize, usize); 10] =
    [(0, 0), (1, 1), (63, 63), (64, 64), (65, 65), (64, 65), (64, 63), (65, 64), (0, 1), (1, 0)];

/// The other borders that are counted, but for those of each code and kind.
const BORDERS: &[&str] = &[
    "list: 2 to 62 orders accepted",
    "list: 64 orders, all accepted",
    "list: other lengths that differ refused",
    "list: more orders than places refused",
    "list: more places than orders refused",
    "list: m above 65 refused",
    "list: m 4294967295 refused",
    "list: m above 65, 65 orders refused",
    "list: m equal to the orders modulo 256 refused",
    "list: refused, an order would be accepted",
    "list: refused, all orders would be accepted",
    "list: accepted after a refused one",
    "list: accepted after an accepted one",
    "list: where the answer line would have no room",
    "list: at an even line",
    "list: at an odd line",
    "list: a call made between its orders",
    "list: all accepted",
    "list: all refused",
    "list: a refused order before an accepted one",
    "list: an accepted order before a refused one",
    "list: a ticket twice, the second refused",
    "list: a ticket twice, the first refused",
    "list: a ticket twice, both refused",
    "list: a balance spent by an order before",
    "list: balance met",
    "list: balance missed by 1",
    "list: a resting ticket refused",
    "list: a ticket in a round refused",
    "list: all 64 tickets in use after",
    "list: all 64 tickets in use before",
    "list: while a market collects",
    "list: while a market is in auction",
    "list: while a market is paying",
    "list: all markets closed",
    "list: side 0 taken",
    "list: side 1 taken",
    "list: ticket 0 taken",
    "list: ticket 63 taken",
    "list: ticket 64 refused",
    "list: member 0 taken",
    "list: member 15 taken",
    "list: member 16 refused",
    "list: market 0 refused",
    "list: market 1 taken",
    "list: market 3 taken",
    "list: market 4 refused",
    "list: side 2 refused",
    "list: limit 0 refused",
    "list: limit 1 taken",
    "list: limit 2000000000 taken",
    "list: limit 2000000001 refused",
    "list: amount 0 refused",
    "list: amount above 2000000000 taken",
    "line: 20 at an odd line",
    "line: 20 at an even line",
    "line: 20 beside gathered orders",
    "line: 0 alone",
    "line: 0 and two numbers",
    "line: 00 and a number",
    "line: 0 and a leading zero",
    "line: 0 and no number",
    "line: 0 and a number too large",
    "line: a list and a bad byte",
    "room: 21, a call to be accepted",
    "room: 21, a call to be refused",
    "room: 21, no call",
    "room: 21, an order",
    "room: no bytes",
    "room: a byte too little",
    "room: just enough",
    "room: some to spare",
];

/// How a single call is made.
const WAYS: [&str; 2] = ["without a line", "with a line"];

/// The name of a list's length.
fn length_name(orders: usize, places: usize) -> String {
    let refused = if orders != places || orders > LIST_MOST { " refused" } else { "" };
    format!("list: orders {orders}, places {places}{refused}")
}

/// The name of an order's code in a list that is accepted.
fn code_name(code: u8) -> String {
    if code == 0 {
        "list: order accepted".to_string()
    } else {
        format!("list: order refused by {code}")
    }
}

/// The name of a single call.
fn single_name(way: usize, kind: usize, accepted: bool) -> String {
    format!("{}: kind {kind} {}", WAYS[way], if accepted { "accepted" } else { "refused" })
}

/// Every border, each with its count, so that those not met show as 0.
struct Counts {
    borders: Vec<(String, u64)>,
    /// The code of the last list.
    last_list: Option<u8>,
    /// A call was made since an order was gathered.
    moved: bool,
}

impl Counts {
    fn new() -> Counts {
        let mut names: Vec<String> =
            LENGTHS.iter().map(|&(orders, places)| length_name(orders, places)).collect();
        names.extend(CODES[3].iter().map(|&code| code_name(code)));
        names.extend(BORDERS.iter().map(|name| name.to_string()));
        for way in 0..WAYS.len() {
            for kind in 1..=KINDS {
                names.extend([true, false].map(|accepted| single_name(way, kind, accepted)));
            }
        }
        let borders = names.into_iter().map(|name| (name, 0)).collect();
        Counts { borders, last_list: None, moved: false }
    }

    fn add_if(&mut self, holds: bool, name: &str) {
        if holds {
            let border = self.borders.iter_mut().find(|(border, _)| border == name);
            border.unwrap_or_else(|| panic!("no border {name}")).1 += 1;
        }
    }

    /// Looks at a line, what became of it and the exchange before it. So many
    /// orders were gathered.
    fn line(&mut self, number: u32, line: &[u8], was: &Exchange, gathered: usize, taken: &Taken) {
        match taken {
            Taken::List { asked, orders, after, answer, .. } => {
                self.lengths(*asked, orders.len(), after.len());
                self.add_if(number % 2 == 0, "list: at an even line");
                self.add_if(number % 2 == 1, "list: at an odd line");
                let needed = format!("{number},{},0,0\n", answer.code).len();
                let little = room_of(number) < needed;
                self.add_if(little, "list: where the answer line would have no room");
                if answer.code == 0 {
                    self.accepted(was, orders, after);
                } else {
                    self.refused(was, orders);
                }
                self.last_list = Some(answer.code);
                self.moved = false;
            }
            Taken::Gathered => {}
            Taken::Plain(call, answer) => self.single(0, *call, answer.code, gathered),
            Taken::Line { call, size, code, line: written } => {
                self.room(number, was, *call, *size, written.len());
                match call {
                    _ if *code == NO_ROOM => {}
                    Some(call) => self.single(1, *call, *code, gathered),
                    None => self.no_call(number, line, gathered),
                }
            }
        }
    }

    fn lengths(&mut self, asked: u32, orders: usize, places: usize) {
        let known = LENGTHS.contains(&(orders, places));
        self.add_if(known, &length_name(orders, places));
        let drawn = orders == places && (2..=62).contains(&orders);
        self.add_if(drawn, "list: 2 to 62 orders accepted");
        let other = !known && orders != places;
        self.add_if(other, "list: other lengths that differ refused");
        self.add_if(orders > places, "list: more orders than places refused");
        self.add_if(orders < places, "list: more places than orders refused");
        let far = asked as usize > GATHERED_MOST;
        self.add_if(far, "list: m above 65 refused");
        self.add_if(asked == u32::MAX, "list: m 4294967295 refused");
        self.add_if(far && orders == GATHERED_MOST, "list: m above 65, 65 orders refused");
        let wraps = far && asked as usize % 256 == orders;
        self.add_if(wraps, "list: m equal to the orders modulo 256 refused");
    }

    /// A list that was accepted.
    fn accepted(&mut self, was: &Exchange, orders: &[Order], answers: &[Answer]) {
        self.add_if(self.last_list == Some(NO_LIST), "list: accepted after a refused one");
        self.add_if(self.last_list == Some(0), "list: accepted after an accepted one");
        self.add_if(self.moved, "list: a call made between its orders");
        let in_phase = |phase| was.markets().iter().any(|round| round.phase == phase);
        self.add_if(in_phase(Phase::Collect), "list: while a market collects");
        self.add_if(in_phase(Phase::Auction), "list: while a market is in auction");
        self.add_if(in_phase(Phase::Paying), "list: while a market is paying");
        let closed = was.markets().iter().all(|round| round.phase == Phase::Closed);
        self.add_if(closed, "list: all markets closed");
        let taken: Vec<bool> = answers.iter().map(|answer| answer.code == 0).collect();
        let accepted = taken.iter().filter(|&&taken| taken).count();
        let some = !orders.is_empty();
        self.add_if(some && accepted == orders.len(), "list: all accepted");
        self.add_if(accepted == LIST_MOST, "list: 64 orders, all accepted");
        self.add_if(some && accepted == 0, "list: all refused");
        let goes_on = taken.windows(2).any(|pair| pair == [false, true]);
        self.add_if(goes_on, "list: a refused order before an accepted one");
        let stops = taken.windows(2).any(|pair| pair == [true, false]);
        self.add_if(stops, "list: an accepted order before a refused one");
        self.add_if(some && in_use(was) == TICKETS, "list: all 64 tickets in use before");

        let mut x = was.clone();
        for (place, (order, answer)) in orders.iter().zip(answers).enumerate() {
            let earlier = orders[..place].iter().zip(&taken);
            let same: Vec<bool> = earlier
                .filter(|(other, _)| other.ticket == order.ticket)
                .map(|(_, &taken)| taken)
                .collect();
            self.order(was, &x, order, answer.code);
            self.twice(&same, answer.code);
            x.call(order.call());
        }
        let filled = in_use(&x) == TICKETS && accepted > 0;
        self.add_if(filled, "list: all 64 tickets in use after");
    }

    /// An order of a list, with the exchange before the list and before the
    /// order.
    fn order(&mut self, first: &Exchange, was: &Exchange, order: &Order, code: u8) {
        let Order { ticket, member, market, side, limit, amount } = *order;
        self.add_if(true, &code_name(code));
        let taken = code == 0;
        self.add_if(taken && side == 0, "list: side 0 taken");
        self.add_if(taken && side == 1, "list: side 1 taken");
        self.add_if(taken && ticket == 0, "list: ticket 0 taken");
        self.add_if(taken && ticket == 63, "list: ticket 63 taken");
        self.add_if(code == 4 && ticket == 64, "list: ticket 64 refused");
        self.add_if(taken && member == 0, "list: member 0 taken");
        self.add_if(taken && member == 15, "list: member 15 taken");
        self.add_if(code == 1 && member == 16, "list: member 16 refused");
        self.add_if(code == 3 && market == 0, "list: market 0 refused");
        self.add_if(taken && market == 1, "list: market 1 taken");
        self.add_if(taken && market == 3, "list: market 3 taken");
        self.add_if(code == 3 && market == 4, "list: market 4 refused");
        self.add_if(code == 5 && side == 2, "list: side 2 refused");
        let limits = code == 6 && amount > 0;
        self.add_if(limits && limit == 0, "list: limit 0 refused");
        self.add_if(taken && limit == 1, "list: limit 1 taken");
        self.add_if(taken && limit == 2_000_000_000, "list: limit 2000000000 taken");
        self.add_if(limits && limit == 2_000_000_001, "list: limit 2000000001 refused");
        let nothing = code == 6 && amount == 0 && (1..=2_000_000_000).contains(&limit);
        self.add_if(nothing, "list: amount 0 refused");
        self.add_if(taken && amount > 2_000_000_000, "list: amount above 2000000000 taken");
        if code == 7 {
            let place = was.tickets()[ticket as usize].place;
            self.add_if(place == Place::Resting, "list: a resting ticket refused");
            self.add_if(place == Place::Round, "list: a ticket in a round refused");
        }
        if taken || code == 19 {
            let token = if side == 0 { 0 } else { market as usize };
            let [before, now] = [first, was].map(|x| x.balances()[member as usize][token]);
            let amount = u64::from(amount);
            self.add_if(taken && amount == now, "list: balance met");
            self.add_if(amount == now + 1, "list: balance missed by 1");
            let spent = code == 19 && amount <= before;
            self.add_if(spent, "list: a balance spent by an order before");
        }
    }

    /// An order, and whether those before it for its ticket were accepted.
    fn twice(&mut self, same: &[bool], code: u8) {
        let taken = same.contains(&true);
        self.add_if(taken && code == 7, "list: a ticket twice, the second refused");
        let refused = !same.is_empty() && !taken;
        self.add_if(refused && code == 0, "list: a ticket twice, the first refused");
        self.add_if(refused && code != 0, "list: a ticket twice, both refused");
    }

    /// A list that was refused.
    fn refused(&mut self, was: &Exchange, orders: &[Order]) {
        let mut x = was.clone();
        let accepted = orders.iter().filter(|order| x.call(order.call()).code == 0).count();
        self.add_if(accepted > 0, "list: refused, an order would be accepted");
        let all = accepted > 0 && accepted == orders.len();
        self.add_if(all, "list: refused, all orders would be accepted");
    }

    /// A call made singly.
    fn single(&mut self, way: usize, call: Call, code: u8, gathered: usize) {
        self.add_if(true, &single_name(way, call.kind(), code == 0));
        self.moved |= code == 0 && gathered > 0;
    }

    /// A line that is no call and places no list, answered with 20.
    fn no_call(&mut self, number: u32, line: &[u8], gathered: usize) {
        self.add_if(number % 2 == 1, "line: 20 at an odd line");
        self.add_if(number % 2 == 0, "line: 20 at an even line");
        self.add_if(gathered > 0, "line: 20 beside gathered orders");
        let fields: Vec<&[u8]> = line.split(|&byte| byte == b',').collect();
        let numbers = |fields: &[&[u8]]| {
            fields.iter().all(|field| !field.is_empty() && field.iter().all(u8::is_ascii_digit))
        };
        self.add_if(line == b"0", "line: 0 alone");
        self.add_if(line == b"0,", "line: 0 and no number");
        if fields.len() == 3 && fields[0] == b"0" && numbers(&fields) {
            self.add_if(true, "line: 0 and two numbers");
        }
        if fields.len() == 2 && numbers(&fields) {
            self.add_if(fields[0] == b"00", "line: 00 and a number");
            let [zero, second] = [fields[0], fields[1]];
            let leading = second.len() > 1 && second[0] == b'0';
            self.add_if(zero == b"0" && leading, "line: 0 and a leading zero");
            let large = !leading && second.len() >= 10;
            self.add_if(zero == b"0" && large, "line: 0 and a number too large");
        }
        if let [before @ .., last] = line {
            let bad = !last.is_ascii_digit() && *last != b',';
            let list = read_after_zero(before).is_some();
            self.add_if(bad && list, "line: a list and a bad byte");
        }
    }

    /// A line for a lent buffer of so many bytes, of which so many were used.
    fn room(&mut self, number: u32, was: &Exchange, call: Option<Call>, size: usize, used: usize) {
        let mut enough = [0; 100];
        let (code, len) = answer_line(&mut was.clone(), number, call, &mut enough);
        if used == 0 {
            self.add_if(code == 0, "room: 21, a call to be accepted");
            self.add_if(code != 0 && code != NO_CALL, "room: 21, a call to be refused");
            self.add_if(code == NO_CALL, "room: 21, no call");
            self.add_if(matches!(call, Some(Call::Order { .. })), "room: 21, an order");
        }
        self.add_if(size == 0, "room: no bytes");
        self.add_if(size + 1 == len, "room: a byte too little");
        self.add_if(size == len, "room: just enough");
        self.add_if(size > len && room_of(number) != 35, "room: some to spare");
    }
}

/// How many tickets are in use.
fn in_use(x: &Exchange) -> usize {
    x.tickets().iter().filter(|held| held.place != Place::Free).count()
}

/// That the books are right after a line, from the exchange before it.
fn check(number: u32, was: &Exchange, is: &Exchange, taken: &Taken) -> Result<(), &'static str> {
    match taken {
        Taken::List { orders, before, after, answer, .. } => {
            books::check_list(was, is, orders, before, after, *answer)
        }
        Taken::Plain(call, answer) => books::check_call(was, is, *call, *answer),
        Taken::Line { call: Some(call), code, line, .. } if *code != NO_ROOM => {
            let answer = was.clone().call(*call);
            let Answer { code, first, second } = answer;
            if *line != format!("{number},{code},{first},{second}\n").into_bytes() {
                return Err("an answer line is not its call's");
            }
            books::check_call(was, is, *call, answer)
        }
        Taken::Gathered | Taken::Line { .. } if is != was => Err("a line that is no call moved"),
        Taken::Gathered | Taken::Line { .. } => Ok(()),
    }
}

/// All of the input, if it isn't too long.
fn read_all(input: impl Read) -> Result<Vec<u8>, Fault> {
    let mut bytes = Vec::new();
    let most = u64::from(INPUT_MOST);
    input.take(most + 1).read_to_end(&mut bytes).map_err(|error| ("read", error))?;
    if bytes.len() as u64 > most {
        let text = format!("more than {most} bytes");
        return Err(("read", io::Error::new(ErrorKind::InvalidData, text)));
    }
    Ok(bytes)
}

/// The lines of an input, without their bytes 10.
fn lines(input: &[u8]) -> impl Iterator<Item = &[u8]> {
    let lines = input.split_inclusive(|&byte| byte == b'\n');
    lines.map(|line| line.strip_suffix(b"\n").unwrap_or(line))
}

fn run(input: impl Read, mut output: impl Write) -> Result<(), Fault> {
    let input = read_all(input)?;
    let mut lending = Lending::new();
    for line in lines(&input) {
        let taken = lending.take(line);
        taken.print(lending.number(), &mut output).map_err(|error| ("write", error))?;
    }
    output.flush().map_err(|error| ("write", error))
}

/// Prints the counts and gives what is wrong first, if anything.
fn run_coverage(input: impl Read, mut output: impl Write) -> Result<Option<String>, Fault> {
    let input = read_all(input)?;
    let mut lending = Lending::new();
    let mut counts = Counts::new();
    let mut wrong = None;
    for line in lines(&input) {
        let was = lending.exchange().clone();
        let gathered = lending.gathered().len();
        let taken = lending.take(line);
        counts.line(lending.number(), line, &was, gathered, &taken);
        if let Err(text) = check(lending.number(), &was, lending.exchange(), &taken) {
            wrong.get_or_insert(format!("line {}: {text}", lending.number()));
        }
    }
    let end = if input.is_empty() || input.ends_with(b"\n") { "with" } else { "without" };
    let (number, dropped) = (lending.number(), lending.gathered().len());
    let mut print = || {
        writeln!(output, "lines {number}, bytes {}, the last one {end} byte 10", input.len())?;
        writeln!(output, "orders never placed {dropped}")?;
        writeln!(output)?;
        for (name, count) in &counts.borders {
            writeln!(output, "{count:>8}  {name}")?;
        }
        output.flush()
    };
    print().map_err(|error| ("write", error))?;
    Ok(wrong)
}

fn main() -> ExitCode {
    let words: Vec<_> = std::env::args_os().skip(1).collect();
    let output = BufWriter::with_capacity(1 << 20, io::stdout());
    let told = match &words[..] {
        [] => run(io::stdin().lock(), output).map(|()| None),
        [word] if word == "--coverage" => run_coverage(io::stdin().lock(), output),
        _ => {
            let _ = writeln!(io::stderr(), "use: lending [--coverage]");
            return ExitCode::FAILURE;
        }
    };
    match told {
        Ok(None) => ExitCode::SUCCESS,
        Ok(Some(wrong)) => {
            let _ = writeln!(io::stderr(), "lending: {wrong}");
            ExitCode::FAILURE
        }
        Err((doing, error)) => {
            let _ = writeln!(io::stderr(), "cannot {doing}: {error}");
            ExitCode::FAILURE
        }
    }
}

#[cfg(test)]
mod tests {
    use super::*;

    fn printed(input: &str) -> String {
        let mut output = Vec::new();
        assert!(run(input.as_bytes(), &mut output).is_ok());
        String::from_utf8(output).unwrap()
    }

    /// The answers to lines, the last of which are these.
    fn ends(input: &str, end: &str) {
        let output = printed(input);
        assert!(output.ends_with(&format!("\n{end}")), "{output}");
    }

    const MORNING: &str = "\n1,0,0,10\n1,1,1,5\n\
        3,0,0,1,0,3000000,4\n3,0,1,1,1,1,2\n3,1,1,1,1,1,5\n3,2,1,1,1,1,1\n3,64,16,0,2,0,0\n\
        3,64,0,4,2,0,0\n3,3,0,1,0,2000000001,1\n3,3,0,1,0,2000000000,6\n3,4,0,1,0,1,1\n";

    #[test]
    fn orders_are_gathered_and_placed() {
        assert_eq!(printed(MORNING), "1,21,0,0\n2,0,10,0\n3,0,5,0\n");
        let answers = "1,21,0,0\n2,0,10,0\n3,0,5,0\n13,0,0,0\n0,0,4,0\n1,7,0,0\n2,0,5,0\n\
            3,19,0,0\n4,1,0,0\n5,3,0,0\n6,6,0,0\n7,0,6,0\n8,19,0,0\n";
        for end in ["", "\n"] {
            assert_eq!(printed(&format!("{MORNING}0,9{end}")), answers);
        }
        // The list is empty after it, and the balances are spent.
        let input = format!("{MORNING}0,9\n0,0\n2,0,0,1\n2,1,1,1\n4,3,0\n0,1");
        let more = "14,0,0,0\n15,19,0,0\n16,19,0,0\n17,21,0,0\n18,22,0,0\n0,0,0,4294967295\n";
        assert_eq!(printed(&input), format!("{answers}{more}"));
    }

    #[test]
    fn lists_of_wrong_lengths() {
        assert_eq!(printed("0,0"), "1,0,0,0\n");
        let places = |count: usize| -> String {
            (0..count).map(|place| format!("{place},0,{place},4294967295\n")).collect()
        };
        for (asked, count) in [(1, 1), (64, 64), (65, 65), (66, 65), (4294967295u32, 65)] {
            assert_eq!(printed(&format!("0,{asked}\n")), format!("1,22,0,0\n{}", places(count)));
        }
        let full = |count: usize| "3,0,0,1,0,1,1\n".repeat(count);
        for (orders, asked) in [(1, 0), (1, 2), (64, 63), (64, 65), (65, 64), (65, 65), (65, 900)] {
            let refused = format!("{},22,0,0\n{}", orders + 1, places(asked.min(65)));
            assert_eq!(printed(&format!("{}0,{asked}\n", full(orders))), refused);
            // The orders are gone.
            let input = format!("{}0,{asked}\n0,0\n0,1\n", full(orders));
            let more = format!("{},0,0,0\n{},22,0,0\n{}", orders + 2, orders + 3, places(1));
            assert_eq!(printed(&input), refused + &more);
        }
        let all = printed(&format!("{}0,64", full(64)));
        assert_eq!(all.lines().count(), 65);
        assert!(all.starts_with("65,0,0,0\n0,19,0,0\n"), "{all}");
    }

    #[test]
    fn more_orders_than_can_be_gathered() {
        // From line 68 on they are made singly: without a line, and with one.
        let orders: String = (0..65).map(|ticket| format!("3,{ticket},0,1,0,1,1\n")).collect();
        let input = format!("\n1,0,0,100\n{orders}3,0,0,1,0,1,7\n3,1,0,1,0,1,8\n3,1,0,1,0,1,8\n");
        let singly = "1,21,0,0\n2,0,100,0\n68,0,7,0\n69,0,8,0\n70,7,0,0\n";
        assert_eq!(printed(&input), singly);
        ends(&format!("{input}0,65\n2,0,0,86\n2,0,0,85"), "72,19,0,0\n73,0,0,0\n");
        ends(&format!("{input}0,65\n2,0,0,85"), "64,0,64,4294967295\n72,0,0,0\n");
    }

    #[test]
    fn lines_that_place_no_list() {
        let others = [
            "0",
            "0,",
            "0,1,2",
            "00,1",
            "0,01",
            "0,00",
            ",0",
            ",0,1",
            "0,1,",
            "0,,1",
            "0,1 ",
            "0,1\r",
            " 0,1",
            "0,+1",
            "0,4294967296",
            "0,18446744073709551616",
        ];
        for line in others {
            let input = format!("\n1,0,0,5\n3,0,0,1,0,1,5\n{line}\n{line}\n0,1\n");
            let answers = "1,21,0,0\n2,0,5,0\n4,20,0,0\n5,20,0,0\n6,0,0,0\n0,0,5,0\n";
            assert_eq!(printed(&input), answers, "{line}");
        }
        let long = "0,1".to_string() + &" ".repeat(100);
        assert_eq!(printed(&format!("\n{long}\n{long}")), "1,21,0,0\n2,20,0,0\n3,20,0,0\n");
    }

    #[test]
    fn rooms_by_number() {
        let lines = printed(&"\n".repeat(600));
        let lines: Vec<&str> = lines.lines().collect();
        assert_eq!(lines.len(), 600);
        for (place, line) in lines.iter().enumerate() {
            let number = place + 1;
            let needed = format!("{number},20,0,0\n").len();
            let little = number % 8 == 1 && number / 8 % 32 < needed;
            assert_eq!(*line, format!("{number},{},0,0", if little { 21 } else { 20 }));
        }
        // Lines 73 and 81 have room for 9 and 10 bytes, line 257 for none.
        assert_eq!([lines[72], lines[80]], ["73,21,0,0", "81,20,0,0"]);
        assert_eq!([lines[248], lines[256]], ["249,20,0,0", "257,21,0,0"]);
        // With 21 nothing moves; a list needs no room.
        let input = "\n".repeat(256) + "1,0,0,5\n2,0,0,1\n" + &"\n".repeat(6) + "1,0,0,5\n0,0\n";
        ends(&input, "265,21,0,0\n266,0,0,0\n");
        ends(&("\n".repeat(256) + "1,0,0,5\n2,0,0,1"), "257,21,0,0\n258,19,0,0\n");
        ends(&("\n".repeat(256) + "0,0\n"), "257,0,0,0\n");
    }

    #[test]
    fn lines_and_their_ends() {
        assert_eq!(printed(""), "");
        assert_eq!(printed("\n"), "1,21,0,0\n");
        assert_eq!(printed("\n\n"), "1,21,0,0\n2,20,0,0\n");
        assert_eq!(printed("\n\n6,0"), "1,21,0,0\n2,20,0,0\n3,8,0,0\n");
        assert_eq!(printed("\n\n6,0\n"), "1,21,0,0\n2,20,0,0\n3,8,0,0\n");
    }

    /// A reader that fails.
    struct Broken;

    impl Read for Broken {
        fn read(&mut self, _: &mut [u8]) -> io::Result<usize> {
            Err(io::Error::other("broken"))
        }
    }

    #[test]
    fn errors_are_told() {
        let most = vec![b'\n'; INPUT_MOST as usize];
        let mut output = Vec::new();
        assert!(run(&most[..], &mut output).is_ok());
        assert_eq!(output.iter().filter(|&&byte| byte == b'\n').count(), most.len());
        output.clear();
        let above = [&most[..], b"x"].concat();
        let told = |result: Result<(), Fault>| result.map_err(|(doing, _)| doing);
        assert_eq!(told(run(&above[..], &mut output)), Err("read"));
        assert_eq!(told(run((&most[..]).chain(Broken), &mut output)), Err("read"));
        assert_eq!(told(run_coverage(&above[..], &mut output).map(|_| ())), Err("read"));
        assert_eq!(output, b"");
        let mut room = [0; 20];
        assert_eq!(told(run(&b"\n\n"[..], &mut room[..18])), Ok(()));
        assert_eq!(told(run(&b"\n\n"[..], &mut room[..17])), Err("write"));
        assert_eq!(told(run_coverage(&b"\n"[..], &mut room[..]).map(|_| ())), Err("write"));
    }

    /// The counts that are not 0, without the first lines.
    fn counted(input: &str) -> Vec<String> {
        let mut output = Vec::new();
        assert!(run_coverage(input.as_bytes(), &mut output).is_ok_and(|wrong| wrong.is_none()));
        let text = String::from_utf8(output).unwrap();
        let counts = text.lines().skip(3).map(|line| line.trim_start().to_string());
        counts.filter(|line| !line.starts_with("0  ")).collect()
    }

    #[test]
    fn borders_are_counted() {
        assert_eq!(counted(""), Vec::<String>::new());
        let mut names = Counts::new().borders;
        let number = names.len();
        names.sort();
        names.dedup();
        assert_eq!(names.len(), number);
        let counts = counted("0,0\n");
        let expected = [
            "1  list: orders 0, places 0",
            "1  list: where the answer line would have no room",
            "1  list: at an odd line",
            "1  list: all markets closed",
        ];
        assert_eq!(counts, expected);
        let counts = counted(&format!("{MORNING}0,9"));
        for name in [
            "3  list: order accepted",
            "2  list: order refused by 19",
            "1  list: a ticket twice, the second refused",
            "1  list: a ticket twice, the first refused",
            "1  list: a refused order before an accepted one",
            "2  list: a balance spent by an order before",
            "2  list: balance met",
            "1  without a line: kind 1 accepted",
            "1  with a line: kind 1 accepted",
            "1  room: 21, no call",
        ] {
            assert!(counts.contains(&name.to_string()), "{name}: {counts:?}");
        }
    }

    #[test]
    fn wrong_books_are_told() {
        let was = Exchange::new();
        let mut is = was.clone();
        is.deposit(0, 0, 5);
        let call = Call::Deposit { member: 0, token: 0, amount: 5 };
        let answer = Answer { code: 0, first: 5, second: 0 };
        assert_eq!(check(2, &was, &is, &Taken::Plain(call, answer)), Ok(()));
        assert!(check(2, &was, &was, &Taken::Plain(call, answer)).is_err());
        let line = |code, line: &[u8]| Taken::Line {
            call: Some(call),
            size: 35,
            code,
            line: line.to_vec(),
        };
        assert_eq!(check(3, &was, &is, &line(0, b"3,0,5,0\n")), Ok(()));
        assert!(check(3, &was, &is, &line(0, b"4,0,5,0\n")).is_err());
        assert!(check(3, &was, &was, &line(0, b"3,0,5,0\n")).is_err());
        assert_eq!(check(3, &was, &was, &line(21, b"")), Ok(()));
        assert!(check(3, &was, &is, &line(21, b"")).is_err());
        assert_eq!(check(3, &was, &was, &Taken::Gathered), Ok(()));
        assert!(check(3, &was, &is, &Taken::Gathered).is_err());
        let refused = Answer { code: 22, first: 0, second: 0 };
        let list = |answer| Taken::List {
            asked: 1,
            orders: Vec::new(),
            before: vec![refused],
            after: vec![refused],
            answer,
        };
        assert_eq!(check(4, &was, &was, &list(refused)), Ok(()));
        assert!(check(4, &was, &is, &list(refused)).is_err());
        assert!(check(4, &was, &was, &list(Answer { code: 0, ..refused })).is_err());
    }
}
