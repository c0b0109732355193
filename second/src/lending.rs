//! Lines that try lists of orders and lent buffers, for the tools lending and
//! lists. Lines of orders are gathered, and a line `0,m` places them as a list
//! with m places for their answers. Any other call is made without a line
//! where the line's number is even. All else is taken as a line, for a lent
//! buffer whose size depends on the number.

use crate::engine::{Answer, Call, Exchange, Order, LIST_MOST};
use crate::lines::{answer_line, read_after_zero, read_call, NO_ROOM};
use std::io::{self, Write};

/// Most orders that are gathered, and most places for answers: one more than a
/// list may have.
pub const GATHERED_MOST: usize = LIST_MOST + 1;

/// Most bytes of an input, and so most lines.
pub const INPUT_MOST: u32 = 1_048_576;

/// What became of a line.
pub enum Taken {
    /// A list was placed: the number of places asked for, the orders, their
    /// places before and after it, and the answer of the list itself.
    List { asked: u32, orders: Vec<Order>, before: Vec<Answer>, after: Vec<Answer>, answer: Answer },
    /// An order was gathered.
    Gathered,
    /// A call was made without a line.
    Plain(Call, Answer),
    /// A line was taken, be it a call or not, for a lent buffer of so many
    /// bytes: the code, and the answer line, which is empty with code 21.
    Line { call: Option<Call>, size: usize, code: u8, line: Vec<u8> },
}

impl Taken {
    /// Prints what there is to tell of line `number`: the answer and, after a
    /// list, every place.
    pub fn print(&self, number: u32, output: &mut impl Write) -> io::Result<()> {
        match self {
            Taken::List { after, answer, .. } => {
                print_answer(number, *answer, output)?;
                for (place, answer) in (0..).zip(after) {
                    print_answer(place, *answer, output)?;
                }
                Ok(())
            }
            Taken::Gathered => Ok(()),
            Taken::Plain(_, answer) => print_answer(number, *answer, output),
            Taken::Line { code: NO_ROOM, .. } => {
                print_answer(number, Answer::refused(NO_ROOM), output)
            }
            Taken::Line { line, .. } => output.write_all(line),
        }
    }
}

fn print_answer(number: u32, answer: Answer, output: &mut impl Write) -> io::Result<()> {
    let Answer { code, first, second } = answer;
    writeln!(output, "{number},{code},{first},{second}")
}

/// The bytes of the lent buffer for the answer of a line.
pub fn room_of(number: u32) -> usize {
    if number % 8 == 1 {
        (number / 8 % 32) as usize
    } else {
        35
    }
}

/// The exchange, the orders gathered for it and the number of lines so far.
#[derive(Default)]
pub struct Lending {
    exchange: Exchange,
    gathered: Vec<Order>,
    number: u32,
}

impl Lending {
    /// A fresh exchange, and no order gathered.
    pub fn new() -> Lending {
        Lending::default()
    }

    pub fn exchange(&self) -> &Exchange {
        &self.exchange
    }

    pub fn gathered(&self) -> &[Order] {
        &self.gathered
    }

    /// The number of the last line taken.
    pub fn number(&self) -> u32 {
        self.number
    }

    /// The exchange that the gathered orders would leave; where they are too
    /// many for a list, the exchange as it is.
    pub fn ahead(&self) -> Exchange {
        let mut ahead = self.exchange.clone();
        let mut answers = vec![Answer::accepted(0, 0); self.gathered.len()];
        ahead.order_list(&self.gathered, &mut answers);
        ahead
    }

    /// Takes the next line, given without its byte 10.
    pub fn take(&mut self, line: &[u8]) -> Taken {
        self.number += 1;
        if let Some(asked) = read_after_zero(line) {
            return self.place(asked);
        }
        match read_call(line) {
            Some(Call::Order { ticket, member, market, side, limit, amount })
                if self.gathered.len() < GATHERED_MOST =>
            {
                self.gathered.push(Order { ticket, member, market, side, limit, amount });
                Taken::Gathered
            }
            Some(call) if self.number % 2 == 0 => Taken::Plain(call, self.exchange.call(call)),
            call => {
                let size = room_of(self.number);
                let mut out = vec![0; size];
                let (code, len) = answer_line(&mut self.exchange, self.number, call, &mut out);
                out.truncate(len);
                Taken::Line { call, size, code, line: out }
            }
        }
    }

    /// Places the gathered orders as a list. Each place holds its own number
    /// and the highest one before.
    fn place(&mut self, asked: u32) -> Taken {
        let places = asked.min(GATHERED_MOST as u32);
        let before: Vec<Answer> =
            (0..places).map(|first| Answer { code: 0, first, second: u32::MAX }).collect();
        let mut after = before.clone();
        let orders = std::mem::take(&mut self.gathered);
        let answer = self.exchange.order_list(&orders, &mut after);
        Taken::List { asked, orders, before, after, answer }
    }
}
