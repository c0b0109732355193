//! The ledger alone, for the tool postings: sixteen rows of four balances and
//! one row apart, with its own refusals (1, 2, 14 and 19). A line is one
//! posting; one that is none is refused by 20.

use crate::engine::{MEMBERS, MOST, TOKENS};
use crate::lines::{read_numbers, NO_CALL};

/// Number of kinds of postings; the first one is 1.
pub const POSTINGS: usize = 6;

/// Number of fields by kind.
pub const POSTING_FIELDS: [usize; POSTINGS + 1] = [0, 3, 3, 2, 2, 2, 0];

/// The codes that a kind can meet; kind 0 is a line that is no posting.
pub const POSTING_CODES: [&[u8]; POSTINGS + 1] =
    [&[NO_CALL], &[0, 1, 2, 14], &[0, 1, 2, 19], &[0, 1, 2], &[0, 2, 14], &[0, 2, 19], &[0]];

/// One posting with its fields, not yet tested.
#[derive(Clone, Copy, PartialEq, Eq, Debug)]
pub enum Posting {
    /// 1: adds to a balance.
    Credit { member: u32, token: u32, amount: u32 },
    /// 2: takes from a balance.
    Debit { member: u32, token: u32, amount: u32 },
    /// 3: reads a balance.
    Read { member: u32, token: u32 },
    /// 4: adds to the row apart.
    CreditApart { token: u32, amount: u32 },
    /// 5: takes from the row apart.
    DebitApart { token: u32, amount: u32 },
    /// 6: all balances, and the row apart, are 0 again.
    Renew,
}

impl Posting {
    /// The posting's kind number, 1 to 6.
    pub fn kind(&self) -> usize {
        match self {
            Posting::Credit { .. } => 1,
            Posting::Debit { .. } => 2,
            Posting::Read { .. } => 3,
            Posting::CreditApart { .. } => 4,
            Posting::DebitApart { .. } => 5,
            Posting::Renew => 6,
        }
    }
}

/// Reads a whole line, given without its byte 10.
pub fn read_posting(line: &[u8]) -> Option<Posting> {
    match read_numbers(line)?[..] {
        [1, member, token, amount] => Some(Posting::Credit { member, token, amount }),
        [2, member, token, amount] => Some(Posting::Debit { member, token, amount }),
        [3, member, token] => Some(Posting::Read { member, token }),
        [4, token, amount] => Some(Posting::CreditApart { token, amount }),
        [5, token, amount] => Some(Posting::DebitApart { token, amount }),
        [6] => Some(Posting::Renew),
        _ => None,
    }
}

/// The code of a posting, and the amount that it answers: 0 where it is
/// refused.
#[derive(Clone, Copy, PartialEq, Eq, Debug)]
pub struct Posted {
    pub code: u8,
    pub amount: u64,
}

/// Sixteen rows of four balances, and a row apart.
#[derive(Clone, Default, PartialEq, Eq, Debug)]
pub struct Ledger {
    rows: [[u64; TOKENS]; MEMBERS],
    apart: [u64; TOKENS],
}

impl Ledger {
    /// A fresh ledger: all balances are 0.
    pub fn new() -> Ledger {
        Ledger::default()
    }

    pub fn rows(&self) -> &[[u64; TOKENS]; MEMBERS] {
        &self.rows
    }

    pub fn apart(&self) -> &[u64; TOKENS] {
        &self.apart
    }

    /// Works one posting.
    pub fn post(&mut self, posting: Posting) -> Posted {
        let worked = match posting {
            Posting::Credit { member, token, amount } => {
                self.balance(member, token).and_then(|balance| credit(balance, amount))
            }
            Posting::Debit { member, token, amount } => {
                self.balance(member, token).and_then(|balance| debit(balance, amount))
            }
            Posting::Read { member, token } => self.balance(member, token).map(|balance| *balance),
            Posting::CreditApart { token, amount } => {
                cell(&mut self.apart, token).and_then(|balance| credit(balance, amount))
            }
            Posting::DebitApart { token, amount } => {
                cell(&mut self.apart, token).and_then(|balance| debit(balance, amount))
            }
            Posting::Renew => {
                *self = Ledger::new();
                Ok(0)
            }
        };
        match worked {
            Ok(amount) => Posted { code: 0, amount },
            Err(code) => Posted { code, amount: 0 },
        }
    }

    /// A balance, or the code of the first of its two numbers that is too high.
    fn balance(&mut self, member: u32, token: u32) -> Result<&mut u64, u8> {
        let row = self.rows.get_mut(member as usize).ok_or(1)?;
        cell(row, token)
    }
}

/// The balance of a token in a row.
fn cell(row: &mut [u64; TOKENS], token: u32) -> Result<&mut u64, u8> {
    row.get_mut(token as usize).ok_or(2)
}

/// Adds an amount, unless the balance would pass the most, and gives the new
/// balance.
fn credit(balance: &mut u64, amount: u32) -> Result<u64, u8> {
    let sum = *balance + u64::from(amount);
    if sum > MOST {
        return Err(14);
    }
    *balance = sum;
    Ok(sum)
}

/// Takes an amount, unless the balance is below it, and gives the new balance.
fn debit(balance: &mut u64, amount: u32) -> Result<u64, u8> {
    *balance = balance.checked_sub(u64::from(amount)).ok_or(19)?;
    Ok(*balance)
}

/// A ledger and the number of lines so far.
#[derive(Default)]
pub struct Postings {
    ledger: Ledger,
    number: u32,
}

impl Postings {
    /// A fresh ledger, before the first line.
    pub fn new() -> Postings {
        Postings::default()
    }

    pub fn ledger(&self) -> &Ledger {
        &self.ledger
    }

    /// The number of the last line taken.
    pub fn number(&self) -> u32 {
        self.number
    }

    /// Takes the next line, given without its byte 10.
    pub fn take(&mut self, line: &[u8]) -> Posted {
        self.number += 1;
        match read_posting(line) {
            Some(posting) => self.ledger.post(posting),
            None => Posted { code: NO_CALL, amount: 0 },
        }
    }
}

#[cfg(test)]
mod tests {
    use super::*;

    /// Takes lines, each of which gets its code and amount.
    fn answers(lines: &[(&str, u8, u64)]) -> Ledger {
        let mut postings = Postings::new();
        for &(line, code, amount) in lines {
            let was = postings.ledger().clone();
            assert_eq!(postings.take(line.as_bytes()), Posted { code, amount }, "{line}");
            if code != 0 {
                assert_eq!((amount, postings.ledger()), (0, &was), "{line}");
            }
        }
        assert_eq!(postings.number() as usize, lines.len());
        postings.ledger().clone()
    }

    #[test]
    fn balances_come_and_go() {
        let ledger = answers(&[
            ("3,0,0", 0, 0),
            ("1,0,0,5", 0, 5),
            ("1,0,0,0", 0, 5),
            ("1,15,3,7", 0, 7),
            ("2,0,0,6", 19, 0),
            ("3,0,0", 0, 5),
            ("2,0,0,5", 0, 0),
            ("2,0,0,0", 0, 0),
            ("2,0,0,1", 19, 0),
            ("2,15,3,4294967295", 19, 0),
            ("3,15,3", 0, 7),
            ("4,3,9", 0, 9),
            ("5,3,10", 19, 0),
            ("5,3,4", 0, 5),
        ]);
        assert_eq!((ledger.rows()[15], ledger.apart()), ([0, 0, 0, 7], &[0, 0, 0, 5]));
        assert_eq!(ledger.rows()[..15], [[0; TOKENS]; 15]);
    }

    #[test]
    fn no_balance_passes_the_most() {
        answers(&[
            ("1,3,2,4294967294", 0, 4_294_967_294),
            ("1,3,2,2", 14, 0),
            ("1,3,2,1", 0, MOST),
            ("1,3,2,1", 14, 0),
            ("1,3,2,4294967295", 14, 0),
            ("1,3,2,0", 0, MOST),
            ("3,3,2", 0, MOST),
            // Every balance has its own most.
            ("1,4,2,4294967295", 0, MOST),
            ("4,2,4294967295", 0, MOST),
            ("4,2,1", 14, 0),
            ("4,2,4294967295", 14, 0),
            ("5,2,4294967295", 0, 0),
            ("2,3,2,4294967295", 0, 0),
            ("3,4,2", 0, MOST),
        ]);
    }

    #[test]
    fn the_first_code_in_rising_number() {
        let mut lines = Vec::new();
        for bad in ["16", "17", "1000", "4294967295"] {
            for token in ["0", "4"] {
                lines.extend([1, 2].map(|kind| (format!("{kind},{bad},{token},4294967295"), 1)));
                lines.push((format!("3,{bad},{token}"), 1));
            }
        }
        for bad in ["4", "5", "1000", "4294967295"] {
            for kind in [1, 2] {
                lines.push((format!("{kind},15,{bad},4294967295"), 2));
                lines.push((format!("{},{bad},4294967295", kind + 3), 2));
            }
            lines.push((format!("3,15,{bad}"), 2));
        }
        for (line, code) in &lines {
            answers(&[("1,15,3,1", 0, 1), ("4,3,1", 0, 1), (line, *code, 0)]);
        }
    }

    #[test]
    fn fresh_again() {
        let ledger = answers(&[("1,1,1,5", 0, 5), ("4,1,6", 0, 6), ("6", 0, 0), ("3,1,1", 0, 0)]);
        assert_eq!(ledger, Ledger::new());
    }

    #[test]
    fn lines_that_are_no_posting() {
        let lines = [
            "",
            "0",
            "1",
            "1,0",
            "1,0,0",
            "1,0,0,0,0",
            "2,0,0",
            "2,0,0,0,0",
            "3",
            "3,0",
            "3,0,0,0",
            "4",
            "4,0",
            "4,0,0,0",
            "5,0",
            "5,0,0,0",
            "6,",
            "6,0",
            "06",
            "00",
            "7",
            "7,0,0,0",
            "4294967295",
            "1,0,0,4294967296",
            "1,0,0,01",
            "1,00,0,1",
            "3,0,",
            ",3,0,0",
            "3,,0",
            "3,0,0 ",
            "3,0,0\r",
            "3,-0,0",
            "3,0,0x",
            "18446744073709551617,0,0,1",
        ];
        for line in lines {
            answers(&[("1,0,0,5", 0, 5), (line, NO_CALL, 0), ("3,0,0", 0, 5)]);
        }
        let long = format!("3,0,{}", "0".repeat(77));
        answers(&[(&long, NO_CALL, 0)]);
    }

    #[test]
    fn kinds_and_their_fields() {
        for (kind, fields) in POSTING_FIELDS.into_iter().enumerate().skip(1) {
            let line = kind.to_string() + &",0".repeat(fields);
            assert_eq!(read_posting(line.as_bytes()).map(|posting| posting.kind()), Some(kind));
        }
    }
}
