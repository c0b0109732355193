//! The ledger alone, without the rounds. `postings` takes lines from standard
//! input and prints for line k `k,code,amount`, with an amount of 0 where the
//! line is refused:
//!
//! - `1,member,token,amount` adds to a balance and answers the new one.
//! - `2,member,token,amount` takes from a balance and answers the new one.
//! - `3,member,token` answers a balance.
//! - `4,token,amount` adds to a row apart and answers the new amount.
//! - `5,token,amount` takes from that row and answers the new amount.
//! - `6` makes all balances and the row apart 0 again and answers 0.
//!
//! Codes: 1 for a member above 15, 2 for a token above 3, 14 for a balance that
//! would pass 4,294,967,295, 19 for one below the amount, and 20 for any other
//! line. An input of more than 1,048,576 bytes is an error, and nothing is
//! printed.
//!
//! `postings --draw SEED LINES` prints lines for it, the same ones for the same
//! seed. `postings --coverage` takes lines and prints how often certain borders
//! were met. Where a refused line moved something, or a kind met a code that it
//! cannot meet, it ends with status 1 after the counts and says why on standard
//! error.

use second::borders::Borders;
use second::chance::Chance;
use second::engine::{MEMBERS, MOST, TOKENS};
use second::input::{lines, read_all, report, Fault, INPUT_MOST};
use second::lines::LINE_MOST;
use second::postings::{read_posting, Ledger, Posted, Posting, Postings};
use second::postings::{POSTINGS, POSTING_CODES, POSTING_FIELDS};
use std::io::{self, BufWriter, Read, Write};
use std::process::ExitCode;

// Lines drawn.

/// How many sorts of lines that are no posting take turns.
const FAULTS: usize = 31;

/// Members and tokens at and past the ends of their ranges, which take turns.
const EDGE_MEMBERS: [u64; 7] = [15, 16, 17, 0, 1_000, MOST, 65_536];
const EDGE_TOKENS: [u64; 6] = [3, 4, 5, 1_000, MOST, 256];

/// A balance: a member's, or in the row apart.
#[derive(Clone, Copy, PartialEq)]
struct Cell {
    member: Option<u64>,
    token: u64,
}

impl Cell {
    fn balance(&self, ledger: &Ledger) -> u64 {
        let row = match self.member {
            Some(member) => &ledger.rows()[member as usize],
            None => ledger.apart(),
        };
        row[self.token as usize]
    }

    fn credit(&self, amount: u64) -> Vec<u64> {
        match self.member {
            Some(member) => vec![1, member, self.token, amount],
            None => vec![4, self.token, amount],
        }
    }

    fn debit(&self, amount: u64) -> Vec<u64> {
        match self.member {
            Some(member) => vec![2, member, self.token, amount],
            None => vec![5, self.token, amount],
        }
    }

    /// For the row apart, which is read by no line: a credit of 0.
    fn read(&self) -> Vec<u64> {
        match self.member {
            Some(member) => vec![3, member, self.token],
            None => self.credit(0),
        }
    }
}

struct Drawing<W: Write> {
    chance: Chance,
    postings: Postings,
    output: W,
    /// Lines still to print.
    left: u32,
    /// The last line has no byte 10.
    open_end: bool,
    /// Every refusal that can be met, kind and code, and the next one.
    refusals: Vec<(usize, u8)>,
    refusal: usize,
    /// The next sort of line that is no posting, and the next edge.
    fault: usize,
    edge: usize,
    failed: Option<io::Error>,
}

impl<W: Write> Drawing<W> {
    fn new(seed: u64, lines: u32, output: W) -> Drawing<W> {
        let mut chance = Chance::new(seed);
        chance.draw();
        let mut refusals = Vec::new();
        for (kind, codes) in POSTING_CODES.iter().enumerate().skip(1) {
            refusals.extend(codes.iter().filter(|&&code| code != 0).map(|&code| (kind, code)));
        }
        let fault = chance.below(FAULTS as u64) as usize;
        Drawing {
            chance,
            postings: Postings::new(),
            output,
            left: lines,
            open_end: seed % 3 == 1,
            refusals,
            refusal: 0,
            fault,
            edge: 0,
            failed: None,
        }
    }

    /// The ledger is worked along, so that each line can be aimed at it.
    fn run(&mut self) -> io::Result<()> {
        while self.left > 0 && self.failed.is_none() {
            match self.chance.below(100) {
                0..=34 => self.right(),
                35..=59 => self.refused(),
                60..=67 => self.fill(),
                68..=75 => self.drain(),
                76..=83 => self.at_an_edge(),
                84..=97 => self.no_posting(),
                98 => self.all_of_a_token(),
                _ => self.renewed(),
            }
        }
        match self.failed.take() {
            Some(error) => Err(error),
            None => self.output.flush(),
        }
    }

    /// Prints a line, given without its byte 10, and takes it.
    fn put(&mut self, line: &[u8]) {
        if self.left == 0 {
            return;
        }
        self.left -= 1;
        // A last line without byte 10 has bytes.
        let bare = self.left == 0 && self.open_end;
        let line = if bare && line.is_empty() { b"6" } else { line };
        let end: &[u8] = if bare { b"" } else { b"\n" };
        if let Err(error) = self.output.write_all(line).and_then(|()| self.output.write_all(end)) {
            self.failed = Some(error);
        }
        self.postings.take(line);
    }

    fn say(&mut self, numbers: &[u64]) {
        self.put(&text(numbers));
    }

    /// Any balance, the first and last member's and the row apart rather often.
    fn cell(&mut self) -> Cell {
        let member = match self.chance.below(8) {
            0 => Some(self.chance.pick(&[0, 15])),
            1 | 2 => None,
            _ => Some(self.chance.below(16)),
        };
        Cell { member, token: self.chance.below(4) }
    }

    fn balance(&self, cell: Cell) -> u64 {
        cell.balance(self.postings.ledger())
    }

    /// 0 to high, small ones as likely as large ones.
    fn amount(&mut self, high: u64) -> u64 {
        match self.chance.below(8) {
            0 => 0,
            1 => high,
            _ => self.chance.any_size(high).min(high),
        }
    }

    /// A posting that is accepted.
    fn right(&mut self) {
        let cell = self.cell();
        let balance = self.balance(cell);
        let numbers = match self.chance.below(6) {
            0..=2 => cell.credit(self.amount(MOST - balance)),
            3 => cell.debit(self.amount(balance)),
            _ => cell.read(),
        };
        self.say(&numbers);
    }

    /// A posting that is refused with the next code, and mostly a reading after
    /// it. Later conditions are broken too now and then.
    fn refused(&mut self) {
        let (kind, code) = self.refusals[self.refusal];
        self.refusal = (self.refusal + 1) % self.refusals.len();
        let mut cell = self.cell();
        if kind > 3 {
            cell.member = None;
        } else if cell.member.is_none() {
            cell.member = Some(self.chance.below(16));
        }
        let balance = self.balance(cell);
        let above = match self.chance.below(3) {
            0 => 1,
            1 => MOST,
            _ => self.chance.any_size(MOST),
        };
        let read = cell.read();
        let mut amount = self.amount(MOST);
        match code {
            1 => cell.member = Some(15 + self.chance.any_size(MOST - 15)),
            14 if balance == 0 => {
                self.say(&cell.credit(above));
                amount = MOST - above.min(MOST - 1) + 1;
            }
            14 => amount = (MOST - balance + above).min(MOST),
            19 if balance == MOST => return self.say(&cell.debit(above)),
            19 => amount = (balance + above).min(MOST),
            _ => {}
        }
        if code == 2 || code == 1 && self.chance.once_in(4) {
            cell.token = 3 + self.chance.any_size(MOST - 3);
        }
        let numbers = match kind {
            1 | 4 => cell.credit(amount),
            2 | 5 => cell.debit(amount),
            _ => cell.read(),
        };
        self.say(&numbers);
        if !self.chance.once_in(3) {
            self.say(&read);
        }
    }

    /// A balance to the most: one more, just that, and then more again.
    fn fill(&mut self) {
        let cell = self.cell();
        if self.balance(cell) == 0 {
            let amount = self.chance.any_size(MOST);
            self.say(&cell.credit(amount));
        }
        let room = MOST - self.balance(cell);
        for amount in [room + 1, room, 1, 0, self.chance.any_size(MOST), MOST] {
            self.say(&cell.credit(amount.min(MOST)));
            if self.chance.once_in(2) {
                self.say(&cell.read());
            }
        }
    }

    /// A balance to nothing: one more than it, the most, just that, and then
    /// more again.
    fn drain(&mut self) {
        let cell = self.cell();
        let balance = self.balance(cell);
        for amount in [balance + 1, MOST, balance, 0, 1, self.chance.any_size(MOST)] {
            self.say(&cell.debit(amount.min(MOST)));
            if self.chance.once_in(2) {
                self.say(&cell.read());
            }
        }
    }

    /// The first and last members and tokens, and some past them.
    fn at_an_edge(&mut self) {
        let member = Some(EDGE_MEMBERS[self.edge % EDGE_MEMBERS.len()]);
        let token = EDGE_TOKENS[self.edge % EDGE_TOKENS.len()];
        self.edge += 1;
        let [any, apart] =
            [Cell { member, token: self.chance.below(4) }, Cell { member: None, token }];
        let of_token = Cell { member: Some(self.chance.below(16)), token };
        let amount = self.chance.pick(&[0, 1, 1_000, MOST]);
        for cell in [any, of_token, apart] {
            self.say(&cell.credit(amount));
            self.say(&cell.debit(amount));
            self.say(&cell.read());
        }
    }

    /// Something of a token for every member and in the row apart; then all of
    /// it read.
    fn all_of_a_token(&mut self) {
        let token = self.chance.below(4);
        let mut cells: Vec<Cell> =
            (0..16).map(|member| Cell { member: Some(member), token }).collect();
        cells.push(Cell { member: None, token });
        for &cell in &cells {
            let amount = self.chance.any_size((MOST - self.balance(cell)) / 2);
            self.say(&cell.credit(amount));
        }
        for cell in cells {
            self.say(&cell.read());
        }
    }

    /// All fresh again, after a member and the row apart have something.
    fn renewed(&mut self) {
        let member = Cell { member: Some(self.chance.below(16)), token: self.chance.below(4) };
        let apart = Cell { member: None, token: self.chance.below(4) };
        for cell in [member, apart] {
            if self.balance(cell) == 0 {
                self.say(&cell.credit(7));
            }
        }
        self.say(&[6]);
        for cell in [member, apart] {
            self.say(&cell.read());
        }
        if self.chance.once_in(2) {
            self.say(&[6]);
        }
    }

    /// A posting with one fault; their sorts take turns.
    fn no_posting(&mut self) {
        let sort = self.fault;
        self.fault = (sort + 1) % FAULTS;
        let kind = self.chance.between(1, POSTINGS as u64);
        let line = match sort {
            0 => Vec::new(),
            1 => b"0".to_vec(),
            2 => b"00".to_vec(),
            3 => b"7".to_vec(),
            4 => b"7,0,0,0".to_vec(),
            5 => b"4294967295,0,0,1".to_vec(),
            6 => b"4294967297,0,0,1".to_vec(),
            7 => b"1,0,0,4294967296".to_vec(),
            // Wrong numbers of fields, of each kind.
            8..=13 => self.of_kind(sort as u64 - 7, 1),
            14..=18 => self.of_kind(sort as u64 - 13, -1),
            19 => self.of_kind(kind, 4),
            sort => self.misspelt(kind, sort - 20),
        };
        self.put(&line);
    }

    /// A kind with so many fields more than it has.
    fn of_kind(&mut self, kind: u64, more: isize) -> Vec<u8> {
        let count = POSTING_FIELDS[kind as usize].saturating_add_signed(more);
        let mut numbers = vec![kind];
        numbers.extend((0..count).map(|_| self.chance.below(4)));
        text(&numbers)
    }

    /// A posting that is wrong in its bytes alone.
    fn misspelt(&mut self, kind: u64, sort: usize) -> Vec<u8> {
        let mut line = self.of_kind(kind, 0);
        match sort {
            0 => line.insert(0, b'0'),
            1 => line.push(b','),
            2 => {
                let place = self.chance.below(line.len() as u64 + 1) as usize;
                line.insert(place, self.chance.pick(b" -+x.\0\t\"\x8a"));
            }
            3 => line.push(b'\r'),
            4 => line = [&line[..], b",,0"].concat(),
            _ => line.resize([79, 80, 81, 82, 200, 5_000][sort - 5], self.chance.pick(b"0, ")),
        }
        line
    }
}

/// Numbers as a line, without its byte 10.
fn text(numbers: &[u64]) -> Vec<u8> {
    let numbers: Vec<String> = numbers.iter().map(u64::to_string).collect();
    numbers.join(",").into_bytes()
}

// Borders counted.

/// The borders of both credits, and of both debits, each named for its kind.
const CREDITS: [&str; 8] = [
    "to just the most",
    "one above the most refused",
    "1000 or more above the most refused",
    "4294967295 above the most refused",
    "4294967295 to nothing",
    "amount 0",
    "amount 0 at the most",
    "1 at the most refused",
];
const DEBITS: [&str; 8] = [
    "all of the balance",
    "one more than the balance refused",
    "1000 or more than the balance refused",
    "4294967295 of nothing refused",
    "4294967295 of less refused",
    "all of the most",
    "amount 0",
    "amount 0 of nothing",
];

/// The other borders, but for those of each kind, code, member and token.
const BORDERS: &[&str] = &[
    "read: nothing",
    "read: the most",
    "read: after a refused credit",
    "read: after a refused debit",
    "apart: amount 0 after a refused credit",
    "apart: amount 0 after a refused debit",
    "member 15 taken",
    "member 16 refused",
    "member 17 refused",
    "member 1000 refused",
    "member 4294967295 refused",
    "token 3 taken",
    "token 4 refused",
    "token 5 refused",
    "token 1000 refused",
    "token 4294967295 refused",
    "apart: token 3 taken",
    "apart: token 4 refused",
    "apart: token 1000 refused",
    "apart: token 4294967295 refused",
    "member and token refused by the member",
    "token refused, the amount too high",
    "two balances of a token at the most",
    "a balance and the row apart at the most",
    "renewed: a balance above 0",
    "renewed: the row apart above 0",
    "renewed: a fresh ledger",
    "renewed: a balance read after it",
    "renewed: amount 0 apart after it",
    "line: empty",
    "line: kind 0",
    "line: kind 7",
    "line: kind 4294967295",
    "line: value 4294967296",
    "line: leading zero",
    "line: empty field",
    "line: comma at its end",
    "line: a posting and a bad byte",
    "line: CR at its end",
    "line: 80 bytes",
    "line: 81 bytes",
    "line: above 4096 bytes",
    "line: last without byte 10",
];

/// The kinds that add to a balance or take from one.
const MOVERS: [(usize, &str); 4] =
    [(1, "credit"), (2, "debit"), (4, "credit apart"), (5, "debit apart")];

fn code_name(kind: usize, code: u8) -> String {
    match code {
        0 => format!("kind {kind} accepted"),
        _ => format!("kind {kind} refused by {code}"),
    }
}

fn cell_name(member: usize, token: usize) -> String {
    format!("member {member}, token {token}: above 0 and read")
}

fn count_name(kind: usize, more: bool) -> String {
    format!("line: kind {kind} with too {} fields", if more { "many" } else { "few" })
}

fn border_names() -> Vec<String> {
    let mut names = Vec::new();
    for (kind, codes) in POSTING_CODES.iter().enumerate() {
        names.extend(codes.iter().map(|&code| code_name(kind, code)));
    }
    for (kind, name) in MOVERS {
        let borders = if [1, 4].contains(&kind) { CREDITS } else { DEBITS };
        names.extend(borders.map(|border| format!("{name}: {border}")));
    }
    names.extend(BORDERS.iter().map(|name| name.to_string()));
    for member in 0..MEMBERS {
        names.extend((0..TOKENS).map(|token| cell_name(member, token)));
    }
    for (kind, fields) in POSTING_FIELDS.into_iter().enumerate().skip(1) {
        names.push(count_name(kind, true));
        if fields > 0 {
            names.push(count_name(kind, false));
        }
    }
    names
}

/// What the line before came to.
#[derive(Clone, Copy)]
struct Before {
    posting: Posting,
    code: u8,
}

struct Counts {
    borders: Borders,
    before: Option<Before>,
    /// What was there when all was last made fresh, while nothing came since.
    renewed: Option<Ledger>,
}

impl Counts {
    fn new() -> Counts {
        Counts { borders: Borders::new(border_names()), before: None, renewed: None }
    }

    fn add_if(&mut self, holds: bool, name: &str) {
        self.borders.add_if(holds, name);
    }

    /// Looks at a line, its answer and the ledger before it.
    fn line(&mut self, line: &[u8], was: &Ledger, posted: Posted) {
        let Some(posting) = read_posting(line) else {
            self.no_posting(line);
            self.before = None;
            return;
        };
        let code = posted.code;
        self.add_if(true, &code_name(posting.kind(), code));
        match posting {
            Posting::Credit { member, token, amount }
            | Posting::Debit { member, token, amount } => {
                self.member(member, token, code);
                if code != 1 && code != 2 {
                    let balance = was.rows()[member as usize][token as usize];
                    self.moved(posting.kind(), balance, u64::from(amount), code);
                }
                let high = code == 2 && amount == u32::MAX;
                self.add_if(high, "token refused, the amount too high");
            }
            Posting::Read { member, token } => {
                self.member(member, token, code);
                if code == 0 {
                    self.read(was, member, token);
                }
            }
            Posting::CreditApart { token, amount } | Posting::DebitApart { token, amount } => {
                self.apart(token, code);
                if code != 2 {
                    let balance = was.apart()[token as usize];
                    self.moved(posting.kind(), balance, u64::from(amount), code);
                    self.read_apart(token, amount);
                }
            }
            Posting::Renew => {
                let some = was.rows().iter().flatten().any(|&balance| balance > 0);
                let apart = was.apart().iter().any(|&balance| balance > 0);
                self.add_if(some, "renewed: a balance above 0");
                self.add_if(apart, "renewed: the row apart above 0");
                self.add_if(!some && !apart, "renewed: a fresh ledger");
            }
        }
        match posting {
            Posting::Renew => self.renewed = Some(was.clone()),
            Posting::Credit { .. } | Posting::CreditApart { .. } if posted.amount > 0 => {
                self.renewed = None;
            }
            _ => {}
        }
        self.before = Some(Before { posting, code });
    }

    fn member(&mut self, member: u32, token: u32, code: u8) {
        self.add_if(code != 1 && member == 15, "member 15 taken");
        for bad in [16, 17, 1_000, u32::MAX] {
            self.add_if(code == 1 && member == bad, &format!("member {bad} refused"));
        }
        let both = code == 1 && token as usize >= TOKENS;
        self.add_if(both, "member and token refused by the member");
        self.add_if(code == 0 && token == 3, "token 3 taken");
        for bad in [4, 5, 1_000, u32::MAX] {
            self.add_if(code == 2 && token == bad, &format!("token {bad} refused"));
        }
    }

    fn apart(&mut self, token: u32, code: u8) {
        self.add_if(code == 0 && token == 3, "apart: token 3 taken");
        for bad in [4, 1_000, u32::MAX] {
            self.add_if(code == 2 && token == bad, &format!("apart: token {bad} refused"));
        }
    }

    /// An amount that was to go to a balance or from it.
    fn moved(&mut self, kind: usize, balance: u64, amount: u64, code: u8) {
        let taken = code == 0;
        let borders = if [1, 4].contains(&kind) {
            let sum = balance + amount;
            CREDITS.into_iter().zip([
                taken && sum == MOST && amount > 0,
                sum == MOST + 1,
                sum >= MOST + 1_000,
                sum == 2 * MOST,
                taken && balance == 0 && amount == MOST,
                taken && amount == 0,
                taken && amount == 0 && balance == MOST,
                !taken && amount == 1 && balance == MOST,
            ])
        } else {
            DEBITS.into_iter().zip([
                taken && amount == balance && amount > 0,
                !taken && amount == balance + 1,
                !taken && amount >= balance + 1_000,
                !taken && amount == MOST && balance == 0,
                !taken && amount == MOST && balance > 0,
                taken && amount == MOST,
                taken && amount == 0,
                taken && amount == 0 && balance == 0,
            ])
        };
        let name = MOVERS.iter().find(|mover| mover.0 == kind).map_or("", |mover| mover.1);
        for (border, holds) in borders {
            self.add_if(holds, &format!("{name}: {border}"));
        }
    }

    /// A balance that was read.
    fn read(&mut self, was: &Ledger, member: u32, token: u32) {
        let [place, cell] = [member as usize, token as usize];
        let balance = was.rows()[place][cell];
        self.add_if(balance > 0, &cell_name(place, cell));
        self.add_if(balance == 0, "read: nothing");
        self.add_if(balance == MOST, "read: the most");
        let others = was.rows().iter().filter(|row| row[cell] == MOST).count();
        self.add_if(balance == MOST && others > 1, "two balances of a token at the most");
        let apart = balance == MOST && was.apart()[cell] == MOST;
        self.add_if(apart, "a balance and the row apart at the most");
        let refused = self.before.filter(|before| before.code != 0).map(|before| before.posting);
        match refused {
            Some(Posting::Credit { member: m, token: t, .. }) if (m, t) == (member, token) => {
                self.add_if(true, "read: after a refused credit");
            }
            Some(Posting::Debit { member: m, token: t, .. }) if (m, t) == (member, token) => {
                self.add_if(true, "read: after a refused debit");
            }
            _ => {}
        }
        let had = self.renewed.as_ref().is_some_and(|ledger| ledger.rows()[place][cell] > 0);
        self.add_if(had, "renewed: a balance read after it");
    }

    /// An amount to the row apart or from it, which reads it where it is 0.
    fn read_apart(&mut self, token: u32, amount: u32) {
        if amount > 0 {
            return;
        }
        let refused = self.before.filter(|before| before.code != 0).map(|before| before.posting);
        match refused {
            Some(Posting::CreditApart { token: t, .. }) if t == token => {
                self.add_if(true, "apart: amount 0 after a refused credit");
            }
            Some(Posting::DebitApart { token: t, .. }) if t == token => {
                self.add_if(true, "apart: amount 0 after a refused debit");
            }
            _ => {}
        }
        let had = self.renewed.as_ref().is_some_and(|was| was.apart()[token as usize] > 0);
        self.add_if(had, "renewed: amount 0 apart after it");
    }

    /// A line that is no posting.
    fn no_posting(&mut self, line: &[u8]) {
        self.add_if(true, &code_name(0, second::lines::NO_CALL));
        self.add_if(line.is_empty(), "line: empty");
        self.add_if(line.len() == LINE_MOST, "line: 80 bytes");
        self.add_if(line.len() == LINE_MOST + 1, "line: 81 bytes");
        self.add_if(line.len() > 4_096, "line: above 4096 bytes");
        self.add_if(line.ends_with(b","), "line: comma at its end");
        self.add_if(line.ends_with(b"\r"), "line: CR at its end");
        if let [before @ .., last] = line {
            let bad = !last.is_ascii_digit() && *last != b',';
            self.add_if(bad && read_posting(before).is_some(), "line: a posting and a bad byte");
        }
        let fields: Vec<&[u8]> = line.split(|&byte| byte == b',').collect();
        let digits = fields.iter().all(|field| field.iter().all(u8::is_ascii_digit));
        if !digits || line.is_empty() || line.len() > LINE_MOST {
            return;
        }
        let zero = fields.iter().any(|field| field.len() > 1 && field[0] == b'0');
        self.add_if(zero, "line: leading zero");
        self.add_if(fields.contains(&&b""[..]), "line: empty field");
        self.add_if(fields.contains(&&b"4294967296"[..]), "line: value 4294967296");
        self.add_if(fields[0] == b"0", "line: kind 0");
        self.add_if(fields[0] == b"7", "line: kind 7");
        self.add_if(fields[0] == b"4294967295", "line: kind 4294967295");
        let kind = (1..=POSTINGS).find(|kind| fields[0] == kind.to_string().as_bytes());
        let full = !fields.contains(&&b""[..]);
        if let Some(kind) = kind.filter(|_| full) {
            let [count, right] = [fields.len() - 1, POSTING_FIELDS[kind]];
            if count != right {
                self.add_if(true, &count_name(kind, count > right));
            }
        }
    }
}

/// What must hold of a line that was taken.
fn check(line: &[u8], was: &Ledger, is: &Ledger, posted: Posted) -> Result<(), &'static str> {
    let kind = read_posting(line).map_or(0, |posting| posting.kind());
    if !POSTING_CODES[kind].contains(&posted.code) {
        return Err("a kind met a code that it cannot meet");
    }
    if posted.code != 0 && (posted.amount, was) != (0, is) {
        return Err("a refused line moved or answered something");
    }
    let sum =
        |ledger: &Ledger| -> u64 { ledger.rows().iter().flatten().chain(ledger.apart()).sum() };
    let right = match read_posting(line).filter(|_| posted.code == 0) {
        Some(Posting::Credit { amount, .. } | Posting::CreditApart { amount, .. }) => {
            sum(is) == sum(was) + u64::from(amount)
        }
        Some(Posting::Debit { amount, .. } | Posting::DebitApart { amount, .. }) => {
            sum(is) + u64::from(amount) == sum(was)
        }
        Some(Posting::Renew) => sum(is) == 0,
        Some(Posting::Read { .. }) | None => is == was,
    };
    let within = is.rows().iter().flatten().chain(is.apart()).all(|&balance| balance <= MOST);
    if right && within {
        Ok(())
    } else {
        Err("a line moved another amount than its own")
    }
}

// The tool.

fn run(input: impl Read, mut output: impl Write) -> Result<(), Fault> {
    let input = read_all(input)?;
    let mut postings = Postings::new();
    let mut print = || {
        for line in lines(&input) {
            let Posted { code, amount } = postings.take(line);
            writeln!(output, "{},{code},{amount}", postings.number())?;
        }
        output.flush()
    };
    print().map_err(|error| ("write", error))
}

/// Prints the counts and gives what is wrong first, if anything.
fn run_coverage(input: impl Read, mut output: impl Write) -> Result<Option<String>, Fault> {
    let input = read_all(input)?;
    let mut postings = Postings::new();
    let mut counts = Counts::new();
    let mut wrong = None;
    let mut accepted = 0u64;
    for line in lines(&input) {
        let was = postings.ledger().clone();
        let posted = postings.take(line);
        accepted += u64::from(posted.code == 0);
        counts.line(line, &was, posted);
        if let Err(text) = check(line, &was, postings.ledger(), posted) {
            wrong.get_or_insert(format!("line {}: {text}", postings.number()));
        }
    }
    let bare = !input.is_empty() && !input.ends_with(b"\n");
    counts.add_if(bare, "line: last without byte 10");
    let number = postings.number();
    let mut print = || {
        writeln!(output, "lines {number}, bytes {}, accepted {accepted}", input.len())?;
        writeln!(output)?;
        counts.borders.print(&mut output)?;
        output.flush()
    };
    print().map_err(|error| ("write", error))?;
    Ok(wrong)
}

fn main() -> ExitCode {
    let words: Vec<String> = std::env::args().skip(1).collect();
    let words: Vec<&str> = words.iter().map(String::as_str).collect();
    let output = BufWriter::with_capacity(1 << 20, io::stdout());
    let drawn = match words[..] {
        ["--draw", seed, lines] => seed.parse().ok().zip(lines.parse().ok()),
        _ => None,
    };
    let told = match (&words[..], drawn) {
        ([], _) => run(io::stdin().lock(), output).map(|()| None),
        (["--coverage"], _) => run_coverage(io::stdin().lock(), output),
        (_, Some((seed, lines))) if lines <= INPUT_MOST => {
            Drawing::new(seed, lines, output).run().map(|()| None).map_err(|error| ("write", error))
        }
        _ => {
            let use_it = "use: postings [--coverage | --draw SEED LINES]";
            let _ = writeln!(io::stderr(), "{use_it}, of at most {INPUT_MOST} lines");
            return ExitCode::FAILURE;
        }
    };
    report("postings", told)
}

#[cfg(test)]
mod tests {
    use super::*;

    fn printed(input: &str) -> String {
        let mut output = Vec::new();
        assert!(run(input.as_bytes(), &mut output).is_ok());
        String::from_utf8(output).unwrap()
    }

    fn drawn(seed: u64, lines: u32) -> Vec<u8> {
        let mut output = Vec::new();
        Drawing::new(seed, lines, &mut output).run().unwrap();
        output
    }

    #[test]
    fn lines_and_their_ends() {
        assert_eq!(printed(""), "");
        assert_eq!(printed("\n"), "1,20,0\n");
        for end in ["", "\n"] {
            let input = format!("1,0,0,5\n2,0,0,6\n\n3,0,0{end}");
            assert_eq!(printed(&input), "1,0,5\n2,19,0\n3,20,0\n4,0,5\n");
        }
    }

    #[test]
    fn as_many_lines_as_asked_for() {
        for seed in 0..6 {
            for lines in [0, 1, 2, 50, 300] {
                let text = drawn(seed, lines);
                let count = text.split_inclusive(|&byte| byte == b'\n').count();
                assert_eq!(count, lines as usize);
                let open = lines > 0 && seed % 3 == 1;
                assert_eq!(text.last().is_some_and(|&byte| byte != b'\n'), open);
                assert_eq!(drawn(seed, lines), text);
            }
        }
        assert_ne!(drawn(1, 300), drawn(2, 300));
    }

    #[test]
    fn lines_stay_small() {
        for seed in 1..=10 {
            assert!(drawn(seed, 10_000).len() < 400_000);
        }
    }

    #[test]
    fn borders_are_counted() {
        let mut names = border_names();
        let number = names.len();
        names.sort();
        names.dedup();
        assert_eq!(names.len(), number);
        let mut output = Vec::new();
        let input = "1,0,0,5\n2,0,0,6\n3,0,0\n6\n3,0,0\n7";
        let wrong = run_coverage(input.as_bytes(), &mut output);
        assert!(wrong.is_ok_and(|wrong| wrong.is_none()));
        let text = String::from_utf8(output).unwrap();
        for name in [
            "1  kind 1 accepted",
            "1  kind 2 refused by 19",
            "2  kind 3 accepted",
            "1  debit: one more than the balance refused",
            "1  read: after a refused debit",
            "1  renewed: a balance read after it",
            "1  member 0, token 0: above 0 and read",
            "1  line: kind 7",
            "1  line: last without byte 10",
        ] {
            assert!(text.contains(&format!(" {name}\n")), "{name}: {text}");
        }
    }

    #[test]
    fn what_is_wrong_is_told() {
        let was = Ledger::new();
        let mut is = was.clone();
        is.post(Posting::Credit { member: 0, token: 0, amount: 5 });
        let posted = |code, amount| Posted { code, amount };
        assert_eq!(check(b"1,0,0,5", &was, &is, posted(0, 5)), Ok(()));
        assert!(check(b"1,0,0,6", &was, &is, posted(0, 6)).is_err());
        assert!(check(b"1,0,0,5", &was, &is, posted(14, 0)).is_err());
        assert!(check(b"1,0,0,5", &was, &was, posted(14, 1)).is_err());
        assert!(check(b"1,0,0,5", &was, &was, posted(19, 0)).is_err());
        assert!(check(b"3,0,0", &was, &is, posted(0, 5)).is_err());
        assert!(check(b"6", &was, &is, posted(0, 0)).is_err());
    }

    #[test]
    fn errors_are_told() {
        let most = vec![b'\n'; INPUT_MOST as usize];
        let above = [&most[..], b"x"].concat();
        let mut output = Vec::new();
        let told = |result: Result<(), Fault>| result.map_err(|(doing, _)| doing);
        assert_eq!(told(run(&above[..], &mut output)), Err("read"));
        assert_eq!(output, b"");
        assert_eq!(told(run(&most[..], &mut output)), Ok(()));
        let mut room = [0; 14];
        assert_eq!(told(run(&b"\n\n"[..], &mut room[..])), Ok(()));
        assert_eq!(told(run(&b"\n\n"[..], &mut room[1..])), Err("write"));
    }
}
