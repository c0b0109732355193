//! The library of the package: the exchange itself (`engine`) and the text
//! form of its calls and answers (`lines`), both offered under one name; a
//! number written into a lent part (`numbers`), for the tool numbers; what
//! must hold after every call (`books`), for the tests and the tools coverage
//! and lending; lines that try lists of orders (`lending`), for the tools
//! lending and lists; the ledger alone (`postings`), small inputs (`input`) and
//! counted borders (`borders`), for the tool postings; calls drawn for an
//! exchange (`drafts`), for the tools traffic and lists; and the drawn numbers
//! of the tools (`chance`).

pub mod books;
pub mod borders;
pub mod chance;
pub mod drafts;
pub mod engine;
pub mod input;
pub mod lending;
pub mod lines;
pub mod numbers;
pub mod postings;

pub use engine::{Answer, Call, Exchange, Half, Market, Order, Phase, Place, Ticket};
pub use lines::{answer_line, call_of, next_line, read_call, write_call, write_call_at};
pub use lines::{CALL_ROOM, HEADER};
