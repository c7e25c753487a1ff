//! The same calls on the model and on the library, with every word compared.
use calls::words::ANSWER_WORDS;
use calls::{Book, Calls, Event, Table, MODEL};
use std::fmt;

/// include/toll_ledger.h.
#[rustfmt::skip]
static LIBRARY: Calls = calls::calls!(toll_ledger_open, toll_ledger_event, toll_ledger_batch, toll_ledger_balance,
                                      toll_ledger_topup_due, toll_ledger_debtor);

/// A call on a book, with the lengths of its event and answer table as a host may give them.
#[derive(Clone)]
pub enum Call {
    Event { words: Vec<i64>, answer: usize },
    Batch { events: Vec<Event>, answers: usize },
    Balance(i64),
    TopUpDue(i64),
    Debtor(i64),
    Open(Vec<i64>),
}

impl fmt::Display for Call {
    fn fmt(&self, f: &mut fmt::Formatter) -> fmt::Result {
        match self {
            Call::Event { words, answer: ANSWER_WORDS } => write!(f, "event {}", line(words)),
            Call::Event { words, answer } => write!(f, "event {} into {answer} words", line(words)),
            Call::Batch { events, answers } => {
                write!(f, "batch of {} into {answers} words", events.len())?;
                events.iter().try_for_each(|e| write!(f, "\n      {}", line(e)))
            }
            Call::Balance(n) => write!(f, "balance {n}"),
            Call::TopUpDue(n) => write!(f, "topup_due {n}"),
            Call::Debtor(n) => write!(f, "debtor {n}"),
            Call::Open(schedule) => write!(f, "open {}", line(schedule)),
        }
    }
}

/// Words as the listing writes them.
pub fn line(words: &[i64]) -> String {
    words.iter().map(i64::to_string).collect::<Vec<_>>().join(",")
}

/// What a call gives: its number, a question's values (one has two), the answer table.
struct Given {
    number: i64,
    values: [i64; 2],
    answers: Table,
}

impl Call {
    fn make(&self, calls: &Calls, book: &mut Book) -> Given {
        let room = match self {
            Call::Event { answer: words, .. } | Call::Batch { answers: words, .. } => *words,
            _ => 0,
        };
        let mut answers = Table::answers(room);
        let without = |number| (number, [0; 2]);
        let one = |(number, value)| (number, [value, 0]);
        let two = |(number, first, second)| (number, [first, second]);
        let (number, values) = match self {
            Call::Event { words, .. } => without(calls.event(book, words, &mut answers)),
            Call::Batch { events, .. } => without(calls.batch(book, events, &mut answers)),
            Call::Balance(n) => one(calls.balance(book, *n)),
            Call::TopUpDue(n) => one(calls.topup_due(book, *n)),
            Call::Debtor(n) => two(calls.debtor(book, *n)),
            Call::Open(schedule) => without(calls.open(book, schedule)),
        };
        Given { number, values, answers }
    }

    /// Makes the call on the model alone.
    pub fn make_by_model(&self, book: &mut Book) {
        self.make(&MODEL, book);
    }
}

/// A book twice: what the model made of it and what the library made of it. The two are equal after every call.
#[derive(Clone)]
pub struct Pair {
    pub model: Book,
    library: Book,
}

fn same(what: &str, want: &Table, got: &Table) -> Result<(), String> {
    if !want.guarded() || !got.guarded() {
        return Err(format!("a word beside {what} was written"));
    }
    match (0..want.len()).find(|&i| want[i] != got[i]) {
        None => Ok(()),
        Some(i) => Err(format!("word {i} of {what}: {} expected, {} found", want[i], got[i])),
    }
}

impl Pair {
    pub fn new(book: Book) -> Pair {
        Pair { model: book.clone(), library: book }
    }

    /// Makes a call on both.
    pub fn call(&mut self, call: &Call) -> Result<(), String> {
        let want = call.make(&MODEL, &mut self.model);
        let got = call.make(&LIBRARY, &mut self.library);
        same("the answer table", &want.answers, &got.answers)?;
        let (wanted, given) = ((want.number, want.values), (got.number, got.values));
        if wanted != given {
            return Err(format!("number and values {wanted:?} expected, {given:?} found"));
        }
        same("the header", &self.model.header, &self.library.header)?;
        same("the accounts", &self.model.accounts, &self.library.accounts)?;
        same("the journal", &self.model.journal, &self.library.journal)?;
        same("the holidays", &self.model.holidays, &self.library.holidays)
    }
}
