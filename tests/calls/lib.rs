//! The six calls from Rust: the header's names, books whose tables lie between words that no call may write, and sets of C
//! functions with the header's signatures. The model's is here; the comparison adds the library's.
pub mod random;
pub mod words;

use std::ops::{Deref, DerefMut};
use std::slice::Chunks;
use words::*;

pub type Event = [i64; EVENT_WORDS];

/// Places of an event's words: the header has them as fields of a record.
pub const EVENT_KIND: usize = 0;
pub const EVENT_ACCOUNT: usize = 1;
pub const EVENT_A: usize = 2;
pub const EVENT_B: usize = 3;

/// An event of these words from `a` on; the rest are 0.
pub fn event(kind: i64, account: i64, words: &[i64]) -> Event {
    let mut event = [0; EVENT_WORDS];
    event[EVENT_KIND] = kind;
    event[EVENT_ACCOUNT] = account;
    event[EVENT_A..EVENT_A + words.len()].copy_from_slice(words);
    event
}

const GUARD: usize = 8;
const GUARD_WORD: i64 = 0x5AFE_5AFE_5AFE_5AFE;

/// A table between guard words.
#[derive(Clone, PartialEq)]
pub struct Table(Vec<i64>);

impl Table {
    pub fn new(words: &[i64]) -> Table {
        let mut all = vec![GUARD_WORD; GUARD];
        all.extend_from_slice(words);
        all.extend([GUARD_WORD; GUARD]);
        Table(all)
    }

    /// Words that no answer has, each another one, so that a word written or moved shows.
    pub fn answers(words: usize) -> Table {
        Table::new(&(0..words as i64).map(|i| -1000 - i).collect::<Vec<_>>())
    }

    pub fn resize(&mut self, words: usize, filler: i64) {
        let mut kept = self.to_vec();
        kept.resize(words, filler);
        *self = Table::new(&kept);
    }

    pub fn guarded(&self) -> bool {
        let end = self.0.len() - GUARD;
        self.0[..GUARD].iter().chain(&self.0[end..]).all(|w| *w == GUARD_WORD)
    }
}

impl Deref for Table {
    type Target = [i64];
    fn deref(&self) -> &[i64] {
        &self.0[GUARD..self.0.len() - GUARD]
    }
}

impl DerefMut for Table {
    fn deref_mut(&mut self) -> &mut [i64] {
        let end = self.0.len() - GUARD;
        &mut self.0[GUARD..end]
    }
}

/// The four tables of a book, read by places. What is read by row or account is that of a sound book.
#[derive(Clone, PartialEq)]
pub struct Book {
    pub header: Table,
    pub accounts: Table,
    pub journal: Table,
    pub holidays: Table, // no call may write them
}

impl Book {
    /// Tables of so many accounts and rows, full of words that no book has, and of no holidays.
    pub fn new(accounts: usize, rows: usize) -> Book {
        Book {
            header: Table::new(&[-5; HEADER_WORDS]),
            accounts: Table::new(&vec![-6; accounts * ACCOUNT_WORDS]),
            journal: Table::new(&vec![-7; rows * ROW_WORDS]),
            holidays: Table::new(&[]),
        }
    }

    pub fn with_holidays(self, days: &[i64]) -> Book {
        Book { holidays: Table::new(days), ..self }
    }

    /// Takes the words of a book of the same lengths, without new tables.
    pub fn copy_words(&mut self, from: &Book) {
        self.header.copy_from_slice(&from.header);
        self.accounts.copy_from_slice(&from.accounts);
        self.journal.copy_from_slice(&from.journal);
        self.holidays.copy_from_slice(&from.holidays);
    }

    pub fn guarded(&self) -> bool {
        self.header.guarded() && self.accounts.guarded() && self.journal.guarded() && self.holidays.guarded()
    }

    pub fn day(&self) -> i64 {
        self.header[HEADER_DAY]
    }

    pub fn stage_length(&self) -> i64 {
        self.header[HEADER_STAGE_LENGTH]
    }

    /// The words of the rate lists in use after the first.
    pub fn later_lists(&self) -> impl Iterator<Item = &[i64]> {
        self.header[HEADER_LISTS..].chunks(LIST_WORDS).take_while(|l| l[LIST_FIRST_DAY] != 0)
    }

    /// The first days of the rate lists in use, in their order.
    pub fn first_days(&self) -> Vec<i64> {
        let first = self.header[HEADER_FIRST_DAY];
        [first].into_iter().chain(self.later_lists().map(|l| l[LIST_FIRST_DAY])).collect()
    }

    pub fn rows_used(&self) -> usize {
        self.header[HEADER_ROWS_USED] as usize
    }

    pub fn room(&self) -> usize {
        self.journal.len() / ROW_WORDS
    }

    pub fn count(&self) -> usize {
        self.accounts.len() / ACCOUNT_WORDS
    }

    pub fn used_rows(&self) -> Chunks<'_, i64> {
        self.journal[..self.rows_used() * ROW_WORDS].chunks(ROW_WORDS)
    }

    pub fn all_accounts(&self) -> Chunks<'_, i64> {
        self.accounts.chunks(ACCOUNT_WORDS)
    }

    /// The state of account n.
    pub fn state(&self, n: i64) -> i64 {
        self.accounts[(n as usize - 1) * ACCOUNT_WORDS + ACCOUNT_STATE]
    }
}

/// Opening: header, accounts, journal, holidays, schedule, each with its length.
#[rustfmt::skip]
type Opening = unsafe extern "C" fn(*mut i64, usize, *mut i64, usize, *mut i64, usize, *const i64, usize,
                                    *const i64, usize) -> i64;

/// The single event and the batch: header, accounts, journal, holidays, events, answers, each with its length.
#[rustfmt::skip]
type Posting<T> = unsafe extern "C" fn(*mut i64, usize, *mut i64, usize, *mut i64, usize, *const i64, usize,
                                       *const T, usize, *mut i64, usize) -> i64;

/// Balance and top-up due: header, accounts, journal, holidays, each with its length, the account, and the place of the
/// value.
#[rustfmt::skip]
type Question = unsafe extern "C" fn(*const i64, usize, *const i64, usize, *const i64, usize, *const i64, usize,
                                     i64, *mut i64) -> i64;

/// The debtor question: likewise, with the places of heavy and of the rows read.
#[rustfmt::skip]
type Debtor = unsafe extern "C" fn(*const i64, usize, *const i64, usize, *const i64, usize, *const i64, usize,
                                   i64, *mut i64, *mut i64) -> i64;

/// The C functions of one implementation.
pub struct Calls {
    pub open: Opening,
    pub event: Posting<i64>,
    pub batch: Posting<Event>,
    pub balance: Question,
    pub topup_due: Question,
    pub debtor: Debtor,
}

/// The calls of these names.
#[macro_export]
#[rustfmt::skip]
macro_rules! calls {
    ($open:ident, $event:ident, $batch:ident, $balance:ident, $topup_due:ident, $debtor:ident) => {{
        type Words = *const i64;
        type Table = *mut i64;
        extern "C" {
            fn $open(h: Table, hn: usize, a: Table, an: usize, j: Table, jn: usize, d: Words, dn: usize,
                     from: Words, n: usize) -> i64;
            fn $event(h: Table, hn: usize, a: Table, an: usize, j: Table, jn: usize, d: Words, dn: usize,
                      from: Words, n: usize, to: Table, room: usize) -> i64;
            fn $batch(h: Table, hn: usize, a: Table, an: usize, j: Table, jn: usize, d: Words, dn: usize,
                      from: *const $crate::Event, n: usize, to: Table, room: usize) -> i64;
            fn $balance(h: Words, hn: usize, a: Words, an: usize, j: Words, jn: usize, d: Words, dn: usize,
                        n: i64, to: Table) -> i64;
            fn $topup_due(h: Words, hn: usize, a: Words, an: usize, j: Words, jn: usize, d: Words, dn: usize,
                          n: i64, to: Table) -> i64;
            fn $debtor(h: Words, hn: usize, a: Words, an: usize, j: Words, jn: usize, d: Words, dn: usize,
                       n: i64, heavy: Table, rows: Table) -> i64;
        }
        $crate::Calls {
            open: $open, event: $event, batch: $batch, balance: $balance, topup_due: $topup_due, debtor: $debtor,
        }
    }};
}

/// tests/model/model.h.
pub static MODEL: Calls = calls!(model_open, model_event, model_batch, model_balance, model_topup_due, model_debtor);

// The pointers are those of live tables with their true lengths, which are apart from each other: what the header asks of a host.
impl Calls {
    pub fn open(&self, book: &mut Book, schedule: &[i64]) -> i64 {
        let Book { header: h, accounts: a, journal: j, holidays: d } = book;
        let (hn, an, jn, dn) = (h.len(), a.len(), j.len(), d.len());
        let (d, from, count) = (d.as_ptr(), schedule.as_ptr(), schedule.len());
        unsafe { (self.open)(h.as_mut_ptr(), hn, a.as_mut_ptr(), an, j.as_mut_ptr(), jn, d, dn, from, count) }
    }

    fn post<T>(call: Posting<T>, book: &mut Book, events: &[T], answers: &mut Table) -> i64 {
        let Book { header: h, accounts: a, journal: j, holidays: d } = book;
        let (hn, an, jn, dn, room) = (h.len(), a.len(), j.len(), d.len(), answers.len());
        let (d, from, count, to) = (d.as_ptr(), events.as_ptr(), events.len(), answers.as_mut_ptr());
        unsafe { call(h.as_mut_ptr(), hn, a.as_mut_ptr(), an, j.as_mut_ptr(), jn, d, dn, from, count, to, room) }
    }

    pub fn event(&self, book: &mut Book, event: &[i64], answer: &mut Table) -> i64 {
        Calls::post(self.event, book, event, answer)
    }

    pub fn batch(&self, book: &mut Book, events: &[Event], answers: &mut Table) -> i64 {
        Calls::post(self.batch, book, events, answers)
    }

    /// A question's number and value.
    fn ask(call: Question, book: &Book, account: i64) -> (i64, i64) {
        let Book { header: h, accounts: a, journal: j, holidays: d } = book;
        let (hn, an, jn, dn) = (h.len(), a.len(), j.len(), d.len());
        let (h, a, j, d) = (h.as_ptr(), a.as_ptr(), j.as_ptr(), d.as_ptr());
        let mut value = GUARD_WORD;
        let number = unsafe { call(h, hn, a, an, j, jn, d, dn, account, &mut value) };
        (number, value)
    }

    pub fn balance(&self, book: &Book, account: i64) -> (i64, i64) {
        Calls::ask(self.balance, book, account)
    }

    pub fn topup_due(&self, book: &Book, account: i64) -> (i64, i64) {
        Calls::ask(self.topup_due, book, account)
    }

    /// The debtor question's number, heavy and rows read.
    pub fn debtor(&self, book: &Book, account: i64) -> (i64, i64, i64) {
        let Book { header: h, accounts: a, journal: j, holidays: d } = book;
        let (hn, an, jn, dn) = (h.len(), a.len(), j.len(), d.len());
        let (h, a, j, d) = (h.as_ptr(), a.as_ptr(), j.as_ptr(), d.as_ptr());
        let (mut heavy, mut rows) = (GUARD_WORD, GUARD_WORD);
        let number = unsafe { (self.debtor)(h, hn, a, an, j, jn, d, dn, account, &mut heavy, &mut rows) };
        (number, heavy, rows)
    }

    /// By a question on account 0, which no book has: it is refused for the book before it is for the account.
    pub fn is_sound(&self, book: &Book) -> bool {
        self.balance(book, 0).0 != UNSOUND
    }
}
