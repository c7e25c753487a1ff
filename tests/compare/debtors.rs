//! The debtor question (document 02, No. 7) beside sums over all rows: what its answers met, whom to ask for, and payments that bring
//! a debt to the border.
use crate::generate::{is_held, MOST_AMOUNT};
use calls::random::Random;
use calls::words::*;
use calls::{event, Book, Event};

/// What the questions on sound books met.
#[derive(Default)]
pub struct Met {
    pub heavy: u64,
    pub light: u64,
    pub early: u64,     // heavy, and a row left unread
    pub last: u64,      // heavy by the last row
    pub others: u64,    // heavy, with rows of other accounts read
    pub at_most: u64,   // owing just so much as may be owed
    pub one_more: u64,  // and a cent more
    pub held: u64,      // not heavy, and heavy if held debts counted
    pub reversals: u64, // not heavy, and heavy if reversals counted
    pub returns: u64,   // heavy, and not if fees of returned checks didn't count
    pub unknown: u64,
}

/// What is unsettled of an account's rows that pass a test, in the first 0, 1, .. rows.
fn sums(book: &Book, n: i64, counts: impl Fn(&[&[i64]], &[i64]) -> bool) -> Vec<i64> {
    let rows: Vec<&[i64]> = book.used_rows().collect();
    let owed = |r: &[i64]| if r[ROW_ACCOUNT] == n && counts(&rows, r) { r[ROW_AMOUNT] - r[ROW_SETTLED] } else { 0 };
    let sum = |sum: &mut i64, r: &&[i64]| {
        *sum += owed(r);
        Some(*sum)
    };
    [0].into_iter().chain(rows.iter().scan(0, sum)).collect()
}

fn is_debt(r: &[i64]) -> bool {
    matches!(r[ROW_KIND], KIND_TOLL | KIND_FEE)
}

/// "Unheld tolls and fees."
fn counts(rows: &[&[i64]], r: &[i64]) -> bool {
    is_debt(r) && !is_held(rows, r)
}

fn is_return_fee(rows: &[&[i64]], r: &[i64]) -> bool {
    r[ROW_KIND] == KIND_FEE && rows[r[ROW_REFERENCE] as usize - 1][ROW_KIND] == KIND_PAYMENT
}

/// The last of the sums: over all rows.
fn all(sums: Vec<i64>) -> i64 {
    sums[sums.len() - 1]
}

impl Met {
    /// Notes a reply of the model, which is that of reading all rows.
    pub fn note(&mut self, book: &Book, n: i64, reply: (i64, i64, i64)) {
        let (number, heavy, read) = reply;
        if number == UNKNOWN {
            assert_eq!((heavy, read), (0, 0), "debtor {n}, refused");
            self.unknown += 1;
            return;
        }
        let (sums, used) = (sums(book, n, counts), book.rows_used());
        let first = sums.iter().position(|s| *s > HEAVY_DEBT).unwrap_or(used);
        let debt = all(sums);
        assert_eq!((number, heavy, read), (POSTED, (debt > HEAVY_DEBT) as i64, first as i64), "debtor {n} by all rows");
        self.at_most += (debt == HEAVY_DEBT) as u64;
        self.one_more += (debt == HEAVY_DEBT + 1) as u64;
        if heavy == 1 {
            self.note_heavy(book, n, first);
        } else {
            self.note_light(book, n);
        }
    }

    fn note_heavy(&mut self, book: &Book, n: i64, read: usize) {
        let without_returns = all(sums(book, n, |rows, r| counts(rows, r) && !is_return_fee(rows, r)));
        self.heavy += 1;
        self.early += (read < book.rows_used()) as u64;
        self.last += (read == book.rows_used()) as u64;
        self.others += book.used_rows().take(read).any(|r| r[ROW_ACCOUNT] != n) as u64;
        self.returns += (without_returns <= HEAVY_DEBT) as u64;
    }

    fn note_light(&mut self, book: &Book, n: i64) {
        let with_held = all(sums(book, n, |_, r| is_debt(r)));
        let with_reversals = all(sums(book, n, |rows, r| counts(rows, r) || r[ROW_KIND] == KIND_REVERSAL));
        self.light += 1;
        self.held += (with_held > HEAVY_DEBT) as u64;
        self.reversals += (with_reversals > HEAVY_DEBT) as u64;
    }
}

/// What each account owes in unheld tolls, and in unheld tolls and fees.
fn debts(book: &Book) -> Vec<[i64; 2]> {
    let rows: Vec<&[i64]> = book.used_rows().collect();
    let mut debts = vec![[0; 2]; book.count()];
    for r in rows.iter().filter(|r| counts(&rows, r)) {
        let [tolls, all] = &mut debts[r[ROW_ACCOUNT] as usize - 1];
        let owed = r[ROW_AMOUNT] - r[ROW_SETTLED];
        *tolls += if r[ROW_KIND] == KIND_TOLL { owed } else { 0 };
        *all += owed;
    }
    debts
}

/// An account to ask for: rather one that owes something, most of all within a cent of the border; now and then any number.
pub fn asked(random: &mut Random, book: &Book) -> i64 {
    let owing = |least: i64, most: i64| -> Vec<i64> {
        (1..).zip(debts(book)).filter(|(_, d)| (least..=most).contains(&d[1])).map(|(n, _)| n).collect()
    };
    let near = owing(HEAVY_DEBT - 1, HEAVY_DEBT + 1);
    let from = if near.is_empty() || random.once_in(6) { owing(1, i64::MAX) } else { near };
    if from.is_empty() || random.once_in(6) {
        random.range(0, book.count() as i64 + 1)
    } else {
        random.pick(&from)
    }
}

/// Now and then, where an account is a heavy debtor by tolls: a payment of these that leaves just so much as may be owed, or a cent
/// more.
pub fn to_border(random: &mut Random, book: &Book) -> Option<Event> {
    if !random.once_in(10) {
        return None;
    }
    let left = HEAVY_DEBT + random.below(2);
    let fits = |d: &[i64; 2]| (1..=d[0].min(MOST_AMOUNT)).contains(&(d[1] - left));
    let fit: Vec<(i64, [i64; 2])> = (1..).zip(debts(book)).filter(|(_, d)| fits(d)).collect();
    if fit.is_empty() {
        return None;
    }
    let (n, debts) = random.pick(&fit);
    Some(event(EVENT_PAYMENT, n, &[debts[1] - left, METHOD_CARD]))
}
