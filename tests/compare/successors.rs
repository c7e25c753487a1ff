//! Successors (document 02, No. 8) by the words of the tables: what events 12 and tolls for closed accounts met, and such events.
use crate::generate::{account_words, is_live, is_reopened, MOST_BANK_CHARGE, RETURN_FEE};
use crate::lists::NUMBERS;
use calls::random::Random;
use calls::words::*;
use calls::{event, Book, Event, EVENT_A, EVENT_ACCOUNT};

const STATES: usize = STATE_CLOSED as usize + 1;

/// What the events met.
#[derive(Default)]
pub struct Met {
    pub named: [u64; STATES],      // successors, by their state
    pub replaced: u64,             // in place of another one
    pub in_full: u64,              // with no free row
    pub cycles: u64,               // from which successors lead back to the account
    pub not_closed: [u64; STATES], // refused, by the state of the account
    pub reopened: u64,             // of them those closed once
    pub itself: u64,               // refused on a closed account
    pub unused: u64,               // likewise
    pub none: u64,                 // for 0
    pub outside: u64,              // for another number that the table hasn't
    pub passed: [u64; STATES],     // tolls passed on, by the successor's state
    pub to_reopened: u64,          // of them to a successor that was closed once
    pub paid: u64,                 // and settled from its money, at least in part
    pub in_cycles: u64,            // by an account to which successors lead back
    pub past_live: u64,            // to one whose own successor takes tolls too
    pub once_more: u64,            // by an account that was pending again meanwhile
    pub refused: [u64; NUMBERS],   // tolls to be passed on, by the answer
    pub without: u64,              // tolls refused for closed accounts without a successor
    pub closed: u64,               // with a closed one
    pub chains: u64,               // of them with one whose own successor takes tolls
    pub before: [u64; NUMBERS],    // refused 5 where that number applies too
    pub own: u64,                  // taken by accounts closed once, which have a successor that takes tolls
    pub kept: u64,                 // returned checks on closed accounts with a successor
}

fn successor(book: &Book, n: i64) -> i64 {
    account_words(book, n).map_or(0, |x| x[ACCOUNT_SUCCESSOR])
}

fn is_closed(book: &Book, n: i64) -> bool {
    account_words(book, n).is_some_and(|x| x[ACCOUNT_STATE] == STATE_CLOSED)
}

/// The successor of an account, where that takes tolls.
fn live_successor(book: &Book, n: i64) -> Option<i64> {
    let next = successor(book, n);
    (next != 0 && is_live(book, next)).then_some(next)
}

/// Whether the successors of an account lead back to it.
fn leads_back(book: &Book, n: i64) -> bool {
    let mut next = successor(book, n);
    for _ in 0..book.count() {
        if next == n {
            return true;
        }
        next = successor(book, next);
    }
    false
}

/// Closed, and once pending again before: a check was returned after a refund.
fn is_closed_again(book: &Book, n: i64) -> bool {
    let first = |kind: i64| book.used_rows().position(|r| r[ROW_ACCOUNT] == n && r[ROW_KIND] == kind);
    let last = |kind: i64| book.used_rows().rposition(|r| r[ROW_ACCOUNT] == n && r[ROW_KIND] == kind);
    is_closed(book, n) && first(KIND_REFUND).is_some_and(|r| last(KIND_REVERSAL).is_some_and(|s| r < s))
}

/// Of the refusals 6 to 8 the first that a toll meets, whatever its account.
fn refusal(book: &Book, toll: &Event) -> Option<i64> {
    let [_, _, passage, day, axles, height, ..] = *toll;
    let has = |r: &[i64]| r[ROW_KIND] == KIND_TOLL && r[ROW_REFERENCE] == passage;
    match () {
        _ if axles == 1 && height > 90 => Some(UNCLASSED),
        _ if !(book.day() - 60..=book.day()).contains(&day) => Some(MISDATED),
        _ if book.used_rows().any(has) => Some(DUPLICATE),
        _ => None,
    }
}

impl Met {
    /// Notes an event 12 on a used account.
    pub fn note(&mut self, before: &Book, event: &Event, number: i64, after: &Book) {
        let (n, next) = (event[EVENT_ACCOUNT], event[EVENT_A]);
        let x = account_words(before, n).expect("a used account");
        match (number, account_words(before, next)) {
            (POSTED, Some(y)) => {
                self.named[y[ACCOUNT_STATE] as usize] += 1;
                self.replaced += ![0, next].contains(&x[ACCOUNT_SUCCESSOR]) as u64;
                self.in_full += (after.rows_used() == after.room()) as u64;
                self.cycles += leads_back(after, n) as u64;
            }
            _ if x[ACCOUNT_STATE] != STATE_CLOSED => {
                self.not_closed[x[ACCOUNT_STATE] as usize] += 1;
                self.reopened += is_reopened(before, n) as u64;
            }
            _ if next == n => self.itself += 1,
            _ if next == 0 => self.none += 1,
            (_, Some(_)) => self.unused += 1,
            (_, None) => self.outside += 1,
        }
    }

    /// Notes a toll for a used account, and holds its account's row to what No. 8 says.
    pub fn note_toll(&mut self, before: &Book, event: &Event, number: i64, after: &Book) {
        let n = event[EVENT_ACCOUNT];
        let live = live_successor(before, n);
        match (is_closed(before, n), live) {
            (true, Some(heir)) if number == POSTED => self.note_passed(before, n, heir, after),
            (true, Some(_)) => self.refused[number as usize] += 1,
            (true, None) => {
                assert_eq!(number, CLOSED, "a toll for closed account {n}");
                let next = successor(before, n);
                self.without += (next == 0) as u64;
                self.closed += (next != 0) as u64;
                self.chains += (next != 0 && live_successor(before, next).is_some()) as u64;
                if let Some(other) = refusal(before, event) {
                    self.before[other as usize] += 1;
                }
            }
            (false, _) => self.own += (number == POSTED && live.is_some()) as u64,
        }
    }

    fn note_passed(&mut self, before: &Book, n: i64, heir: i64, after: &Book) {
        let toll = after.used_rows().last().expect("its row");
        let others = |r: &&[i64]| r[ROW_ACCOUNT] != heir;
        assert_eq!(toll[ROW_ACCOUNT], heir, "the toll for account {n}");
        assert!(before.accounts == after.accounts, "a toll for account {n} changes an account");
        assert!(before.used_rows().filter(others).eq(after.used_rows().filter(others)), "and rows of others");
        self.passed[before.state(heir) as usize] += 1;
        self.to_reopened += is_reopened(before, heir) as u64;
        self.paid += (toll[ROW_SETTLED] > 0) as u64;
        self.in_cycles += leads_back(before, n) as u64;
        self.past_live += live_successor(before, heir).is_some() as u64;
        self.once_more += is_closed_again(before, n) as u64;
    }

    /// Notes a returned check that was accepted.
    pub fn note_return(&mut self, before: &Book, event: &Event, after: &Book) {
        let n = event[EVENT_ACCOUNT];
        assert_eq!(successor(before, n), successor(after, n), "the successor of account {n}");
        self.kept += (is_closed(before, n) && successor(before, n) != 0) as u64;
    }
}

fn accounts(book: &Book, test: impl Fn(i64) -> bool) -> Vec<i64> {
    (1..=book.count() as i64).filter(|n| test(*n)).collect()
}

fn one_of(random: &mut Random, from: &[i64]) -> Option<i64> {
    (!from.is_empty()).then(|| random.pick(from))
}

/// Now and then a successor named: mostly for a closed account, and rather one that takes tolls or leads back to the account; now and
/// then the account itself, an unused one or none.
pub fn name(random: &mut Random, book: &Book) -> Option<Event> {
    let closed = accounts(book, |n| is_closed(book, n));
    if !random.once_in(if closed.is_empty() { 150 } else { 9 }) {
        return None;
    }
    let any = random.range(0, book.count() as i64 + 1);
    let n = match random.below(16) {
        0 => any,
        1 => one_of(random, &accounts(book, |n| is_live(book, n))).unwrap_or(any),
        2 => one_of(random, &accounts(book, |n| is_reopened(book, n))).unwrap_or(any),
        _ => one_of(random, &closed).unwrap_or(any),
    };
    let fit = match random.below(20) {
        0 => vec![n],
        1 => accounts(book, |s| book.state(s) == STATE_UNUSED),
        2 => vec![i64::MIN, -1, 0, 0, 0, book.count() as i64 + 1, i64::MAX],
        3..=6 => accounts(book, |s| s != n && book.state(s) == STATE_PENDING),
        7 => accounts(book, |s| s != n && is_closed(book, s)),
        8..=11 => accounts(book, |s| s != n && successor(book, s) == n),
        12..=15 => accounts(book, |s| s != n && is_live(book, s) && successor(book, s) != 0),
        _ => accounts(book, |s| s != n && book.state(s) == STATE_OPEN),
    };
    let used = accounts(book, |s| s != n && book.state(s) != STATE_UNUSED);
    let next = one_of(random, &fit).or_else(|| one_of(random, &used)).unwrap_or(any);
    Some(event(EVENT_SUCCESSOR, n, &[next]))
}

/// Now and then an account for a toll that is closed, mostly with a successor that takes it, or was closed once.
pub fn passing(random: &mut Random, book: &Book) -> Option<i64> {
    if !random.once_in(2) {
        return None;
    }
    let passes = |n: i64| is_closed(book, n) && live_successor(book, n).is_some();
    let fit = match random.below(12) {
        0 => accounts(book, |n| is_closed(book, n)),
        1 => accounts(book, |n| is_closed(book, n) && is_closed(book, successor(book, n))),
        2 => accounts(book, |n| is_closed(book, n) && passes(successor(book, n))),
        3 => accounts(book, |n| is_reopened(book, n) && live_successor(book, n).is_some()),
        4..=7 => accounts(book, |n| passes(n) && successor(book, successor(book, n)) != 0),
        _ => accounts(book, passes),
    };
    one_of(random, &fit)
}

/// A closed account whose successor is n, where there is one.
pub fn passing_to(random: &mut Random, book: &Book, n: i64) -> Option<i64> {
    one_of(random, &accounts(book, |x| is_closed(book, x) && successor(book, x) == n))
}

/// A toll for such an account, now and then with what is refused by 6, 7 or 8.
pub fn spoiled(random: &mut Random, book: &Book, mut toll: Event) -> Event {
    let [_, _, passage, day, axles, height, ..] = &mut toll;
    match random.below(16) {
        0 => (*axles, *height) = (1, 91),
        1 => *day = random.pick(&[book.day() + 1, (book.day() - 61).max(1)]),
        2 => {
            let posted: Vec<i64> =
                book.used_rows().filter(|r| r[ROW_KIND] == KIND_TOLL).map(|r| r[ROW_REFERENCE]).collect();
            *passage = one_of(random, &posted).unwrap_or(*passage);
        }
        _ => {}
    }
    toll
}

/// A check returned on a closed account, where one has such a check: rather one that is a successor itself. With it what the account then owes.
pub fn reopening(random: &mut Random, book: &Book) -> Option<(Event, i64)> {
    let is_check = |r: &[i64]| r[ROW_KIND] == KIND_PAYMENT && r[ROW_MARK] == METHOD_CHECK;
    let of_closed = |r: &[i64]| is_check(r) && is_closed(book, r[ROW_ACCOUNT]);
    let leads_to = |n: i64| book.all_accounts().any(|x| x[ACCOUNT_STATE] == STATE_CLOSED && x[ACCOUNT_SUCCESSOR] == n);
    let rows: Vec<(i64, &[i64])> = (1..).zip(book.used_rows()).filter(|(_, r)| of_closed(r)).collect();
    let heirs: Vec<(i64, &[i64])> = rows.iter().copied().filter(|(_, r)| leads_to(r[ROW_ACCOUNT])).collect();
    let from = if heirs.is_empty() || random.once_in(4) { rows } else { heirs };
    if from.is_empty() {
        return None;
    }
    let (row, check) = random.pick(&from);
    let charge = random.pick(&[0, 0, 100, MOST_BANK_CHARGE]);
    Some((event(EVENT_RETURNED_CHECK, check[ROW_ACCOUNT], &[row, charge]), check[ROW_AMOUNT] + charge + RETURN_FEE))
}
