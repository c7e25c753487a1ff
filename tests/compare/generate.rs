//! Openings and events as a busy host might send them: most of them acceptable, some of them not.
use crate::debtors::to_border;
use crate::successors::{name, passing, passing_to, reopening, spoiled};
use calls::random::Random;
use calls::words::*;
use calls::{event, Book, Event, EVENT_ACCOUNT, MODEL};

// Limits of documents 01 and 02 that the header has no name for.
pub const LAST_STAGE: i64 = 4;
const HOLD_DAYS: i64 = 30;
pub const CLOSING_DAYS: i64 = 15;
pub const MOST_AMOUNT: i64 = 1_000_000;
pub const MOST_FEE: i64 = 100_000;
pub const MOST_CREDIT: i64 = 1_300_000;
pub const MOST_REFUND: i64 = 10_649_600_000;
pub const MOST_PASSAGE: i64 = 1_000_000_000;
pub const MOST_BANK_CHARGE: i64 = 99_500;
pub const RETURN_FEE: i64 = 500;
pub const RATES: usize = LIST_WORDS - LIST_RATES; // of a rate list

/// Tables for an opening and its schedule.
pub struct Opening {
    pub accounts: usize,
    pub rows: usize,
    pub holidays: Vec<i64>,
    pub schedule: Vec<i64>,
}

impl Opening {
    pub fn new(random: &mut Random, accounts: usize, rows: usize) -> Opening {
        let short = random.range(1, 9);
        let first = random.pick(&[1, 1, 2, 29, 60, 600, 1000, 9000, 20_000, 30_000, 36_200, 36_490]);
        let length = random.pick(&[1, 2, 3, 5, 7, 30, 365, short, short]);
        let mut schedule = vec![first, length];
        for most in [500, 2500, 3000] {
            let any = random.range(0, most);
            schedule.push(random.pick(&[0, most, any, any, MOST_FEE]));
        }
        schedule.extend(rates(random));
        Opening { accounts, rows, holidays: holidays(random, first), schedule }
    }

    /// The tables before it.
    pub fn book(&self) -> Book {
        Book::new(self.accounts, self.rows).with_holidays(&self.holidays)
    }
}

/// Holidays around the days to come from a first day: none, one, some, or as many as a list has.
pub fn holidays(random: &mut Random, first: i64) -> Vec<i64> {
    let most = MOST_HOLIDAYS as i64;
    let from = (first - random.range(0, 20)).clamp(1, DAYS - most);
    match random.below(8) {
        0 => Vec::new(),
        1 => vec![random.range(from, from + 60)],
        2 | 3 => {
            let step = random.range(1, (DAYS - from) / most).min(4);
            (0..most).map(|i| from + i * step).collect()
        }
        _ => {
            let often = random.pick(&[2, 3, 5, 9]);
            (from..from + most).filter(|_| random.once_in(often)).collect()
        }
    }
}

fn rates(random: &mut Random) -> [i64; RATES] {
    [250, 500, 600, 900, 1200, 1600].map(|most| {
        let any = random.range(1, most);
        random.pick(&[1, most, any, any, any, MOST_AMOUNT])
    })
}

/// Where the words of wild events and damaged tables come from, beside the limits that the book itself sets.
pub const WORDS: [i64; 30] = [
    i64::MIN,
    -MOST_AMOUNT - 1,
    -1,
    0,
    1,
    2,
    3,
    4,
    5,
    6,
    7,
    30,
    99,
    100,
    365,
    366,
    499,
    500,
    999,
    1000,
    DAYS,
    DAYS + 1,
    MOST_BANK_CHARGE,
    MOST_FEE,
    MOST_AMOUNT,
    MOST_CREDIT,
    MOST_PASSAGE,
    MOST_REFUND,
    1 << 32,
    i64::MAX,
];

/// Events one after another: what a list remembers of itself.
pub struct Host {
    passage: i64,
    planned: Vec<Event>, // the next one last; then so many ticks
    ticks: i64,
    pays: bool,   // debts are paid soon, so that accounts close
    leaves: bool, // accounts leave often, paid by check, so that many are closed and pending again
    lists: bool,  // rate lists come soon, so that the eighth is in force for long
    fill: usize,  // tolls and payments alone, until so many rows are used
}

impl Host {
    pub fn new(random: &mut Random, fill: usize) -> Host {
        let passage = random.pick(&[0, 40, 999_000_000]);
        let (pays, leaves, lists) = (random.once_in(2), fill == 0 && random.once_in(4), random.once_in(6));
        Host { passage, planned: Vec::new(), ticks: 0, pays, leaves, lists, fill }
    }

    /// The next event for a book.
    pub fn event(&mut self, random: &mut Random, book: &Book) -> Event {
        let mut event = self.fitting(random, book);
        if random.once_in(25) {
            let word = random.index(EVENT_WORDS);
            event[word] = random.pick(&WORDS);
        }
        event
    }

    /// An event for a book that stays as it is, so that nothing is planned from it.
    pub fn single(&mut self, random: &mut Random, book: &Book) -> Event {
        let event = self.event(random, book);
        self.planned.clear();
        self.ticks = 0;
        event
    }

    fn fitting(&mut self, random: &mut Random, book: &Book) -> Event {
        if let Some(event) = self.planned.pop() {
            return event;
        }
        if self.ticks > 0 && book.day() < DAYS {
            self.ticks -= 1;
            return event(EVENT_TICK, 0, &[]);
        }
        let room = book.first_days().len() < MOST_LISTS;
        let often = match (self.lists, room) {
            (true, true) => 6,
            (true, false) => 60,
            (false, true) => 25,
            (false, false) => 250,
        };
        if random.once_in(often) {
            return rate_list(random, book);
        }
        if self.pays && random.once_in(6) {
            if let Some(n) = account(random, book, |n| is_live(book, n) && balance(book, n) < 0) {
                return payment(random, book, n);
            }
        }
        if self.leaves && random.once_in(8) {
            if let Some(n) = account(random, book, |n| book.state(n) == STATE_OPEN) {
                return self.leave(random, book, n);
            }
        }
        if let Some(event) = beside_held(random, book) {
            return event;
        }
        if let Some(event) = beside_reserve(random, book) {
            return event;
        }
        if let Some(event) = to_border(random, book) {
            return event;
        }
        if let Some(event) = self.name_successor(random, book) {
            return event;
        }
        if random.once_in(8) {
            if let Some(event) = self.reopen(random, book) {
                return event;
            }
        }
        if random.once_in(8) {
            if let Some(event) = self.around_fee(random, book) {
                return event;
            }
        }
        let die = if book.rows_used() < self.fill { random.range(7, 42) } else { random.below(100) };
        let fit = match die {
            0..=6 => account(random, book, |n| book.state(n) == STATE_UNUSED).map(|n| open(random, n)),
            7..=29 => None,
            30..=42 => account(random, book, |n| is_live(book, n)).map(|n| payment(random, book, n)),
            43..=51 => {
                let charge = random.pick(&[0, 0, 100, MOST_BANK_CHARGE]);
                of_row(random, book, is_check, EVENT_RETURNED_CHECK, charge)
            }
            52..=61 => {
                let part = if random.once_in(2) { of_row(random, book, is_part_paid, EVENT_DISPUTE, 0) } else { None };
                part.or_else(|| of_row(random, book, is_disputable, EVENT_DISPUTE, 0))
            }
            62..=69 => {
                let verdict = random.below(2);
                of_row(random, book, is_held_toll, EVENT_DECISION, verdict)
            }
            70..=79 => account(random, book, |n| MODEL.topup_due(book, n).1 == 1).map(|n| result(random, book, n)),
            80..=83 => account(random, book, |n| book.state(n) == STATE_OPEN).map(|n| self.leave(random, book, n)),
            _ => {
                if random.once_in(5) {
                    let any = random.range(1, 40);
                    self.ticks = random.pick(&[book.stage_length() - 1, 14, 29, any]).min(60);
                }
                Some(event(EVENT_TICK, 0, &[]))
            }
        };
        fit.unwrap_or_else(|| self.toll(random, book))
    }

    /// A close request; half of the time, or always where accounts leave often, what is owed is paid at once, and ticks follow until
    /// past the first day to close on.
    fn leave(&mut self, random: &mut Random, book: &Book, n: i64) -> Event {
        if self.leaves || random.once_in(2) {
            self.ticks = CLOSING_DAYS + random.range(0, 4);
            let owed = -balance(book, n);
            if owed > 0 {
                let method = if self.leaves { METHOD_CHECK } else { METHOD_CASH };
                self.planned = vec![event(EVENT_PAYMENT, n, &[owed.min(MOST_AMOUNT), method])];
            }
        }
        event(EVENT_CLOSE_REQUEST, n, &[])
    }

    /// Event 12, and often tolls for the account right after it.
    fn name_successor(&mut self, random: &mut Random, book: &Book) -> Option<Event> {
        let named = name(random, book)?;
        for _ in 0..random.below(3) {
            let toll = self.toll_of(random, book, named[EVENT_ACCOUNT]);
            self.planned.push(spoiled(random, book, toll));
        }
        Some(named)
    }

    /// A check returned on a closed account, then a toll for an account whose successor it is, where there is one; then what it owes by
    /// the check is paid, and it may close on the next business day, or there is a toll for it.
    fn reopen(&mut self, random: &mut Random, book: &Book) -> Option<Event> {
        let (returned, owed) = reopening(random, book)?;
        let n = returned[EVENT_ACCOUNT];
        if random.once_in(2) {
            self.planned = vec![event(EVENT_PAYMENT, n, &[owed.min(MOST_AMOUNT), METHOD_CHECK])];
            self.ticks = random.range(1, 4);
        } else {
            self.planned = vec![self.toll_of(random, book, n)];
        }
        if let Some(n) = passing_to(random, book, n) {
            let toll = self.toll_of(random, book, n);
            self.planned.push(toll);
        }
        Some(returned)
    }

    /// Two tolls with a fee of the first between them are held from one day on; then comes money for a part of the three, and
    /// ticks until the holds end: the last one has the fee and the later toll to choose from.
    fn around_fee(&mut self, random: &mut Random, book: &Book) -> Option<Event> {
        let pairs = around_fees(book);
        if pairs.is_empty() {
            return None;
        }
        let pair = random.pick(&pairs);
        let n = row_words(book, pair[0])[ROW_ACCOUNT];
        self.ticks = HOLD_DAYS + 3; // a few may be refused
        self.planned = vec![payment_beside(random, book, pair), event(EVENT_DISPUTE, n, &[pair[1]])];
        Some(event(EVENT_DISPUTE, n, &[pair[0]]))
    }

    fn toll(&mut self, random: &mut Random, book: &Book) -> Event {
        if let Some(n) = passing(random, book) {
            let toll = self.toll_of(random, book, n);
            return spoiled(random, book, toll);
        }
        let Some(n) = account(random, book, |n| is_live(book, n)) else {
            let unused = (1..=book.count() as i64).find(|n| book.state(*n) == STATE_UNUSED);
            return unused.map_or(event(EVENT_TICK, 0, &[]), |n| open(random, n));
        };
        self.toll_of(random, book, n)
    }

    fn toll_of(&mut self, random: &mut Random, book: &Book, n: i64) -> Event {
        self.passage += 1;
        let passage = if random.once_in(20) { (self.passage - random.range(1, 6)).max(1) } else { self.passage };
        let back = if random.once_in(12) { random.range(59, 62) } else { random.range(0, 60) };
        let day = if random.once_in(40) { book.day() + 1 } else { (book.day() - back).max(1) };
        let day = if random.once_in(3) { border(random, book).unwrap_or(day) } else { day };
        let axles = random.pick(&[1, 2, 2, 3, 4, 5, 6, 99]);
        let height = random.pick(&[0, 60, 90, 91, 200, 999]);
        let height = if axles == 1 && !random.once_in(6) { height.min(90) } else { height };
        event(EVENT_TOLL, n, &[passage, day, axles, height, random.range(MODE_TAG, MODE_PLATE)])
    }
}

/// A rate list: mostly one that begins after the last, soon enough for passages to meet it; now and then one too early,
/// on the first or the last of all days or past them, or with a rate out of range.
fn rate_list(random: &mut Random, book: &Book) -> Event {
    let (today, last) = (book.day(), book.first_days().pop().unwrap());
    let soon = last + random.range(1, 12);
    let first = match random.below(12) {
        0 => last - random.below(2),
        1 => random.pick(&[0, 1, DAYS, DAYS + 1]),
        2..=4 => (today + random.range(-5, 5)).max(last + 1),
        5..=6 => last + 1,
        _ => soon,
    };
    let mut words = vec![first];
    words.extend(rates(random));
    if random.once_in(20) {
        words[LIST_RATES + random.index(RATES)] = random.pick(&[-1, 0, MOST_AMOUNT + 1]);
    }
    event(EVENT_RATE_LIST, 0, &words)
}

/// A passage day at which a rate list begins, or a day beside it, where a toll may still name it.
fn border(random: &mut Random, book: &Book) -> Option<i64> {
    let near = book.first_days().into_iter().flat_map(|d| [d - 1, d, d + 1]);
    let fit: Vec<i64> = near.filter(|d| (book.day() - 60..=book.day()).contains(d) && *d >= 1).collect();
    (!fit.is_empty()).then(|| random.pick(&fit))
}

pub fn is_live(book: &Book, n: i64) -> bool {
    matches!(book.state(n), STATE_OPEN | STATE_PENDING)
}

fn balance(book: &Book, n: i64) -> i64 {
    MODEL.balance(book, n).1
}

fn is_check(r: &[i64]) -> bool {
    r[ROW_KIND] == KIND_PAYMENT && r[ROW_MARK] == METHOD_CHECK
}

fn is_disputable(r: &[i64]) -> bool {
    r[ROW_KIND] == KIND_TOLL && r[ROW_DISPUTE] == DISPUTE_NEVER && r[ROW_SETTLED] < r[ROW_AMOUNT]
}

/// Upheld, such a toll leaves money of its credit for others.
fn is_part_paid(r: &[i64]) -> bool {
    is_disputable(r) && r[ROW_SETTLED] > 0
}

fn is_held_toll(r: &[i64]) -> bool {
    r[ROW_KIND] == KIND_TOLL && r[ROW_DISPUTE] == DISPUTE_HELD
}

/// An account that passes a test; none where none does, but now and then any number.
fn account(random: &mut Random, book: &Book, test: impl Fn(i64) -> bool) -> Option<i64> {
    let count = book.count() as i64;
    let fit: Vec<i64> = (1..=count).filter(|n| test(*n)).collect();
    if random.once_in(12) {
        return Some(random.range(0, count + 1));
    }
    if fit.is_empty() {
        None
    } else {
        Some(random.pick(&fit))
    }
}

fn open(random: &mut Random, n: i64) -> Event {
    let amount = random.pick(&[0, 1, 500, 2000, MOST_AMOUNT]);
    let threshold = if amount == 0 { 0 } else { random.pick(&[0, 100, 5000, MOST_AMOUNT]) };
    event(EVENT_OPEN, n, &[threshold, amount])
}

/// Often just what is owed, or a cent beside it.
fn payment(random: &mut Random, book: &Book, n: i64) -> Event {
    let any = random.range(1, 3000);
    let owed = (random.range(-1, 1) - balance(book, n)).clamp(1, MOST_AMOUNT);
    let amount = random.pick(&[1, any, any, owed, owed, MOST_AMOUNT]);
    let method = random.pick(&[METHOD_CARD, METHOD_CASH, METHOD_CHECK, METHOD_CHECK]);
    event(EVENT_PAYMENT, n, &[amount, method])
}

/// Now and then, where an account has held debts and a top-up: a payment that brings it to the threshold or past it while the
/// top-up is due, a result while held debts alone make the account low.
fn beside_held(random: &mut Random, book: &Book) -> Option<Event> {
    if !random.once_in(4) {
        return None;
    }
    let is_due = |n: i64| held_debts(book, n) > 0 && MODEL.topup_due(book, n).1 == 1;
    let (due, low): (Vec<i64>, Vec<i64>) =
        (1..=book.count() as i64).filter(|n| is_due(*n) || is_low_through_held(book, *n)).partition(|n| is_due(*n));
    if !low.is_empty() && random.once_in(2) {
        return Some(event(EVENT_TOPUP_RESULT, random.pick(&low), &[0, random.below(2)]));
    }
    if due.is_empty() {
        return None;
    }
    let n = random.pick(&due);
    Some(event(EVENT_PAYMENT, n, &[up_to_threshold(random, book, n), METHOD_CARD]))
}

/// What brings balance and held debts to the threshold or, twice as often, a cent past it.
fn up_to_threshold(random: &mut Random, book: &Book, n: i64) -> i64 {
    let threshold = account_words(book, n).map_or(0, |x| x[ACCOUNT_THRESHOLD]);
    (threshold + random.pick(&[0, 1, 1]) - balance(book, n) - held_debts(book, n)).clamp(1, MOST_AMOUNT)
}

pub fn account_words(book: &Book, n: i64) -> Option<&[i64]> {
    book.all_accounts().nth(usize::try_from(n - 1).ok()?)
}

/// Whether a row is a held toll or a fee of one.
pub fn is_held(rows: &[&[i64]], r: &[i64]) -> bool {
    is_held_toll(if r[ROW_KIND] == KIND_FEE { rows[r[ROW_REFERENCE] as usize - 1] } else { r })
}

/// What is unsettled of an account's held tolls and their fees.
fn held_debts(book: &Book, n: i64) -> i64 {
    let rows: Vec<&[i64]> = book.used_rows().collect();
    rows.iter().filter(|r| r[ROW_ACCOUNT] == n && is_held(&rows, r)).map(|r| r[ROW_AMOUNT] - r[ROW_SETTLED]).sum()
}

/// Pairs of disputable tolls of one account, by their rows, with an unsettled fee of the first between them: of each such fee
/// the next toll after it.
fn around_fees(book: &Book) -> Vec<[i64; 2]> {
    let mut next = vec![0; book.count() + 1]; // of each account
    let mut pairs = Vec::new();
    for (i, r) in book.used_rows().enumerate().rev() {
        let n = r[ROW_ACCOUNT] as usize;
        if is_disputable(r) {
            next[n] = i as i64 + 1;
        }
        let is_owed_fee = r[ROW_KIND] == KIND_FEE && r[ROW_SETTLED] < r[ROW_AMOUNT];
        if is_owed_fee && next[n] > 0 && is_disputable(row_words(book, r[ROW_REFERENCE])) {
            pairs.push([r[ROW_REFERENCE], next[n]]);
        }
    }
    pairs
}

fn row_words(book: &Book, row: i64) -> &[i64] {
    &book.journal[(row as usize - 1) * ROW_WORDS..][..ROW_WORDS]
}

/// What is unsettled of a toll and its fees.
fn toll_debts(book: &Book, toll: i64) -> i64 {
    let of_toll = |r: &[i64]| r[ROW_KIND] == KIND_FEE && r[ROW_REFERENCE] == toll;
    let fees = book.used_rows().filter(|r| of_toll(r)).map(|r| r[ROW_AMOUNT] - r[ROW_SETTLED]).sum::<i64>();
    row_words(book, toll)[ROW_AMOUNT] - row_words(book, toll)[ROW_SETTLED] + fees
}

/// What leaves unused money for the first of two tolls of an account and a part of the second, or a cent beside that, once both
/// are held.
fn payment_beside(random: &mut Random, book: &Book, pair: [i64; 2]) -> Event {
    let owed = pair.map(|row| row_words(book, row)[ROW_AMOUNT] - row_words(book, row)[ROW_SETTLED]);
    let n = row_words(book, pair[0])[ROW_ACCOUNT];
    let part = random.range(0, owed[1]);
    let money = owed[0] + random.pick(&[-1, 0, 1, part, part, part, owed[1], owed[1] + 1, owed[1] + 100]);
    let held = held_debts(book, n) + toll_debts(book, pair[0]) + toll_debts(book, pair[1]);
    let amount = (money - balance(book, n) - held).clamp(1, MOST_AMOUNT);
    event(EVENT_PAYMENT, n, &[amount, random.range(METHOD_CARD, METHOD_CASH)])
}

/// All that makes a top-up due, the balance among it, but held debts are what brings it so low.
pub fn is_low_through_held(book: &Book, n: i64) -> bool {
    let fits = |x: &[i64]| {
        x[ACCOUNT_STATE] == STATE_OPEN
            && x[ACCOUNT_TOPUP] > 0
            && x[ACCOUNT_LAST_DECLINE] != book.day()
            && balance(book, n) <= x[ACCOUNT_THRESHOLD]
            && balance(book, n) + held_debts(book, n) > x[ACCOUNT_THRESHOLD]
    };
    account_words(book, n).is_some_and(fits)
}

/// Now and then a reserve added or removed, or a result where one is: rather one that concerns it.
fn beside_reserve(random: &mut Random, book: &Book) -> Option<Event> {
    match random.below(24) {
        0..=4 => return reserve(random, book),
        5..=9 => {}
        _ => return None,
    }
    let has_reserve = |n: i64| account_words(book, n).is_some_and(|x| x[ACCOUNT_RESERVE] == 1);
    let is_due = |n: &i64| has_reserve(*n) && MODEL.topup_due(book, *n).1 == 1;
    let due: Vec<i64> = (1..=book.count() as i64).filter(is_due).collect();
    let asked: Vec<i64> = due.iter().copied().filter(|n| declines(book, *n) == 2).collect();
    let from = if asked.is_empty() { due } else { asked };
    if from.is_empty() {
        return None;
    }
    let n = random.pick(&from);
    Some(result(random, book, n))
}

/// A reserve added or removed: mostly where it can be, and rather where a result was declined or the account is not open any
/// more; now and then where it is there already or isn't, without a top-up, or by a word that is neither 0 nor 1.
fn reserve(random: &mut Random, book: &Book) -> Option<Event> {
    let adds = random.below(2);
    let before = if random.once_in(8) { adds } else { 1 - adds };
    let die = random.below(16);
    let wanted = |n: i64| {
        let Some(x) = account_words(book, n) else { return false };
        let fits = x[ACCOUNT_TOPUP] > 0 && x[ACCOUNT_RESERVE] == before;
        match die {
            0 => x[ACCOUNT_STATE] == STATE_CLOSED,
            1 => is_live(book, n) && x[ACCOUNT_TOPUP] == 0,
            2 => fits && x[ACCOUNT_STATE] == STATE_PENDING,
            3..=6 => fits && is_reopened(book, n),
            7 | 8 => fits && x[ACCOUNT_DECLINES] == 1,
            9..=12 => fits && x[ACCOUNT_DECLINES] == 2,
            _ => fits && x[ACCOUNT_STATE] == STATE_OPEN,
        }
    };
    let some = (1..=book.count() as i64).any(wanted);
    let found = if some { account(random, book, wanted) } else { None };
    let word = if random.once_in(20) { random.pick(&[-1, 2]) } else { adds };
    found.map(|n| event(EVENT_RESERVE, n, &[word]))
}

fn declines(book: &Book, n: i64) -> i64 {
    account_words(book, n).map_or(0, |x| x[ACCOUNT_DECLINES])
}

/// Mostly declined, but a third one as often as not.
fn result(random: &mut Random, book: &Book, n: i64) -> Event {
    let third = declines(book, n) == 2;
    let paid = if third { random.below(2) } else { random.pick(&[1, 0, 0]) };
    event(EVENT_TOPUP_RESULT, n, &[0, paid])
}

/// Closed once, and pending again by a returned check: no other pending account has a refund.
pub fn is_reopened(book: &Book, n: i64) -> bool {
    let refund = |r: &[i64]| r[ROW_KIND] == KIND_REFUND && r[ROW_ACCOUNT] == n;
    book.state(n) == STATE_PENDING && book.used_rows().any(refund)
}

/// An event on a row that passes a test, with its account; none where none does, but now and then any row.
fn of_row(random: &mut Random, book: &Book, test: fn(&[i64]) -> bool, kind: i64, b: i64) -> Option<Event> {
    let used = book.rows_used() as i64;
    let fit: Vec<i64> = (1..).zip(book.used_rows()).filter(|(_, r)| test(r)).map(|(n, _)| n).collect();
    let row = match (random.once_in(12), fit.is_empty()) {
        (true, _) => random.range(0, used + 1),
        (false, true) => return None,
        (false, false) => random.pick(&fit),
    };
    let n = book.used_rows().nth((row - 1).max(0) as usize).map_or(1, |r| r[ROW_ACCOUNT]);
    let n = if random.once_in(40) { n + 1 } else { n };
    Some(event(kind, n, &[row, b]))
}
