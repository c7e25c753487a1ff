//! Damaged tables, lengths and answer tables: what a host may lend that is no sound book, or only just one.
use crate::debtors::asked;
use crate::generate::{holidays, Host, WORDS};
use crate::generate::{LAST_STAGE, MOST_AMOUNT, MOST_CREDIT, MOST_FEE, MOST_PASSAGE, MOST_REFUND, RATES};
use crate::pair::{line, Call, Pair};
use calls::random::Random;
use calls::words::*;
use calls::{Book, Table, MODEL};

/// What the damaged books met.
#[derive(Default)]
pub struct Met {
    pub books: u64,
    pub sound: u64,            // damaged, and sound all the same
    pub reserves_out: u64,     // unsound by a reserve alone that is neither 0 nor 1
    pub reserves_alone: u64,   // and by one alone beside no top-up
    pub reserves_sound: u64,   // sound, with another reserve
    pub successors: [u64; 3],  // unsound by a successor alone: itself, an unused account, none of the table
    pub successors_sound: u64, // sound, with another successor
    pub debtors: [u64; 2],     // debtor questions on sound and on unsound books
    pub moved_sound: u64,      // sound, with money moved from a toll to a fee or reversal, or back
    pub holidays: Holidays,
    pub lengths: u64,
    pub answer_tables: u64,
}

/// Faults of a list of holidays, of which the first that it has counts.
pub const LONG: usize = 0;
pub const OUT: usize = 1; // a day out of its range
pub const ORDER: usize = 2;

fn fault(days: &[i64]) -> Option<usize> {
    match days {
        _ if days.len() > MOST_HOLIDAYS => Some(LONG),
        _ if days.iter().any(|d| !(1..=DAYS).contains(d)) => Some(OUT),
        _ if days.windows(2).any(|d| d[0] >= d[1]) => Some(ORDER),
        _ => None,
    }
}

/// Books by their holidays.
#[derive(Default)]
pub struct Holidays {
    pub unsound: [u64; 3], // by their fault alone
    pub sound: u64,        // with others than the whole book's
    pub refused: [u64; 3], // openings answered 17, by the fault
    pub beaten: [u64; 2],  // openings answered 1 and 2 all the same
    pub opened: u64,       // openings with as many as fit
}

impl Holidays {
    /// Notes a damaged book, and what an opening in its tables gives.
    fn note(&mut self, damaged: &Book, whole: &Book, sound: bool, call: &Call) {
        let fault = fault(&damaged.holidays);
        match fault {
            Some(fault) if MODEL.is_sound(&damaged.clone().with_holidays(&[])) => self.unsound[fault] += 1,
            None if sound && damaged.holidays != whole.holidays => self.sound += 1,
            _ => {}
        }
        let Call::Open(schedule) = call else { return };
        match (MODEL.open(&mut damaged.clone(), schedule), fault) {
            (HOLIDAYS, Some(fault)) => self.refused[fault] += 1,
            (UNSOUND, Some(_)) => self.beaten[0] += 1,
            (MALFORMED, Some(_)) => self.beaten[1] += 1,
            (POSTED, _) => self.opened += (damaged.holidays.len() == MOST_HOLIDAYS) as u64,
            _ => {}
        }
    }
}

/// A damaged book on which a call differs.
pub struct Failure {
    pub whole: Book,
    pub damaged: Book,
    pub call: Call,
    pub difference: String,
}

/// A word that may be just inside or just outside a limit that the sound book sets.
fn near(random: &mut Random, t: &Book, old: i64) -> i64 {
    let (day, used, length) = (t.day(), t.header[HEADER_ROWS_USED], t.stage_length());
    let row = &t.journal[at(random.index(used.max(1) as usize), 0)..][..ROW_WORDS];
    let around = [
        day,
        day + length,
        day - 29,
        day - 60,
        day + 1 - length,
        row[ROW_HOLD_START] + length,
        used,
        row[ROW_REFERENCE],
        row[ROW_AMOUNT],
    ];
    match random.below(10) {
        0..=2 => old.wrapping_add(random.pick(&[-1, 1])),
        3..=4 => random.pick(&WORDS).wrapping_add(random.pick(&[0, 0, -1, 1])),
        5..=7 => random.pick(&around).wrapping_add(random.range(-1, 1)),
        8 => random.range(0, 6),
        _ => random.word(),
    }
}

/// The place of a row's word in the journal; rows are counted from 0 here.
fn at(row: usize, word: usize) -> usize {
    row * ROW_WORDS + word
}

/// A used row, of each kind as often as of any other; row 0 where none is used.
fn row(random: &mut Random, t: &Book) -> usize {
    let used = t.rows_used();
    let kind = random.range(KIND_TOLL, KIND_REFUND);
    let of_kind: Vec<usize> = (0..used).filter(|r| t.journal[at(*r, ROW_KIND)] == kind).collect();
    match (of_kind.is_empty(), used) {
        (false, _) => random.pick(&of_kind),
        (true, 0) => 0,
        (true, _) => random.index(used),
    }
}

/// A row of the same account as another.
fn mate(random: &mut Random, t: &Book, row: usize) -> usize {
    let same: Vec<usize> =
        (0..t.rows_used()).filter(|r| t.journal[at(*r, ROW_ACCOUNT)] == t.journal[at(row, ROW_ACCOUNT)]).collect();
    if same.is_empty() || random.once_in(8) {
        self::row(random, t)
    } else {
        random.pick(&same)
    }
}

/// Any word, mostly of a used row, where damage matters most.
fn place<'a>(random: &mut Random, whole: &Book, t: &'a mut Book) -> &'a mut i64 {
    match random.below(12) {
        0 => &mut t.header[random.index(HEADER_LISTS)], // the words after these are change_lists'
        1..=3 => {
            let i = random.index(t.accounts.len());
            &mut t.accounts[i]
        }
        4 => {
            let i = random.index(t.journal.len());
            &mut t.journal[i]
        }
        _ => &mut t.journal[at(row(random, whole), random.index(ROW_WORDS))],
    }
}

fn swap_parts(words: &mut [i64], width: usize, i: usize, k: usize) {
    for w in 0..width {
        words.swap(i * width + w, k * width + w);
    }
}

fn copy_part(words: &mut [i64], width: usize, from: usize, to: usize) {
    words.copy_within(from * width..(from + 1) * width, to * width);
}

/// A row's words; rows are counted from 0 here, and accounts below.
fn row_of(t: &mut Book, row: usize) -> &mut [i64] {
    &mut t.journal[at(row, 0)..][..ROW_WORDS]
}

fn account_of(t: &mut Book, account: usize) -> &mut [i64] {
    &mut t.accounts[account * ACCOUNT_WORDS..][..ACCOUNT_WORDS]
}

/// Changes a sound book's tables, all of the right lengths.
fn damage(random: &mut Random, t: &mut Book) {
    let whole = t.clone();
    let i = row(random, t);
    let k = mate(random, t, i);
    let (x, y) = (random.index(t.count()), random.index(t.count()));
    match random.below(37) {
        0..=6 => {
            for _ in 0..random.pick(&[1, 1, 1, 2]) {
                let word = place(random, &whole, t);
                *word = near(random, &whole, *word);
            }
        }
        7 => move_settled(random, t, i, k),
        8 => move_amounts(random, t, i, k),
        9 => swap_parts(&mut t.journal, ROW_WORDS, i, k),
        10 => {
            copy_part(&mut t.journal, ROW_WORDS, i, k);
            if random.once_in(2) {
                rename(random, &whole, t, k);
            }
        }
        11 => change_rows_used(random, &whole, t, i),
        12 if random.once_in(2) => swap_parts(&mut t.accounts, ACCOUNT_WORDS, x, y),
        12 => copy_part(&mut t.accounts, ACCOUNT_WORDS, x, y),
        13 => move_days(random, t),
        14..=15 => hold_toll(random, t),
        16..=17 if t.rows_used() < t.room() => add_row(random, t, i),
        18 => change_state(random, t, x),
        19..=21 => change_lists(random, t),
        22..=24 => change_reserve(random, t, x),
        25..=26 => move_between(random, t),
        27..=30 => change_holidays(random, t),
        33..=36 => change_successor(random, t, x),
        _ => change_topup(random, t, x),
    }
}

/// Money moved between what two rows have settled, or the same more on both.
fn move_settled(random: &mut Random, t: &mut Book, i: usize, k: usize) {
    let (amount, settled) = (t.journal[at(i, ROW_AMOUNT)], t.journal[at(i, ROW_SETTLED)]);
    let part = random.pick(&[1, 1, 5, 100, settled, amount - settled]);
    t.journal[at(i, ROW_SETTLED)] += part;
    t.journal[at(k, ROW_SETTLED)] += random.pick(&[part, -part]);
}

/// Money moved from a toll of an account to a fee or reversal, or back, mostly as much as fits: a book may be sound whichever
/// of them was paid first.
fn move_between(random: &mut Random, t: &mut Book) {
    let tolls: Vec<usize> = (0..t.rows_used()).filter(|r| t.journal[at(*r, ROW_KIND)] == KIND_TOLL).collect();
    let is_other = |r: &usize| matches!(t.journal[at(*r, ROW_KIND)], KIND_FEE | KIND_REVERSAL);
    let others: Vec<usize> = (0..t.rows_used()).filter(is_other).collect();
    if tolls.is_empty() || others.is_empty() {
        return;
    }
    let other = random.pick(&others);
    let account = t.journal[at(other, ROW_ACCOUNT)];
    let own: Vec<usize> = tolls.iter().copied().filter(|r| t.journal[at(*r, ROW_ACCOUNT)] == account).collect();
    let toll = random.pick(if own.is_empty() { &tolls } else { &own });
    let (from, to) = random.pick(&[(toll, other), (other, toll)]);
    let most = t.journal[at(from, ROW_SETTLED)].min(t.journal[at(to, ROW_AMOUNT)] - t.journal[at(to, ROW_SETTLED)]);
    let part = random.pick(&[most, most, most, (most + 1) / 2, 1, most + 1]);
    t.journal[at(from, ROW_SETTLED)] -= part;
    t.journal[at(to, ROW_SETTLED)] += part;
}

/// One amount or two, now and then to the most that the kind allows or one more.
fn move_amounts(random: &mut Random, t: &mut Book, i: usize, k: usize) {
    let most = match t.journal[at(i, ROW_KIND)] {
        KIND_FEE => MOST_FEE,
        KIND_CREDIT => MOST_CREDIT,
        KIND_REFUND => MOST_REFUND,
        _ => MOST_AMOUNT,
    };
    let to_most = most - t.journal[at(i, ROW_AMOUNT)] + random.below(2);
    let part = random.pick(&[1, 100, -1, to_most, to_most]);
    let settles = random.below(2);
    for row in &[i, k][..random.pick(&[1, 2])] {
        t.journal[at(*row, ROW_AMOUNT)] += part;
        t.journal[at(*row, ROW_SETTLED)] += part * settles;
    }
}

/// Another reference.
fn rename(random: &mut Random, whole: &Book, t: &mut Book, row: usize) {
    let word = &mut t.journal[at(row, ROW_REFERENCE)];
    *word = near(random, whole, *word);
}

/// A row more or less.
fn change_rows_used(random: &mut Random, whole: &Book, t: &mut Book, i: usize) {
    let used = whole.rows_used();
    let last = used.max(1) - 1;
    match random.below(4) {
        0 => t.header[HEADER_ROWS_USED] += random.pick(&[-1, 1]),
        1 => {
            row_of(t, last).fill(0);
            t.header[HEADER_ROWS_USED] = last as i64;
        }
        2 => row_of(t, i).fill(0),
        _ if used < t.room() => {
            copy_part(&mut t.journal, ROW_WORDS, i, used);
            t.header[HEADER_ROWS_USED] += 1;
            rename(random, whole, t, used);
        }
        _ => t.header[HEADER_ROWS_USED] = 0,
    }
}

/// Another day or stage length: what was due or held by the old one may no longer be.
fn move_days(random: &mut Random, t: &mut Book) {
    t.header[HEADER_DAY] = (t.day() + random.pick(&[-30, -1, 1, 2, 29, 30])).max(1);
    if random.once_in(3) {
        t.header[HEADER_STAGE_LENGTH] = random.range(1, 366);
    }
}

/// A toll held or not, with days at the ends of their ranges.
fn hold_toll(random: &mut Random, t: &mut Book) {
    let (day, length) = (t.day(), t.stage_length());
    let tolls: Vec<usize> = (0..t.rows_used()).filter(|r| t.journal[at(*r, ROW_KIND)] == KIND_TOLL).collect();
    if tolls.is_empty() {
        return;
    }
    let r = row_of(t, random.pick(&tolls));
    r[ROW_DISPUTE] = random.pick(&[DISPUTE_HELD, DISPUTE_HELD, DISPUTE_HELD, DISPUTE_ENDED, r[ROW_DISPUTE]]);
    if r[ROW_DISPUTE] == DISPUTE_HELD || random.once_in(4) {
        r[ROW_HOLD_START] = random.pick(&[day - 30, day - 29, day, day + 1, 0, 1, r[ROW_HOLD_START]]);
    } else {
        r[ROW_HOLD_START] = 0;
    }
    let from = random.pick(&[day, r[ROW_HOLD_START]]);
    r[ROW_DUE_DAY] = random.pick(&[from, from + 1, from + length, from + length + 1, 0, 1, r[ROW_DUE_DAY]]);
    if random.once_in(3) {
        r[ROW_MARK] = random.range(2, LAST_STAGE + 1);
    }
}

/// One more row, of any kind, in words that might fit.
fn add_row(random: &mut Random, t: &mut Book, i: usize) {
    let (day, used) = (t.day(), t.rows_used());
    let (n, reference) = (t.journal[at(i, ROW_ACCOUNT)].max(1), t.journal[at(i, ROW_REFERENCE)]);
    let amount = random.range(0, 3);
    let due = day + random.range(0, 1 + t.stage_length());
    let kind = random.range(KIND_EMPTY, KIND_REFUND + 2);
    let r = row_of(t, used);
    (r[ROW_KIND], r[ROW_ACCOUNT], r[ROW_DAY], r[ROW_AMOUNT]) = (kind, n, day, amount);
    r[ROW_SETTLED] = random.pick(&[0, amount]);
    match kind {
        KIND_TOLL => (r[ROW_DUE_DAY], r[ROW_REFERENCE]) = (due, random.pick(&[7, reference, MOST_PASSAGE])),
        KIND_PAYMENT => r[ROW_MARK] = random.range(0, METHOD_CHECK_RETURNED + 1),
        KIND_FEE | KIND_REVERSAL | KIND_CREDIT => r[ROW_REFERENCE] = i as i64 + 1,
        _ => {}
    }
    t.header[HEADER_ROWS_USED] += 1;
}

/// The state of an account and what goes with it.
fn change_state(random: &mut Random, t: &mut Book, x: usize) {
    let day = t.day();
    let a = account_of(t, x);
    a[ACCOUNT_STATE] = random.range(STATE_UNUSED, STATE_CLOSED + 1);
    a[ACCOUNT_REQUEST_DAY] = random.pick(&[0, 1, day, day + 1]);
}

/// A rate list after the first, used or not; these are counted from 0 here.
fn list_of(t: &mut Book, list: usize) -> &mut [i64] {
    &mut t.header[HEADER_LISTS + list * LIST_WORDS..][..LIST_WORDS]
}

/// Rate lists: another first day, out of order or just not; two lists swapped, or the same twice; a gap, or the last
/// one gone; one more; a word out of its range, or one in an unused list.
fn change_lists(random: &mut Random, t: &mut Book) {
    let (days, lists) = (t.first_days(), MOST_LISTS - 1);
    let used = days.len() - 1;
    let (i, k) = (random.index(used.max(1)), random.index(lists));
    let day = random.pick(&days) + random.range(-1, 1);
    let first_day = random.pick(&[i64::MIN, -1, 0, 1, DAYS, DAYS + 1, day, day, day, day]);
    match random.below(9) {
        0 => t.header[HEADER_FIRST_DAY] = first_day,
        1 | 2 => list_of(t, i)[LIST_FIRST_DAY] = first_day,
        3 => swap_parts(&mut t.header[HEADER_LISTS..], LIST_WORDS, i, k),
        4 => copy_part(&mut t.header[HEADER_LISTS..], LIST_WORDS, i, k),
        5 => list_of(t, random.pick(&[i, used.max(1) - 1])).fill(0),
        6 if used < lists => {
            let first = days[used] + random.range(0, 2);
            list_of(t, used).fill(random.pick(&[1, MOST_AMOUNT]));
            list_of(t, used)[LIST_FIRST_DAY] = first;
        }
        7 => list_of(t, i)[LIST_RATES + random.index(RATES)] = random.pick(&[-1, 0, 1, MOST_AMOUNT, MOST_AMOUNT + 1]),
        _ => list_of(t, k)[random.index(LIST_WORDS)] = random.pick(&[-1, 1, DAYS]),
    }
}

/// Other holidays: as many as fit or one more, days at the ends of their range or past them, two swapped, one twice.
fn change_holidays(random: &mut Random, t: &mut Book) {
    let mut days = holidays(random, t.day());
    days.push(days.last().map_or(t.day(), |d| d + 1).min(DAYS));
    let i = random.index(days.len());
    match random.below(8) {
        0 | 1 => {
            let count = (MOST_HOLIDAYS + random.index(2)) as i64;
            let from = random.pick(&[1, t.day().min(DAYS + 1 - count), DAYS + 1 - count]);
            days = (from..from + count).collect();
        }
        2 => days.insert(0, random.pick(&[i64::MIN, -1, 0, 0, 1])),
        3 => days.push(random.pick(&[DAYS, DAYS + 1, DAYS + 1, i64::MAX])),
        4 => days.swap(i, random.index(i + 1)),
        5 => days.insert(i, days[i]),
        6 => days[i] = near(random, t, days[i]),
        _ => days.truncate(i),
    }
    t.holidays = Table::new(&days);
}

/// The words of a top-up.
fn change_topup(random: &mut Random, t: &mut Book, x: usize) {
    let day = t.day();
    let a = account_of(t, x);
    a[ACCOUNT_THRESHOLD] = random.pick(&[0, 1, MOST_AMOUNT, MOST_AMOUNT + 1]);
    a[ACCOUNT_TOPUP] = random.pick(&[0, 1, MOST_AMOUNT, MOST_AMOUNT + 1]);
    a[ACCOUNT_DECLINES] = random.range(0, 3);
    a[ACCOUNT_LAST_DECLINE] = random.pick(&[0, 1, day, day + 1]);
    a[ACCOUNT_RESERVE] = random.range(0, 2);
}

/// The reserve of an account, now and then without the top-up beside it.
fn change_reserve(random: &mut Random, t: &mut Book, x: usize) {
    let a = account_of(t, x);
    a[ACCOUNT_RESERVE] = random.pick(&[-1, 0, 1, 1, 1, 2]);
    if random.once_in(4) {
        a[ACCOUNT_THRESHOLD..=ACCOUNT_LAST_DECLINE].fill(0);
    }
}

/// The successor of a used account, where there is one: another one, itself, an unused account or none of the table.
fn change_successor(random: &mut Random, t: &mut Book, x: usize) {
    let count = t.count() as i64;
    let of = |t: &Book, unused: bool| -> Vec<i64> {
        (1..=count).filter(|n| (t.state(*n) == STATE_UNUSED) == unused).collect()
    };
    let (used, unused) = (of(t, false), of(t, true));
    let n = if used.is_empty() || random.once_in(12) { x as i64 + 1 } else { random.pick(&used) };
    let from = match random.below(10) {
        0 | 1 => vec![n],
        2 | 3 => unused,
        4 | 5 => vec![i64::MIN, -1, count + 1, count + 1, MOST_ACCOUNTS as i64 + 1, i64::MAX, (1 << 32) + 1],
        6 => vec![0],
        _ => used,
    };
    account_of(t, n as usize - 1)[ACCOUNT_SUCCESSOR] = if from.is_empty() { count } else { random.pick(&from) };
}

pub const ITSELF: usize = 0;
pub const UNUSED: usize = 1;
pub const OUTSIDE: usize = 2;

/// What is wrong with the successor of a used account; accounts are counted from 0 here.
fn successor_fault(t: &Book, x: usize) -> Option<usize> {
    let (n, next) = (x as i64 + 1, t.accounts[x * ACCOUNT_WORDS + ACCOUNT_SUCCESSOR]);
    match next {
        _ if next == 0 || t.state(n) == STATE_UNUSED => None,
        _ if next == n => Some(ITSELF),
        _ if !(1..=t.count() as i64).contains(&next) => Some(OUTSIDE),
        _ => (t.state(next) == STATE_UNUSED).then_some(UNUSED),
    }
}

/// The fault of the successors that are all that makes a book unsound, of several the last.
fn unsound_by_successor(t: &Book) -> Option<usize> {
    let mut mended = t.clone();
    let mut fault = None;
    for x in 0..t.count() {
        if let Some(found) = successor_fault(t, x) {
            account_of(&mut mended, x)[ACCOUNT_SUCCESSOR] = 0;
            fault = Some(found);
        }
    }
    fault.filter(|_| MODEL.is_sound(&mended) && !MODEL.is_sound(t))
}

/// Whether reserves of a kind are all that makes a book unsound.
fn unsound_by_reserve(t: &Book, fault: fn(&[i64]) -> bool) -> bool {
    let mut mended = t.clone();
    mended.accounts.chunks_exact_mut(ACCOUNT_WORDS).filter(|a| fault(a)).for_each(|a| a[ACCOUNT_RESERVE] = 0);
    mended != *t && MODEL.is_sound(&mended) && !MODEL.is_sound(t)
}

/// Whether an account that both books have has another word at a place.
fn differs(x: &Book, y: &Book, word: usize) -> bool {
    x.all_accounts().zip(y.all_accounts()).any(|(a, b)| a[word] != b[word])
}

/// Whether a toll is paid more in one of two books of the same rows, and a fee or reversal less.
fn moved(x: &Book, y: &Book) -> bool {
    let paid_more = |toll: bool, x: &Book, y: &Book| {
        let mut rows = x.used_rows().zip(y.used_rows()).filter(|(r, _)| (r[ROW_KIND] == KIND_TOLL) == toll);
        rows.any(|(r, s)| matches!(r[ROW_KIND], KIND_TOLL..=KIND_REVERSAL) && r[ROW_SETTLED] > s[ROW_SETTLED])
    };
    paid_more(true, x, y) && paid_more(false, y, x) || paid_more(false, x, y) && paid_more(true, y, x)
}

/// Tables longer or shorter than a book's.
fn resize(random: &mut Random, t: &mut Book) {
    let filler = random.pick(&[0, 0, 1]);
    let (table, width, most) = match random.below(4) {
        0 => (&mut t.header, HEADER_WORDS as i64, 2),
        1 => (&mut t.accounts, ACCOUNT_WORDS as i64, MOST_ACCOUNTS as i64 + 1),
        2 => (&mut t.holidays, 1, MOST_HOLIDAYS as i64 + 1),
        _ => (&mut t.journal, ROW_WORDS as i64, MOST_ROWS as i64 + 1),
    };
    let words = table.len() as i64;
    let to = match random.below(6) {
        0 => 0,
        1 => words + random.range(-width, width),
        2 => words + width * random.pick(&[-1, 1]),
        3 => width * random.pick(&[1, 2, 256, most - 1, most]),
        4 => width * (most - 1) + random.range(-1, 1),
        _ => random.range(0, words + 2 * width),
    };
    table.resize(to.max(0) as usize, filler);
}

/// An opening, its schedule mostly fit.
fn opening(random: &mut Random) -> Call {
    let whole = SCHEDULE_WORDS as i64;
    let lengths = [whole, whole, whole, whole - 1, whole + 1, 0];
    let mut schedule: Vec<i64> = (1..=random.pick(&lengths)).collect();
    if !schedule.is_empty() && random.once_in(2) {
        let i = random.index(schedule.len());
        schedule[i] = random.pick(&WORDS);
    }
    Call::Open(schedule)
}

/// A call for a damaged book: mostly an event that the sound one would take.
fn call(random: &mut Random, host: &mut Host, whole: &Book, met: &mut Met) -> Call {
    let n = random.range(0, whole.count() as i64 + 1);
    if !MODEL.is_sound(whole) {
        return if random.once_in(2) { Call::Debtor(n) } else { Call::Balance(n) };
    }
    let event = host.single(random, whole);
    let mut odd = |random: &mut Random, fit: usize| {
        if !random.once_in(3) {
            return fit;
        }
        met.answer_tables += 1;
        random.pick(&[0, 1, ANSWER_WORDS - 1, ANSWER_WORDS, ANSWER_WORDS + 1, fit.max(1) - 1, fit + 1])
    };
    match random.below(22) {
        0..=2 => Call::Balance(n),
        3..=4 => Call::TopUpDue(n),
        5..=6 => Call::Debtor(asked(random, whole)),
        7 => opening(random),
        8..=12 => {
            let count = if random.once_in(50) { MOST_EVENTS + 1 } else { random.index(4) };
            let events = vec![event; count];
            Call::Batch { answers: odd(random, ANSWER_WORDS * count), events }
        }
        _ => {
            let mut words = event.to_vec();
            if random.once_in(12) {
                words.resize(random.index(EVENT_WORDS + 3), 0);
            }
            Call::Event { answer: odd(random, ANSWER_WORDS), words }
        }
    }
}

/// Damages a book once and makes a call on it.
pub fn run(random: &mut Random, host: &mut Host, whole: &Book, met: &mut Met) -> Result<(), Failure> {
    let mut damaged = whole.clone();
    if random.once_in(8) {
        met.lengths += 1;
        if random.once_in(4) {
            change_holidays(random, &mut damaged);
        }
        resize(random, &mut damaged);
    } else if !random.once_in(12) {
        damage(random, &mut damaged);
    }
    met.books += 1;
    let sound = MODEL.is_sound(&damaged);
    met.sound += sound as u64;
    met.reserves_out += unsound_by_reserve(&damaged, |a| !(0..=1).contains(&a[ACCOUNT_RESERVE])) as u64;
    met.reserves_alone += unsound_by_reserve(&damaged, |a| a[ACCOUNT_TOPUP] == 0 && a[ACCOUNT_RESERVE] == 1) as u64;
    met.reserves_sound += (sound && differs(&damaged, whole, ACCOUNT_RESERVE)) as u64;
    met.successors_sound += (sound && differs(&damaged, whole, ACCOUNT_SUCCESSOR)) as u64;
    if let Some(fault) = unsound_by_successor(&damaged) {
        met.successors[fault] += 1;
    }
    met.moved_sound += (sound && moved(&damaged, whole)) as u64;
    let lent = damaged.holidays != whole.holidays && random.once_in(3);
    let call = if lent { opening(random) } else { call(random, host, whole, met) };
    met.holidays.note(&damaged, whole, sound, &call);
    met.debtors[!sound as usize] += matches!(call, Call::Debtor(_)) as u64;
    match Pair::new(damaged.clone()).call(&call) {
        Ok(_) => Ok(()),
        Err(difference) => Err(Failure { whole: whole.clone(), damaged, call, difference }),
    }
}

impl Failure {
    /// As few damaged words as still show the difference.
    pub fn shortest(mut self) -> Failure {
        let tables: [fn(&mut Book) -> &mut Table; 4] =
            [|t| &mut t.header, |t| &mut t.accounts, |t| &mut t.journal, |t| &mut t.holidays];
        for table in tables {
            let whole = table(&mut self.whole).clone();
            for i in 0..table(&mut self.damaged).len().min(whole.len()) {
                let mut less = self.damaged.clone();
                table(&mut less)[i] = whole[i];
                if less != self.damaged {
                    if let Err(difference) = Pair::new(less.clone()).call(&self.call) {
                        self.difference = difference;
                        self.damaged = less;
                    }
                }
            }
        }
        self
    }

    pub fn print(&self) {
        let t = &self.damaged;
        println!("header of {} words: {}", t.header.len(), line(&t.header));
        println!("accounts of {} words, those not all 0:", t.accounts.len());
        print_parts(&t.accounts, ACCOUNT_WORDS);
        println!("journal of {} words, rows not all 0:", t.journal.len());
        print_parts(&t.journal, ROW_WORDS);
        println!("{} holidays: {}", t.holidays.len(), line(&t.holidays));
        println!("call: {}\n{}", self.call, self.difference);
    }
}

fn print_parts(words: &[i64], width: usize) {
    for (i, part) in words.chunks(width).enumerate().filter(|(_, p)| p.iter().any(|w| *w != 0)) {
        println!("  {}: {}", i + 1, line(part));
    }
}
