//! Lists of calls from an opening, made while they run; what they met; and the shortest failing part of one.
use crate::debtors;
use crate::generate::{
    account_words, is_held, is_low_through_held, is_reopened, Host, Opening, CLOSING_DAYS, LAST_STAGE,
};
use crate::pair::{Call, Pair};
use crate::successors;
use calls::random::Random;
use calls::words::*;
use calls::{Book, Event, Table, EVENT_A, EVENT_ACCOUNT, EVENT_B, EVENT_KIND, MODEL};
use std::time::{Duration, Instant};

pub const KINDS: usize = EVENT_SUCCESSOR as usize + 1; // of events, with 0
pub const NUMBERS: usize = SUCCESSOR as usize + 1; // that an event may be answered by, and HOLIDAYS, which it is not

/// What the lists met: a comparison that met too little shows little.
#[derive(Default)]
pub struct Met {
    pub lists: u64,
    pub events: u64,
    pub answers: [[u64; NUMBERS]; KINDS], // by the event's kind (0: no kind), then by number
    pub raised: u64,
    pub top_stage: u64,
    pub removed: u64,
    pub holds_ended: u64,
    pub closed: u64,
    pub refunds: u64,
    pub reopened: u64,
    pub full: u64,
    pub largest: u64,     // rows used in the last book of a list of large ones
    pub lists_over: u64,  // rate lists refused as the ninth
    pub lists_early: u64, // and for their first day
    pub tolls: Tolls,
    pub held_results: [u64; 2], // top-ups declined, paid: results on accounts low only through held debts
    pub reserves: Reserves,
    pub settlements: Settlements,
    pub closings: Closings,
    pub debtors: debtors::Met,
    pub successors: successors::Met,
}

/// Tolls accepted, by the rate list of their passage day.
#[derive(Default)]
pub struct Tolls {
    pub under_later: u64,  // in force is not the first list
    pub under_eighth: u64, // but the last that a book can have
    pub at_first_day: u64, // of a later list
    pub at_eve: u64,       // the day before it
    pub under_old: u64,    // today another list is in force
    pub before_all: u64,   // no list has begun
}

impl Tolls {
    fn note(&mut self, book: &Book, passage_day: i64) {
        let days = book.first_days();
        let begun = |day: i64| days.iter().filter(|first| **first <= day).count();
        let lists = begun(passage_day);
        self.under_later += (lists > 1) as u64;
        self.under_eighth += (lists == MOST_LISTS) as u64;
        self.at_first_day += days[1..].contains(&passage_day) as u64;
        self.at_eve += days[1..].contains(&(passage_day + 1)) as u64;
        self.under_old += (lists.max(1) < begun(book.day())) as u64;
        self.before_all += (lists == 0) as u64;
    }
}

/// Days on which no account closes.
pub const SATURDAY: usize = 0;
pub const SUNDAY: usize = 1;
pub const HOLIDAY: usize = 2; // on neither
pub const BOTH: usize = 3;

/// Of a day and a book's holidays; none for a business day.
fn rest(day: i64, holidays: &[i64]) -> Option<usize> {
    match (day % 7, holidays.contains(&day)) {
        (1 | 2, true) => Some(BOTH),
        (1, false) => Some(SATURDAY),
        (2, false) => Some(SUNDAY),
        (_, true) => Some(HOLIDAY),
        (_, false) => None,
    }
}

/// Pending accounts that may close after a tick, but for the day.
#[derive(Default)]
pub struct Closings {
    pub waits: [u64; 4],   // left pending, by the day
    pub without_room: u64, // with money to refund and no free row
    pub late: u64,         // closed after days on which none could
    pub at_once: u64,      // on the 15th day, a business day
}

impl Closings {
    fn note(&mut self, before: &Book, after: &Book) {
        let today = after.day();
        let (day, holidays) = (rest(today, &after.holidays), &after.holidays);
        for (n, x) in (1..).zip(after.all_accounts()) {
            let due = x[ACCOUNT_REQUEST_DAY] + CLOSING_DAYS;
            if before.state(n) != STATE_PENDING || today < due {
                continue;
            }
            match day {
                Some(day) if !owes(after, n) => {
                    self.waits[day] += 1;
                    let full = after.rows_used() == after.room();
                    self.without_room += (full && MODEL.balance(after, n).1 > 0) as u64;
                }
                None if x[ACCOUNT_STATE] == STATE_CLOSED => {
                    self.at_once += (today == due) as u64;
                    self.late += (today > due && (due..today).all(|d| rest(d, holidays).is_some())) as u64;
                }
                _ => {}
            }
        }
    }
}

/// Whether an account has an unsettled debit.
fn owes(book: &Book, n: i64) -> bool {
    let debit = |r: &[i64]| !matches!(r[ROW_KIND], KIND_PAYMENT | KIND_CREDIT);
    book.used_rows().any(|r| r[ROW_ACCOUNT] == n && debit(r) && r[ROW_SETTLED] < r[ROW_AMOUNT])
}

pub const DECLINES: usize = 3; // how many an account may have, 0 among them

/// Events 11, to remove and to add, and results, declined and paid, by the account before them.
#[derive(Default)]
pub struct Reserves {
    pub changed: [[u64; DECLINES]; 2], // removed, added: by the declines
    pub pending: [u64; 2],             // of them on pending accounts but those closed once
    pub reopened: [u64; 2],            // and on these
    pub closed: [u64; 2],              // refused on a closed account with a top-up
    pub untimely: [u64; 2],            // without a top-up
    pub refused: [u64; 2],             // as none is there, as one is
    pub results: [[u64; DECLINES]; 2], // declined, paid, with a reserve: by the declines
    pub alone: [[u64; DECLINES]; 2],   // without one
}

impl Reserves {
    fn note(&mut self, before: &Book, event: &Event, number: i64) {
        let (n, adds) = (event[EVENT_ACCOUNT], event[EVENT_A] as usize);
        let x = account_words(before, n).expect("a used account");
        match number {
            POSTED => {
                self.changed[adds][x[ACCOUNT_DECLINES] as usize] += 1;
                self.reopened[adds] += is_reopened(before, n) as u64;
                self.pending[adds] += (x[ACCOUNT_STATE] == STATE_PENDING && !is_reopened(before, n)) as u64;
            }
            CLOSED => self.closed[adds] += (x[ACCOUNT_TOPUP] > 0) as u64,
            UNTIMELY => self.untimely[adds] += 1,
            _ => self.refused[adds] += 1,
        }
    }

    fn note_result(&mut self, before: &Book, event: &Event) {
        let x = account_words(before, event[EVENT_ACCOUNT]).expect("a used account");
        let of = if x[ACCOUNT_RESERVE] == 1 { &mut self.results } else { &mut self.alone };
        of[event[EVENT_B] as usize][x[ACCOUNT_DECLINES] as usize] += 1;
    }
}

/// Settlements of single accounts, by the event's kind.
#[derive(Default)]
pub struct Settlements {
    pub past: [u64; KINDS],   // paid a toll and left an older fee or reversal owed
    pub on: [u64; KINDS],     // paid tolls, then fees or reversals
    pub beside: [u64; KINDS], // left a fee paid in part before a toll that is owed; of a tick counted once
}

/// What is met of one account's debts, row by row.
#[derive(Clone, Default)]
struct Debts {
    older: bool, // a fee or reversal is owed
    part: bool,  // a fee is paid in part
    tolls: bool, // a toll was paid
    others: bool,
    past: bool,
    beside: bool,
}

impl Debts {
    /// Notes a row that is no held one, with what the settlement paid of it.
    fn note(&mut self, r: &[i64], paid: i64) {
        let owed = r[ROW_SETTLED] < r[ROW_AMOUNT];
        match r[ROW_KIND] {
            KIND_TOLL => {
                self.tolls |= paid > 0;
                self.past |= paid > 0 && self.older;
                self.beside |= owed && self.part;
            }
            KIND_FEE | KIND_REVERSAL => {
                self.others |= paid > 0;
                self.older |= owed;
                self.part |= owed && r[ROW_KIND] == KIND_FEE && r[ROW_SETTLED] > 0;
            }
            _ => {}
        }
    }
}

impl Settlements {
    fn note(&mut self, before: &Book, event: &Event, after: &Book) {
        let (kind, credited) = (event[EVENT_KIND], upheld(event));
        let rows: Vec<&[i64]> = after.used_rows().collect();
        let old = before.used_rows().map(|r| r[ROW_SETTLED]).chain(std::iter::repeat(0));
        let mut debts = vec![Debts::default(); after.count() + 1];
        for ((number, r), settled) in (1..).zip(&rows).zip(old) {
            let n = r[ROW_ACCOUNT];
            if (kind == EVENT_TICK || n == event[EVENT_ACCOUNT]) && !is_held(&rows, r) {
                let of_credit = number == credited || (r[ROW_KIND] == KIND_FEE && r[ROW_REFERENCE] == credited);
                debts[n as usize].note(r, if of_credit { 0 } else { r[ROW_SETTLED] - settled });
            }
        }
        let count = |test: fn(&Debts) -> bool| debts.iter().filter(|d| test(d)).count() as u64;
        self.past[kind as usize] += count(|d| d.past);
        self.on[kind as usize] += count(|d| d.tolls && d.others);
        self.beside[kind as usize] += count(|d| d.beside).min(1);
    }
}

/// The toll row that an accepted event upholds, 0 where it upholds none: its credit pays it and its fees.
fn upheld(event: &Event) -> i64 {
    if event[EVENT_KIND] == EVENT_DECISION && event[EVENT_B] == 1 {
        event[EVENT_A]
    } else {
        0
    }
}

impl Met {
    pub fn accepted(&self, kind: usize) -> u64 {
        self.answers[kind][POSTED as usize]
    }

    pub fn tried(&self, kind: usize) -> u64 {
        self.answers[kind].iter().sum()
    }

    /// Counts an event by what it does to the model's book.
    fn note(&mut self, before: &Book, event: &Event, answer: &[i64], after: &Book) {
        let kind = if (EVENT_OPEN..=EVENT_SUCCESSOR).contains(&event[EVENT_KIND]) { event[EVENT_KIND] } else { 0 };
        let number = answer[ANSWER_NUMBER];
        self.events += 1;
        self.answers[kind as usize][number as usize] += 1;
        self.raised += answer[ANSWER_RAISED] as u64;
        self.removed += answer[ANSWER_REMOVED] as u64;
        self.full += (after.rows_used() == after.room()) as u64;
        if number == POSTED {
            self.settlements.note(before, event, after);
        }
        match (kind, number) {
            (EVENT_TICK, POSTED) => self.note_tick(before, after),
            (EVENT_RETURNED_CHECK, POSTED) => {
                self.reopened += became(before, after, STATE_CLOSED, STATE_PENDING);
                self.successors.note_return(before, event, after);
            }
            (EVENT_TOLL, POSTED | CLOSED | UNCLASSED | MISDATED | DUPLICATE | FULL) => {
                if number == POSTED {
                    self.tolls.note(before, event[EVENT_B]);
                }
                self.successors.note_toll(before, event, number, after);
            }
            (EVENT_SUCCESSOR, POSTED | SUCCESSOR) => self.successors.note(before, event, number, after),
            (EVENT_TOPUP_RESULT, POSTED) => self.reserves.note_result(before, event),
            (EVENT_RESERVE, POSTED | CLOSED | UNTIMELY | RESERVE) => self.reserves.note(before, event, number),
            (EVENT_TOPUP_RESULT, UNTIMELY) if is_low_through_held(before, event[EVENT_ACCOUNT]) => {
                self.held_results[event[EVENT_B] as usize] += 1;
            }
            (EVENT_RATE_LIST, LIST) if before.first_days().len() == MOST_LISTS => self.lists_over += 1,
            (EVENT_RATE_LIST, LIST) => self.lists_early += 1,
            _ => {}
        }
    }

    fn note_tick(&mut self, before: &Book, after: &Book) {
        for (old, new) in before.used_rows().zip(after.used_rows()) {
            self.holds_ended += (old[ROW_DISPUTE] == DISPUTE_HELD && new[ROW_DISPUTE] == DISPUTE_ENDED) as u64;
            self.top_stage +=
                (old[ROW_KIND] == KIND_TOLL && old[ROW_MARK] < new[ROW_MARK] && new[ROW_MARK] == LAST_STAGE) as u64;
        }
        self.refunds +=
            after.used_rows().skip(before.rows_used()).filter(|r| r[ROW_KIND] == KIND_REFUND).count() as u64;
        self.closed += became(before, after, STATE_PENDING, STATE_CLOSED);
        self.closings.note(before, after);
    }
}

/// How many accounts went from one state to another.
fn became(before: &Book, after: &Book, old: i64, new: i64) -> u64 {
    let accounts = before.all_accounts().zip(after.all_accounts());
    accounts.filter(|(x, y)| x[ACCOUNT_STATE] == old && y[ACCOUNT_STATE] == new).count() as u64
}

/// A list that the library answered otherwise than the model.
pub struct Failure {
    pub opening: Opening,
    pub calls: Vec<Call>,
    pub difference: String,
}

/// Makes the next call for a book, and notes what its events do.
fn next_call(random: &mut Random, host: &mut Host, pair: &Pair, longest: i64, met: &mut Met) -> Call {
    let n = random.range(0, pair.model.count() as i64 + 1);
    match random.below(100) {
        0..=3 => return Call::Balance(n),
        4..=7 => return Call::TopUpDue(n),
        _ => {}
    }
    if !MODEL.is_sound(&pair.model) {
        return Call::Balance(n);
    }
    if random.once_in(2) {
        let n = debtors::asked(random, &pair.model);
        met.debtors.note(&pair.model, n, MODEL.debtor(&pair.model, n));
        return Call::Debtor(n);
    }
    let (mut before, mut book) = (pair.model.clone(), pair.model.clone());
    let single = random.below(100) < 55;
    let count = if single { 1 } else { random.range(0, longest) };
    let mut events = Vec::new();
    for _ in 0..count {
        let event = host.event(random, &book);
        before.copy_words(&book);
        let mut answer = Table::answers(ANSWER_WORDS);
        MODEL.event(&mut book, &event, &mut answer);
        met.note(&before, &event, &answer, &book);
        events.push(event);
    }
    if single {
        let mut words = events[0].to_vec();
        if random.once_in(60) {
            words.resize(random.index(EVENT_WORDS + 3), 0);
        }
        let answer = if random.once_in(20) { random.index(9) } else { ANSWER_WORDS };
        return Call::Event { words, answer };
    }
    let spare = if random.once_in(10) { random.range(-6, 6) } else { 0 };
    Call::Batch { answers: ((ANSWER_WORDS * events.len()) as i64 + spare).max(0) as usize, events }
}

/// How a list is made: how many events at least, how many in a batch at most, and how many rows are filled first.
pub struct Plan {
    pub events: u64,
    pub longest: i64,
    pub fill: usize,
}

/// Opens a book and makes calls.
pub fn run(random: &mut Random, opening: Opening, plan: &Plan, met: &mut Met) -> Result<Pair, Failure> {
    let mut pair = Pair::new(opening.book());
    let mut calls = vec![Call::Open(opening.schedule.clone())];
    let mut host = Host::new(random, plan.fill);
    let end = met.events + plan.events;
    met.lists += 1;
    if let Err(difference) = pair.call(&calls[0]) {
        return Err(Failure { opening, calls, difference });
    }
    // a long batch that is refused for its answer table leaves the book as it was
    while met.events < end || pair.model.rows_used() < plan.fill {
        let call = next_call(random, &mut host, &pair, plan.longest, met);
        calls.push(call);
        if let Err(difference) = pair.call(&calls[calls.len() - 1]) {
            return Err(Failure { opening, calls, difference });
        }
    }
    Ok(pair)
}

/// The calls up to the first that differs, and how it does.
fn fails(opening: &Opening, calls: &[Call]) -> Option<(usize, String)> {
    let mut pair = Pair::new(opening.book());
    calls.iter().enumerate().find_map(|(i, c)| pair.call(c).err().map(|difference| (i + 1, difference)))
}

/// Each batch as its events, one by one.
fn singles(calls: &[Call]) -> Vec<Call> {
    let one = |e: &Event| Call::Event { words: e.to_vec(), answer: ANSWER_WORDS };
    calls
        .iter()
        .flat_map(|c| match c {
            Call::Batch { events, answers }
                if *answers >= ANSWER_WORDS * events.len() && events.len() <= MOST_EVENTS =>
            {
                events.iter().map(one).collect()
            }
            other => vec![other.clone()],
        })
        .collect()
}

fn names_row(kind: i64) -> bool {
    matches!(kind, EVENT_RETURNED_CHECK | EVENT_DISPUTE | EVENT_DECISION)
}

/// A list without some of its calls. Later events that name a row by number follow it to its new place.
fn without(opening: &Opening, calls: &[Call], from: usize, to: usize) -> Vec<Call> {
    let mut book = opening.book();
    let mut left = calls[..from].to_vec();
    let mut moved: Vec<(i64, i64)> = Vec::new(); // rows from a number on move down by so many
    for (i, call) in calls.iter().enumerate() {
        let before = if i == 0 { 0 } else { book.header[HEADER_ROWS_USED] };
        call.make_by_model(&mut book);
        if (from..to).contains(&i) {
            moved.push((before + 1, book.header[HEADER_ROWS_USED] - before));
        } else if i >= to {
            let mut follows = call.clone();
            match &mut follows {
                Call::Event { words, .. } if words.len() == EVENT_WORDS && names_row(words[EVENT_KIND]) => {
                    let row = words[EVENT_A];
                    words[EVENT_A] -= moved.iter().filter(|m| row >= m.0 + m.1).map(|m| m.1).sum::<i64>();
                }
                _ => {}
            }
            left.push(follows);
        }
    }
    left
}

impl Failure {
    /// The shortest failing list found within some seconds, by leaving out calls.
    pub fn shortest(mut self) -> Failure {
        let end = Instant::now() + Duration::from_secs(20);
        let flat = singles(&self.calls);
        if let Some((length, difference)) = fails(&self.opening, &flat) {
            self.calls = flat[..length].to_vec();
            self.difference = difference;
        }
        let mut part = (self.calls.len() / 2).max(1);
        loop {
            let mut from = 1; // the opening stays
            let mut shorter = false;
            while from < self.calls.len() && Instant::now() < end {
                let to = (from + part).min(self.calls.len());
                let follow = without(&self.opening, &self.calls, from, to);
                let plain: Vec<Call> = self.calls[..from].iter().chain(&self.calls[to..]).cloned().collect();
                let found = [follow, plain].into_iter().find_map(|l| fails(&self.opening, &l).map(|f| (l, f)));
                match found {
                    Some((list, (length, difference))) => {
                        self.calls = list[..length].to_vec();
                        self.difference = difference;
                        shorter = true;
                    }
                    None => from = to,
                }
            }
            if Instant::now() >= end || (part == 1 && !shorter) {
                self.shorten_batches(end);
                return self;
            }
            part = if shorter { part } else { (part / 2).max(1) };
        }
    }

    /// Leaves out events of batches that fail as batches alone.
    fn shorten_batches(&mut self, end: Instant) {
        for i in 0..self.calls.len() {
            let mut event = 0;
            while let Call::Batch { events, answers } = &self.calls[i] {
                if event == events.len() || *answers < ANSWER_WORDS || Instant::now() >= end {
                    break;
                }
                let mut fewer = events.clone();
                fewer.remove(event);
                let mut calls = self.calls.clone();
                calls[i] = Call::Batch { events: fewer, answers: answers - ANSWER_WORDS };
                match fails(&self.opening, &calls) {
                    Some((length, difference)) if length == calls.len() => {
                        self.calls = calls;
                        self.difference = difference;
                    }
                    _ => event += 1,
                }
            }
        }
    }
}
