//! The library against the model: lists of random events from many openings, then damaged books. Prints what was met
//! and its seed; a difference prints the shortest list found and fails.
//!
//!     compare [SEED]
mod damage;
mod debtors;
mod generate;
mod lists;
mod pair;
mod successors;

use calls::random::Random;
use calls::words::{CEILING, DUPLICATE, FULL, HOLIDAYS, MISDATED, UNCLASSED, UNSOUND};
use calls::words::{EVENT_DECISION, EVENT_PAYMENT, EVENT_TICK, EVENT_TOPUP_RESULT};
use calls::words::{MOST_ACCOUNTS, MOST_EVENTS, MOST_HOLIDAYS, MOST_ROWS};
use calls::words::{STATE_CLOSED, STATE_OPEN, STATE_PENDING};
use damage::{ITSELF, LONG, ORDER, OUT, OUTSIDE, UNUSED};
use generate::{Host, Opening};
use lists::{Plan, BOTH, DECLINES, HOLIDAY, KINDS, NUMBERS, SATURDAY, SUNDAY};
use pair::{line, Pair};

const LISTS: u64 = 480; // on small books
const LARGE_LISTS: u64 = 3;
const MORE_LISTS: u64 = 960; // at most, on small books too, where a seed has met too little by then
const EVENTS: u64 = 200; // in a list, at least
const DAMAGES: u64 = 100; // of a list's last book
const TOLL_REFUSALS: [i64; 3] = [UNCLASSED, MISDATED, DUPLICATE]; // that don't depend on the account

fn stop(seed: u64, number: u64, failure: lists::Failure) -> ! {
    let long = failure.calls.len();
    let f = failure.shortest();
    println!("seed {seed}, list {number}: differs at call {long}. The shortest list found:");
    println!("  {} accounts, {} rows, holidays {}", f.opening.accounts, f.opening.rows, line(&f.opening.holidays));
    f.calls.iter().for_each(|c| println!("  {c}"));
    println!("the last call: {}", f.difference);
    std::process::exit(1);
}

fn stop_damaged(seed: u64, number: u64, damage: u64, failure: damage::Failure) -> ! {
    println!("seed {seed}, damage {damage} of list {number} differs:");
    failure.shortest().print();
    std::process::exit(1);
}

/// A list on a small book, which mostly is soon full; its last book is then damaged.
fn small_book(seed: u64, number: u64, met: &mut lists::Met, damaged: &mut damage::Met) {
    let random = &mut Random::new(seed, number);
    let accounts = random.pick(&[1, 2, 3, 3, 5, 9]);
    let rows = random.pick(&[1, 3, 12, 40, 90, 160, 240, 240]);
    let opening = Opening::new(random, accounts, rows);
    let plan = Plan { events: EVENTS, longest: 30, fill: 0 };
    let pair = lists::run(random, opening, &plan, met).unwrap_or_else(|f| stop(seed, number, f));
    damage_book(seed, number, DAMAGES, random, &pair, damaged);
}

/// More lists on small books until all is met as often as is asked: what is rare comes sooner with one seed than with another.
/// Gives how many.
fn more_small_books(seed: u64, met: &mut lists::Met, damaged: &mut damage::Met) -> u64 {
    for more in 0..MORE_LISTS {
        if enough(met, damaged).is_ok() {
            return more;
        }
        small_book(seed, LISTS + LARGE_LISTS + more, met, damaged);
    }
    MORE_LISTS
}

fn damage_book(seed: u64, number: u64, times: u64, random: &mut Random, pair: &Pair, met: &mut damage::Met) {
    let mut host = Host::new(random, 0);
    for i in 0..times {
        let one = &mut Random::new(seed, (number + 1) << 32 | i);
        damage::run(one, &mut host, &pair.model, met).unwrap_or_else(|f| stop_damaged(seed, number, i, f));
    }
}

/// Books of the largest sizes, few of them: each event of a list is a call on the whole book.
fn large_books(seed: u64, met: &mut lists::Met, damaged: &mut damage::Met) {
    let plans: [_; LARGE_LISTS as usize] = [
        (MOST_ACCOUNTS, MOST_ROWS, Plan { events: 6_000, longest: MOST_EVENTS as i64, fill: 0 }),
        (4, MOST_ROWS, Plan { events: 12_000, longest: MOST_EVENTS as i64, fill: MOST_ROWS }),
        (MOST_ACCOUNTS, 700, Plan { events: 1200, longest: 400, fill: 600 }),
    ];
    for (number, (accounts, rows, plan)) in (LISTS..).zip(plans) {
        let random = &mut Random::new(seed, number);
        let opening = Opening::new(random, accounts, rows);
        let pair = lists::run(random, opening, &plan, met).unwrap_or_else(|f| stop(seed, number, f));
        damage_book(seed, number, 25, random, &pair, damaged);
        met.largest = met.largest.max(pair.model.rows_used() as u64);
    }
}

/// Fails where the events or the damaged books met too little to show anything.
fn enough(met: &lists::Met, damaged: &damage::Met) -> Result<(), String> {
    let accepted: u64 = (0..KINDS).map(|k| met.accepted(k)).sum();
    let (r, s, h, d, f) = (&met.reserves, &met.settlements, &damaged.holidays, &met.debtors, &met.successors);
    let by = |of: &[u64; KINDS], event: i64| of[event as usize];
    let by_others = |of: &[u64; KINDS]| of.iter().sum::<u64>() - by(of, EVENT_TICK);
    let both = |of: [u64; 2]| of[0].min(of[1]);
    let at = |of: &[u64], number: i64| of[number as usize];
    let least = |of: &[u64], numbers: &[i64]| numbers.iter().map(|n| of[*n as usize]).min().unwrap_or(0);
    let after = |of: &[[u64; DECLINES]; 2], declines: usize| both([of[0][declines], of[1][declines]]);
    let wants = [
        ("events", met.events, 20_000),
        ("accepted events in a hundred", 100 * accepted / met.events, 40),
        ("tolls at stage 4", met.top_stage, 100),
        ("holds ended by a tick", met.holds_ended, 100),
        ("accounts closed", met.closed, 100),
        ("refunds", met.refunds, 50),
        ("accounts left pending by a Saturday alone", met.closings.waits[SATURDAY], 50),
        ("accounts left pending by a Sunday alone", met.closings.waits[SUNDAY], 50),
        ("accounts left pending by a holiday alone", met.closings.waits[HOLIDAY], 50),
        ("accounts left pending by a holiday on a weekend", met.closings.waits[BOTH], 10),
        ("accounts with money left pending so and no free row", met.closings.without_room, 10),
        ("accounts closed after such days alone", met.closings.late, 50),
        ("accounts closed on their first day", met.closings.at_once, 30),
        ("closed accounts pending again", met.reopened, 10),
        ("top-ups removed", met.removed, 50),
        ("events that left a full journal", met.full, 500),
        ("rows in the largest journal", met.largest, MOST_ROWS as u64),
        ("ninth rate lists", met.lists_over, 20),
        ("rate lists not after the last", met.lists_early, 50),
        ("tolls under a later rate list", met.tolls.under_later, 1_000),
        ("tolls under an eighth rate list", met.tolls.under_eighth, 20),
        ("tolls on the first day of a rate list", met.tolls.at_first_day, 300),
        ("tolls on the day before it", met.tolls.at_eve, 300),
        ("tolls under a rate list older than today's", met.tolls.under_old, 300),
        ("tolls before all rate lists", met.tolls.before_all, 300),
        ("declined results on accounts low only through held debts", met.held_results[0], 60),
        ("paid results on accounts low only through held debts", met.held_results[1], 60),
        ("reserves removed or added before a decline", after(&r.changed, 0), 50),
        ("reserves removed or added after one decline", after(&r.changed, 1), 100),
        ("reserves removed or added after two declines", after(&r.changed, 2), 50),
        ("reserves removed or added on pending accounts", both(r.pending), 50),
        ("reserves removed or added on accounts closed once", both(r.reopened), 10),
        ("reserves refused on closed accounts", both(r.closed), 20),
        ("reserves refused without a top-up", both(r.untimely), 50),
        ("reserves refused that are there, or to be removed and not there", both(r.refused), 25),
        ("results beside a reserve before a decline", after(&r.results, 0), 20),
        ("results beside a reserve after one decline", after(&r.results, 1), 20),
        ("results of a reserve, declined or paid", after(&r.results, 2), 20),
        ("results after two declines without a reserve", after(&r.alone, 2), 10),
        ("payments to a toll past an older fee or reversal", by(&s.past, EVENT_PAYMENT), 200),
        ("credits to a toll past an older fee or reversal", by(&s.past, EVENT_DECISION), 5),
        ("top-ups to a toll past an older fee or reversal", by(&s.past, EVENT_TOPUP_RESULT), 5),
        ("tolls paid past an older fee or reversal within a tick", by(&s.past, EVENT_TICK), 8),
        ("events that pay fees or reversals after tolls", by_others(&s.on), 200),
        ("settlements within a tick that pay fees or reversals after tolls", by(&s.on, EVENT_TICK), 4),
        ("events that leave a fee paid in part before a toll that is owed", by_others(&s.beside), 200),
        ("ticks that leave a fee paid in part before a toll that is owed", by(&s.beside, EVENT_TICK), 200),
        ("questions on heavy debtors", d.heavy, 1_000),
        ("questions on accounts that are none", d.light, 2_000),
        ("heavy debtors known before the last row", d.early, 1_000),
        ("heavy debtors known at the last row", d.last, 200),
        ("heavy debtors known after rows of other accounts", d.others, 500),
        ("accounts that owe just 25,000", d.at_most, 30),
        ("accounts that owe 25,001", d.one_more, 30),
        ("accounts whose held debts would make them heavy debtors", d.held, 100),
        ("accounts whose reversals would make them heavy debtors", d.reversals, 80),
        ("heavy debtors by fees of returned checks", d.returns, 200),
        ("debtor questions on no account", d.unknown, 500),
        ("open accounts named as successors", at(&f.named, STATE_OPEN), 100),
        ("pending accounts named as successors", at(&f.named, STATE_PENDING), 100),
        ("closed accounts named as successors", at(&f.named, STATE_CLOSED), 50),
        ("successors named in place of others", f.replaced, 100),
        ("successors named in a full journal", f.in_full, 50),
        ("successors that lead back to the account", f.cycles, 20),
        ("successors refused for open accounts", at(&f.not_closed, STATE_OPEN), 50),
        ("successors refused for pending accounts", at(&f.not_closed, STATE_PENDING), 50),
        ("successors refused for accounts closed once", f.reopened, 10),
        ("accounts refused as their own successors", f.itself, 30),
        ("unused accounts refused as successors", f.unused, 8),
        ("successors 0 refused", f.none, 20),
        ("successors refused that no table has", f.outside, 30),
        ("tolls passed on to open accounts", at(&f.passed, STATE_OPEN), 100),
        ("tolls passed on to pending accounts", at(&f.passed, STATE_PENDING), 100),
        ("tolls passed on to accounts closed once", f.to_reopened, 50),
        ("tolls passed on and settled there", f.paid, 50),
        ("tolls passed on by accounts to which successors lead back", f.in_cycles, 8),
        ("tolls passed on to accounts whose successors take tolls", f.past_live, 4),
        ("tolls passed on by accounts closed twice", f.once_more, 20),
        ("tolls to be passed on and refused by 6, 7 or 8", least(&f.refused, &TOLL_REFUSALS), 30),
        ("tolls to be passed on and refused by 13", at(&f.refused, FULL), 100),
        ("tolls for closed accounts without a successor", f.without, 100),
        ("tolls for accounts whose successor is closed", f.closed, 80),
        ("and whose successor's successor takes tolls", f.chains, 20),
        ("tolls refused by 5 that meet 6, 7 or 8 too", least(&f.before, &TOLL_REFUSALS), 8),
        ("tolls taken by accounts closed once beside a successor that takes tolls", f.own, 30),
        ("returned checks on closed accounts with a successor", f.kept, 15),
        ("debtor questions on damaged books that are sound, or on unsound ones", both(damaged.debtors), 500),
        ("damaged books", damaged.books, 20_000),
        ("damaged books in a hundred that are sound", 100 * damaged.sound / damaged.books, 5),
        ("books unsound by a reserve out of its range alone", damaged.reserves_out, 300),
        ("books unsound by a reserve without a top-up alone", damaged.reserves_alone, 300),
        ("books sound with another reserve", damaged.reserves_sound, 100),
        ("books unsound by an account as its own successor alone", damaged.successors[ITSELF], 100),
        ("books unsound by an unused successor alone", damaged.successors[UNUSED], 100),
        ("books unsound by a successor that the table hasn't alone", damaged.successors[OUTSIDE], 100),
        ("books sound with another successor", damaged.successors_sound, 200),
        ("books sound with money moved from a toll to a fee or reversal, or back", damaged.moved_sound, 40),
        ("books unsound by too many holidays alone", h.unsound[LONG], 300),
        ("books unsound by a holiday out of its range alone", h.unsound[OUT], 300),
        ("books unsound by the order of holidays alone", h.unsound[ORDER], 300),
        ("books sound with other holidays", h.sound, 300),
        ("openings refused for too many holidays", h.refused[LONG], 50),
        ("openings refused for a holiday out of its range", h.refused[OUT], 50),
        ("openings refused for the order of holidays", h.refused[ORDER], 50),
        ("openings refused for lengths or schedule before holidays", both(h.beaten), 20),
        ("openings with as many holidays as fit", h.opened, 50),
        ("damaged lengths", damaged.lengths, 2_000),
        ("odd answer tables", damaged.answer_tables, 2_000),
    ];
    for (what, found, want) in wants {
        if found < want {
            return Err(format!("too few {what}: {found}, not {want}"));
        }
    }
    for kind in 1..KINDS {
        if met.accepted(kind) < 300 || 100 * met.accepted(kind) / met.tried(kind) < 40 {
            return Err(format!("event {kind}: accepted {} of {} times", met.accepted(kind), met.tried(kind)));
        }
    }
    let never = [UNSOUND, HOLIDAYS, CEILING].map(|n| n as usize); // by an event on a sound book
    let rare = |n: &usize| !never.contains(n) && met.answers.iter().map(|k| k[*n]).sum::<u64>() < 20;
    match (0..NUMBERS).find(rare) {
        Some(n) => Err(format!("answer {n} was met fewer than 20 times")),
        None => Ok(()),
    }
}

fn main() {
    let seed: u64 = std::env::args().nth(1).map_or(Ok(1), |s| s.parse()).expect("the seed is a number");
    println!("seed {seed}");
    let (mut met, mut damaged) = (lists::Met::default(), damage::Met::default());
    (0..LISTS).for_each(|number| small_book(seed, number, &mut met, &mut damaged));
    large_books(seed, &mut met, &mut damaged);
    let more = more_small_books(seed, &mut met, &mut damaged);
    let accepted: Vec<String> = (1..KINDS).map(|k| format!("{}/{}", met.accepted(k), met.tried(k))).collect();
    println!(
        "{} events from {} openings, {more} of them for what was met too seldom; events 1 to 12 accepted: {}",
        met.events,
        met.lists,
        accepted.join(" ")
    );
    println!(
        "{} tolls raised, {} holds ended, {} accounts closed; {} damaged books, {} of them sound",
        met.raised, met.holds_ended, met.closed, damaged.books, damaged.sound
    );
    println!(
        "tolls under a later rate list {}, on its first day {}, the day before {}, under an older list than today's {}",
        met.tolls.under_later, met.tolls.at_first_day, met.tolls.at_eve, met.tolls.under_old
    );
    println!(
        "results on accounts low only through held debts: {} declined, {} paid",
        met.held_results[0], met.held_results[1]
    );
    let c = &met.closings;
    println!(
        "accounts left pending by Saturdays, Sundays, holidays, holidays on these alone: {:?}, without a free row {}; closed \
         after such days {}, on the first day {}",
        c.waits, c.without_room, c.late, c.at_once
    );
    let r = &met.reserves;
    println!(
        "reserves removed, added, by declines {:?}; pending {:?}, closed once {:?}",
        r.changed, r.pending, r.reopened
    );
    println!("refused: closed {:?}, without a top-up {:?}, reserve {:?}", r.closed, r.untimely, r.refused);
    println!("results declined, paid, by declines: with a reserve {:?}, without {:?}", r.results, r.alone);
    let s = &met.settlements;
    println!("settlements that pay a toll past an older fee or reversal, by events 0 to 12: {:?}", s.past);
    println!("that go on to fees or reversals after tolls {:?}", s.on);
    println!("that leave a fee paid in part before a toll that is owed {:?}", s.beside);
    let d = &met.debtors;
    println!(
        "debtor questions: heavy {}, not {}, no account {}; known before the last row {}, at it {}, after rows of others {}",
        d.heavy, d.light, d.unknown, d.early, d.last, d.others
    );
    println!(
        "owing 25,000 {}, 25,001 {}; heavy but for held debts {}, but for reversals {}; heavy by fees of returned checks {}; on \
         damaged books, sound and unsound {:?}",
        d.at_most, d.one_more, d.held, d.reversals, d.returns, damaged.debtors
    );
    let f = &met.successors;
    println!(
        "successors named, by states {:?}: in place of others {}, in a full journal {}, leading back {}; refused for accounts not closed {:?}, closed once {}; \
         itself {}, unused {}, 0 {}, outside {}",
        f.named, f.replaced, f.in_full, f.cycles, f.not_closed, f.reopened, f.itself, f.unused, f.none, f.outside
    );
    println!(
        "tolls passed on, by states {:?}: to accounts closed once {}, settled there {}, by accounts led back to {}, closed twice {}, \
         to those whose successors take tolls {}; refused 6, 7, 8, 13 {:?}",
        f.passed, f.to_reopened, f.paid, f.in_cycles, f.once_more, f.past_live,
        [UNCLASSED, MISDATED, DUPLICATE, FULL].map(|n| f.refused[n as usize])
    );
    println!(
        "tolls refused 5 without a successor {}, with a closed one {}, of them before one that takes tolls {}; with 6, 7, 8 {:?}; taken by \
         accounts closed once {}, whose successors were kept {}",
        f.without, f.closed, f.chains, TOLL_REFUSALS.map(|n| f.before[n as usize]), f.own, f.kept
    );
    println!(
        "damaged books unsound by a successor alone: {:?} itself, unused, outside; sound with another {}",
        damaged.successors, damaged.successors_sound
    );
    println!(
        "damaged books unsound by a reserve alone: {} out of its range, {} without a top-up; sound with another {}, \
         with moved money {}",
        damaged.reserves_out, damaged.reserves_alone, damaged.reserves_sound, damaged.moved_sound
    );
    let h = &damaged.holidays;
    println!(
        "holidays too many, out of range, not rising: books unsound by them alone {:?}, sound with others {}; openings refused {:?}, \
         before them by 1 and 2 {:?}, opened with {MOST_HOLIDAYS} {}",
        h.unsound, h.sound, h.refused, h.beaten, h.opened
    );
    if let Err(why) = enough(&met, &damaged) {
        println!("{why}");
        std::process::exit(1);
    }
}
