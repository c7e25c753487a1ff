//! Random inputs of the listing: openings, events as a host might send them, and bad lines of every kind.
use calls::random::Random;
use calls::words::*;
use calls::Event;

const NAMES: [&[u8]; 2] = [b"day,len,f2,f3,f4,r1t,r1p,r2t,r2p,r3t,r3p\n", b"kind,account,a,b,c,d,e,f,g\n"];

pub const SCHEDULE: [i64; SCHEDULE_WORDS] = [1, 30, 500, 2500, 3000, 250, 500, 600, 900, 1200, 1600];

const RATES: usize = LIST_WORDS - LIST_RATES; // of a rate list

/// Numbers that a line may hold, or nearly.
const ODD: [&[u8]; 16] = [
    b"-0",
    b"007",
    b"0000000000000000000",
    b"00000000000000000000",
    b"-0000000000000000001",
    b"9223372036854775807",
    b"9223372036854775808",
    b"-9223372036854775808",
    b"-9223372036854775809",
    b"99999999999999999999",
    b"",
    b"-",
    b"--1",
    b"+1",
    b" 1",
    b"1e3",
];

pub fn put_line(input: &mut Vec<u8>, numbers: &[i64]) {
    let fields: Vec<String> = numbers.iter().map(i64::to_string).collect();
    input.extend_from_slice(fields.join(",").as_bytes());
    input.push(b'\n');
}

/// Lines 1 to 3.
pub fn opening(values: &[i64]) -> Vec<u8> {
    let mut input = NAMES[0].to_vec();
    put_line(&mut input, values);
    input.extend_from_slice(NAMES[1]);
    input
}

/// An event for a book of 64 accounts, a few of them busy.
pub fn event(random: &mut Random) -> Event {
    let account = random.pick(&[1, 2, 3, 4, 7, 63, 64]);
    let row = random.range(1, 60);
    match random.below(16) {
        0 | 1 => calls::event(EVENT_OPEN, account, &[random.pick(&[0, 500]), random.pick(&[0, 1000])]),
        2..=5 => {
            let back = random.pick(&[0, 0, 3, 60, 61]);
            let (passage, day) = (random.range(1, 99_999), random.range(1, 40) - back);
            let (axles, height) = (random.range(1, 6), random.range(20, 120));
            calls::event(EVENT_TOLL, account, &[passage, day, axles, height, random.range(MODE_TAG, MODE_PLATE)])
        }
        6 | 7 => {
            let (amount, method) = (random.range(1, 5000), random.range(METHOD_CARD, METHOD_CHECK));
            calls::event(EVENT_PAYMENT, account, &[amount, method])
        }
        8 => calls::event(EVENT_RETURNED_CHECK, account, &[row, random.range(0, 900)]),
        9 => calls::event(EVENT_DISPUTE, account, &[row]),
        10 => calls::event(EVENT_DECISION, account, &[row, random.below(2)]),
        11 => calls::event(EVENT_TOPUP_RESULT, account, &[0, random.below(2)]),
        12 if random.once_in(8) => calls::event(EVENT_CLOSE_REQUEST, account, &[]),
        13 if random.once_in(3) => {
            let mut words = vec![random.pick(&[1, 2, 40, 41, 36_400, DAYS]) + random.range(-1, 30)];
            words.extend((0..RATES).map(|_| random.pick(&[1, 90, 250, 777, 1_000_000])));
            if random.once_in(6) {
                words[random.index(LIST_WORDS)] = random.pick(&[0, 1_000_001]);
            }
            calls::event(EVENT_RATE_LIST, 0, &words)
        }
        14 => calls::event(EVENT_RESERVE, account, &[random.pick(&[0, 1, 1, 0, 1, 1, 0, 2])]),
        15 if random.once_in(2) => {
            let successor = random.pick(&[1, 2, 3, 4, 7, 63, 64, 0, 65]);
            calls::event(EVENT_SUCCESSOR, account, &[successor, random.pick(&[0, 0, 0, 0, 0, 0, 0, 1])])
        }
        _ => calls::event(EVENT_TICK, 0, &[]),
    }
}

/// An input that is good, or has one damage.
pub fn input(random: &mut Random) -> Vec<u8> {
    let mut values = SCHEDULE;
    values[0] = random.pick(&[1, 1, 40, 36_400, DAYS]);
    values[1] = random.pick(&[1, 3, 30, 365]);
    let mut input = opening(&values);
    for _ in 0..random.pick(&[0, 1, 5, 50, 400, 1500]) {
        put_line(&mut input, &event(random));
    }
    if random.once_in(2) {
        damage(random, &mut input);
    }
    if random.once_in(3) && input.last() == Some(&b'\n') {
        input.pop();
    }
    input
}

/// One field, byte or line of the input becomes another.
fn damage(random: &mut Random, input: &mut Vec<u8>) {
    let at = random.index(input.len());
    match random.below(7) {
        0 | 1 => {
            let from = input[..at].iter().rposition(|b| *b == b',' || *b == b'\n').map_or(0, |i| i + 1);
            let to = input[at..].iter().position(|b| *b == b',' || *b == b'\n').map_or(input.len(), |i| at + i);
            input.splice(from..to, random.pick(&ODD).iter().copied());
        }
        2 => drop(input.splice(at..at, [random.pick(b"\n,-+0a \t\r\0\xff")])),
        3 => input[at] = random.pick(b"\n,-+9a \r\0\xc3"),
        4 => drop(input.remove(at)),
        5 => input.truncate(at),
        _ => {
            let long = random.pick(&[230, 231, 300, 65_535, 65_536, 70_000]);
            drop(input.splice(at..at, vec![b'0'; long]));
        }
    }
}
