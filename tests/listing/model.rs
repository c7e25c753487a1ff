//! The listing of documents 01 and 02, over the model's calls.
use calls::words::*;
use calls::{Book, Table, MODEL};

const ACCOUNTS: usize = 64;
const ROWS: usize = 512;
const NAMES: [&str; 2] = ["day,len,f2,f3,f4,r1t,r1p,r2t,r2p,r3t,r3p", "kind,account,a,b,c,d,e,f,g"];

fn numbers(line: &[u8], count: usize) -> Option<Vec<i64>> {
    let parts: Vec<&[u8]> = line.split(|c| *c == b',').collect();
    if parts.len() != count {
        return None;
    }
    parts
        .iter()
        .map(|p| {
            let digits = p.strip_prefix(b"-").unwrap_or(p);
            if digits.is_empty() || digits.len() > 19 || !digits.iter().all(u8::is_ascii_digit) {
                return None;
            }
            std::str::from_utf8(p).ok()?.parse::<i64>().ok()
        })
        .collect()
}

fn date(day: i64) -> String {
    let (mut y, mut left) = (2000, day);
    loop {
        let leap = y % 4 == 0 && (y % 100 != 0 || y % 400 == 0);
        let months = [31, if leap { 29 } else { 28 }, 31, 30, 31, 30, 31, 31, 30, 31, 30, 31];
        for (m, days) in months.iter().enumerate() {
            if left <= *days {
                return format!("{y:04}-{:02}-{left:02}", m + 1);
            }
            left -= days;
        }
        y += 1;
    }
}

/// What the program prints for an input.
pub fn listing(input: &[u8]) -> String {
    let mut lines: Vec<&[u8]> = input.split(|c| *c == b'\n').collect();
    if lines.last() == Some(&&b""[..]) {
        lines.pop();
    }
    let mut book = Book::new(ACCOUNTS, ROWS);
    for n in 0..3 {
        let good = match (n, lines.get(n)) {
            (0, Some(l)) => *l == NAMES[0].as_bytes(),
            (1, Some(l)) => numbers(l, SCHEDULE_WORDS).map_or(false, |w| MODEL.open(&mut book, &w) == POSTED),
            (2, Some(l)) => *l == NAMES[1].as_bytes(),
            _ => false,
        };
        if !good {
            return format!("bad line {}\n", n + 1);
        }
    }
    let mut out = String::from("event,answer,row,rows,raised,removed\n");
    for (i, l) in lines[3..].iter().enumerate() {
        let Some(e) = numbers(l, EVENT_WORDS) else {
            out += &format!("bad line {}\n", i + 4);
            return out;
        };
        let mut answer = Table::answers(ANSWER_WORDS);
        MODEL.event(&mut book, &e, &mut answer);
        let words: Vec<String> = answer.iter().map(i64::to_string).collect();
        out += &format!("{},{}\n", i + 1, words.join(","));
    }
    out += "row,account,kind,date,amount,settled\n";
    for (i, r) in book.used_rows().enumerate() {
        let (account, kind, date) = (r[ROW_ACCOUNT], r[ROW_KIND], date(r[ROW_DAY]));
        out += &format!("{},{account},{kind},{date},{},{}\n", i + 1, r[ROW_AMOUNT], r[ROW_SETTLED]);
    }
    out += "account,state,balance\n";
    for n in (1..=ACCOUNTS as i64).filter(|n| book.state(*n) != STATE_UNUSED) {
        out += &format!("{n},{},{}\n", book.state(n), MODEL.balance(&book, n).1);
    }
    out
}
