//! Stored lists of calls, each made on the model and on the library: what they give is what stands there. A call is one line, the
//! next begins with `=` and has what it gives; lines that begin with `#` are comments. A space parts numbers, ` | ` groups.
//!
//!     open A R H days | schedule    with tables of A accounts, R rows and H holidays: the number. At 0 they are the book
//!     event words                   the answer's five words
//!     batch SIZE | words | ..       into a table of SIZE words: the number, then each answer's five words
//!     balance N, topup_due N        the number and the value
//!     debtor N                      the number, heavy and the rows read
//!     tables                        no call: all words of header, accounts, used rows and holidays, a group each
//!     poke TABLE place word ..      no call: writes words, and the calls after it meet them
//!
//! Prints how many files and calls it read; a difference is printed and fails.
//!
//!     vectors FOLDER
use calls::words::{ANSWER_NUMBER, ANSWER_WORDS, POSTED, ROW_WORDS};
use calls::{Book, Calls, Event, Table, MODEL};
use std::fs;

/// include/toll_ledger.h.
#[rustfmt::skip]
static LIBRARY: Calls = calls::calls!(toll_ledger_open, toll_ledger_event, toll_ledger_batch, toll_ledger_balance,
                                      toll_ledger_topup_due, toll_ledger_debtor);

type Groups = Vec<Vec<i64>>;

fn groups(text: &str) -> Groups {
    let numbers = |g: &str| g.split_whitespace().map(|w| w.parse().expect("a number")).collect();
    text.split('|').map(numbers).collect()
}

/// One implementation, with the book that its calls are made on.
struct Reader {
    calls: &'static Calls,
    book: Book,
}

impl Reader {
    fn open(&mut self, tables: &[i64], schedule: &[i64]) -> Result<Groups, String> {
        let [accounts, rows, count, days @ ..] = tables else { return Err("three lengths expected".into()) };
        let mut book = Book::new(*accounts as usize, *rows as usize).with_holidays(days);
        let before = book.clone();
        let number = self.calls.open(&mut book, schedule);
        if days.len() as i64 != *count || (number != POSTED && book != before) {
            return Err("not so many holidays, or a refused opening wrote".into());
        }
        if number == POSTED {
            self.book = book;
        }
        Ok(vec![vec![number]])
    }

    fn event(&mut self, words: &[i64]) -> Result<Groups, String> {
        let mut answer = Table::answers(ANSWER_WORDS);
        let number = self.calls.event(&mut self.book, words, &mut answer);
        if !answer.guarded() || number != answer[ANSWER_NUMBER] {
            return Err(format!("the call gave {number}, or wrote past its answer"));
        }
        Ok(vec![answer.to_vec()])
    }

    fn batch(&mut self, size: i64, records: &[Vec<i64>]) -> Result<Groups, String> {
        let record = |r: &Vec<i64>| Event::try_from(r.as_slice()).expect("an event's words");
        let events: Vec<Event> = records.iter().filter(|r| !r.is_empty()).map(record).collect();
        let mut answers = Table::answers(size as usize);
        let before = answers.clone();
        let number = self.calls.batch(&mut self.book, &events, &mut answers);
        let written = if number == POSTED { ANSWER_WORDS * events.len() } else { 0 };
        if !answers.guarded() || answers[written..] != before[written..] {
            return Err("a word past the answers was written".into());
        }
        let given = answers[..written].chunks(ANSWER_WORDS).map(<[i64]>::to_vec);
        Ok([vec![number]].into_iter().chain(given).collect())
    }

    fn tables(&self) -> Groups {
        let b = &self.book;
        let rows = &b.journal[..b.rows_used() * ROW_WORDS];
        [&b.header[..], &b.accounts[..], rows, &b.holidays[..]].map(<[i64]>::to_vec).to_vec()
    }

    fn poke(&mut self, table: &str, words: &[i64]) -> Groups {
        let b = &mut self.book;
        let table = match table {
            "header" => &mut b.header,
            "accounts" => &mut b.accounts,
            "journal" => &mut b.journal,
            "holidays" => &mut b.holidays,
            other => panic!("no table {other}"),
        };
        words.chunks(2).for_each(|w| table[w[0] as usize] = w[1]);
        vec![vec![]]
    }

    /// What a line's call gives, or what is wrong beside it.
    fn call(&mut self, line: &str) -> Result<Groups, String> {
        let (name, rest) = line.split_once(' ').unwrap_or((line, ""));
        if name == "poke" {
            let (table, words) = rest.split_once(' ').expect("a table and words");
            return Ok(self.poke(table, &groups(words)[0]));
        }
        let words = groups(rest);
        let pair = |(number, value)| Ok(vec![vec![number, value]]);
        let given = match name {
            "open" => self.open(&words[0], &words[1]),
            "event" => self.event(&words[0]),
            "batch" => self.batch(words[0][0], &words[1..]),
            "balance" => pair(self.calls.balance(&self.book, words[0][0])),
            "topup_due" => pair(self.calls.topup_due(&self.book, words[0][0])),
            "debtor" => {
                let (number, heavy, rows) = self.calls.debtor(&self.book, words[0][0]);
                Ok(vec![vec![number, heavy, rows]])
            }
            "tables" => Ok(self.tables()),
            other => panic!("no call {other}"),
        };
        if !self.book.guarded() {
            return Err("a word beside the book's tables was written".into());
        }
        given
    }
}

/// Makes the calls of a file; gives how many there are.
fn run(text: &str, calls: &'static Calls) -> Result<usize, String> {
    let mut reader = Reader { calls, book: Book::new(1, 1) };
    let mut lines = (1..).zip(text.lines()).filter(|(_, l)| !l.starts_with('#'));
    let mut count = 0;
    while let (Some((n, call)), Some((_, result))) = (lines.next(), lines.next()) {
        let want = groups(result.strip_prefix('=').expect("what the call gives"));
        let given = reader.call(call).map_err(|why| format!("line {n}: {why}"))?;
        if given != want {
            return Err(format!("line {n}: {call}\n  expected {want:?}\n  found {given:?}"));
        }
        count += 1;
    }
    Ok(count)
}

fn main() {
    let folder = std::env::args().nth(1).expect("a folder");
    let mut names: Vec<_> = fs::read_dir(folder).unwrap().map(|f| f.unwrap().path()).collect();
    names.sort();
    let mut count = 0;
    for name in &names {
        let text = fs::read_to_string(name).unwrap();
        for (whose, calls) in [("the model", &MODEL), ("the library", &LIBRARY)] {
            match run(&text, calls) {
                Ok(found) => count += found,
                Err(why) => {
                    println!("{}, {whose}: {why}", name.display());
                    std::process::exit(1);
                }
            }
        }
    }
    println!("{} files, {count} calls on the model and on the library together", names.len());
    assert!(count > 0, "no calls");
}
