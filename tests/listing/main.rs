//! The listing program: stored vectors, random inputs against the model, and a long input in constant memory. Prints what was
//! met and its seed; a difference leaves the input and both outputs beside the program and fails.
//!
//!     listing-test PROGRAM VECTORS OUT [SEED..]
mod inputs;
mod model;

use calls::random::Random;
use std::fs;
use std::io::{Read, Write};
use std::path::Path;
use std::process::{Child, Command, Stdio};

const INPUTS: u64 = 400; // for each seed
const EVENTS: usize = 1_000_000; // of the long input
const MOST_MEMORY: u64 = 8 << 10; // KiB

fn start(program: &str) -> Child {
    Command::new(program).stdin(Stdio::piped()).stdout(Stdio::piped()).spawn().expect("the program starts")
}

/// What the program prints for an input that comes in parts. It may stop reading early, at a bad line.
fn printed(program: &str, input: &[u8], part: usize) -> Vec<u8> {
    let mut child = start(program);
    let mut to = child.stdin.take().unwrap();
    let parts: Vec<Vec<u8>> = input.chunks(part).map(<[u8]>::to_vec).collect();
    let writer = std::thread::spawn(move || parts.iter().all(|p| to.write_all(p).and_then(|_| to.flush()).is_ok()));
    let mut output = Vec::new();
    child.stdout.take().unwrap().read_to_end(&mut output).expect("its output is read");
    writer.join().unwrap();
    assert!(child.wait().expect("it ends").success(), "the program failed");
    output
}

fn check(what: &str, out: &Path, input: &[u8], want: &[u8], got: &[u8]) {
    if want != got {
        for (name, bytes) in [("input", input), ("want", want), ("got", got)] {
            fs::write(out.join(name), bytes).unwrap();
        }
        println!("{what}: differs; see input, want and got in {}", out.display());
        std::process::exit(1);
    }
}

/// The stored inputs and their outputs. Those named base-* are from before events had f and g, with both 0 put in: what
/// they print is what they printed then.
fn vectors(program: &str, folder: &Path, out: &Path) {
    let mut names: Vec<_> = fs::read_dir(folder).unwrap().map(|f| f.unwrap().path()).collect();
    names.retain(|n| n.extension().is_some_and(|e| e == "in"));
    names.sort();
    for name in &names {
        let (input, want) = (fs::read(name).unwrap(), fs::read(name.with_extension("out")).unwrap());
        let what = name.display().to_string();
        check(&format!("{what}, the model"), out, &input, &want, model::listing(&input).as_bytes());
        check(&what, out, &input, &want, &printed(program, &input, usize::MAX));
        check(&format!("{what}, in parts"), out, &input, &want, &printed(program, &input, 7));
    }
    println!("{} vectors", names.len());
}

fn random_inputs(program: &str, seed: u64, out: &Path) {
    let (mut events, mut bad) = (0, 0);
    for number in 0..INPUTS {
        let random = &mut Random::new(seed, number);
        let input = inputs::input(random);
        let want = model::listing(&input);
        let part = random.pick(&[1, 13, 100, 4096, 65_536, usize::MAX]);
        check(&format!("seed {seed}, input {number}"), out, &input, want.as_bytes(), &printed(program, &input, part));
        events += want.lines().filter(|l| l.split(',').count() == 6).count();
        bad += want.contains("bad line") as u64;
    }
    println!("seed {seed}: {INPUTS} inputs, {events} lines of answers and rows, {bad} inputs with a bad line");
}

/// The most memory that the running program has held, in KiB.
fn memory(child: &Child) -> u64 {
    let status = fs::read_to_string(format!("/proc/{}/status", child.id())).expect("its status");
    let line = status.lines().find(|l| l.starts_with("VmHWM:")).expect("its memory");
    line.split_whitespace().nth(1).unwrap().parse().unwrap()
}

/// A long input: each event is answered, and the memory at its end is bounded, however long it is.
fn long_input(program: &str) {
    let mut child = start(program);
    let mut to = child.stdin.take().unwrap();
    let mut from = child.stdout.take().unwrap();
    let reader = std::thread::spawn(move || {
        let mut output = Vec::new();
        from.read_to_end(&mut output).map(|_| output).expect("its output is read")
    });
    let random = &mut Random::new(9, 9);
    let mut input = inputs::opening(&inputs::SCHEDULE);
    for _ in 0..EVENTS {
        inputs::put_line(&mut input, &inputs::event(random));
    }
    to.write_all(&input).expect("it reads on");
    to.flush().unwrap();
    let most = memory(&child);
    drop(to);
    let answers = reader.join().unwrap().split(|b| *b == b'\n').skip(1).take_while(|l| !l.starts_with(b"row")).count();
    assert!(child.wait().unwrap().success() && answers == EVENTS, "{answers} answers to {EVENTS} events");
    assert!(most < MOST_MEMORY, "{most} KiB of memory");
    println!("{EVENTS} events in less than {MOST_MEMORY} KiB");
}

fn main() {
    let args: Vec<String> = std::env::args().collect();
    let [program, folder, out] = [1, 2, 3].map(|i| args[i].as_str());
    vectors(program, Path::new(folder), Path::new(out));
    for seed in &args[4..] {
        random_inputs(program, seed.parse().expect("a seed is a number"), Path::new(out));
    }
    long_input(program);
}
