// The program `gate bench` against the second program, on inputs that the second program makes: seeded, so every run tries the same ones.
//
//   rustc -O --edition 2021 tests/typed.rs -o target/typed && target/typed
//
// Runs of a bench as they would be typed, with readings written in many ways, refused steps, damaged and long lines; each through the built program,
// target/bin/gate: every byte of standard output, and of each refusal on standard error its line and its number. A mismatch prints the input's seed.

#[allow(dead_code)]
#[path = "../second/second.rs"]
mod second;

use second::{typed_bench, typed_input};
use std::collections::BTreeMap;
use std::io::Write;
use std::process::{Command, Output, Stdio};

const INPUTS: u64 = 2_500;

// What the program makes of an input.
fn run(input: &[u8]) -> Output {
    let mut child = Command::new("target/bin/gate")
        .arg("bench")
        .stdin(Stdio::piped())
        .stdout(Stdio::piped())
        .stderr(Stdio::piped())
        .spawn()
        .expect("target/bin/gate");
    let mut stdin = child.stdin.take().expect("standard input");
    let input = input.to_vec();
    let writer = std::thread::spawn(move || stdin.write_all(&input));
    let output = child.wait_with_output().expect("its output");
    writer.join().expect("a writer").expect("an input read to its end");
    output
}

// The line and the number of `line 7: refused 13: words`.
fn refusal(said: &str) -> Option<(usize, u8)> {
    let (line, rest) = said.strip_prefix("line ")?.split_once(": refused ")?;
    let (number, words) = rest.split_once(": ")?;
    (!words.is_empty()).then_some(())?;
    Some((line.parse().ok()?, number.parse().ok()?))
}

fn main() {
    let mut met: BTreeMap<u8, u64> = BTreeMap::new();
    let (mut bytes, mut lines, mut differ) = (0, 0, 0);
    for seed in 1..=INPUTS {
        let input = typed_input(seed);
        let (record, refusals) = typed_bench(&input);
        let got = run(&input);
        let said = String::from_utf8(got.stderr).expect("words");
        let refused: Option<Vec<_>> = said.lines().map(refusal).collect();
        if got.stdout != record || refused.as_ref() != Some(&refusals) {
            println!("seed {seed}: {refusals:?} wanted, {refused:?} got, the same record: {}", got.stdout == record);
            differ += 1;
        }
        for (_, number) in &refusals {
            *met.entry(*number).or_default() += 1;
        }
        bytes += record.len();
        lines += input.split(|b| *b == b'\n').count();
    }
    // every number that a step or settings can get but 10
    for number in [1, 2, 3, 4, 5, 6, 7, 8, 9, 11, 12, 13, 15, 17] {
        assert!(met.get(&number) >= Some(&20), "refusals with {number}: {met:?}");
    }
    println!("{INPUTS} inputs of {lines} lines, {bytes} bytes of records, refusals by number {met:?}, {differ} differ");
    std::process::exit((differ > 0) as i32);
}
