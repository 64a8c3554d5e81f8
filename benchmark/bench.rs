// The proved library against the same rules in plain Rust, in place, on the same inputs in one process: with full looks
// (inplace.rs), and keeping the two values that the library keeps beside its table (kept.rs). benchmark/run builds and calls it:
//
//   bench                  all three sides answer alike on every input, or it fails; then the times
//   bench once SIDE INPUT  a round of one side (ours, full, kept, or none: the input is only made) on one input (1, 8, 96, write,
//                          read, report, small, forward, back), for callgrind
//   bench units INPUT      how many steps, lines or records a round on an input has

mod inplace;
mod kept;

use inplace::{Bench, Entry, Form, FullLooks, Looks, New, Old, Order, Settings, Standing};
use inplace::{FULL, HEAD, LAST_TRAIN, LINE, LONGEST, ROW};
use kept::Kept;
use std::hint::black_box;
use std::time::Instant;

extern "C" {
    fn weqhaso_run(
        values: *const u32,
        values_len: usize,
        letters: *const u8,
        letters_len: usize,
        numbers: *const u32,
        numbers_len: usize,
        readings: *const f32,
        readings_len: usize,
        answers: *mut u8,
        answers_len: usize,
        orders: *mut u8,
        orders_len: usize,
        named: *mut u32,
        named_len: usize,
    ) -> u8;
    fn weqhaso_record(
        values: *const u32,
        values_len: usize,
        letters: *const u8,
        letters_len: usize,
        numbers: *const u32,
        numbers_len: usize,
        readings: *const f32,
        readings_len: usize,
        answers: *mut u8,
        answers_len: usize,
        orders: *mut u8,
        orders_len: usize,
        named: *mut u32,
        named_len: usize,
        out: *mut u8,
        out_len: usize,
    ) -> u64;
    fn weqhaso_read(text: *const u8, len: usize) -> u64;
    fn weqhaso_report(text: *const u8, len: usize, out: *mut u8, out_len: usize) -> u64;
    fn weqhaso_to_new(text: *const u8, len: usize, out: *mut u8, out_len: usize) -> u64;
    fn weqhaso_to_old(text: *const u8, len: usize, out: *mut u8, out_len: usize) -> u64;
}

const STEPS: usize = 100_000;
const ROUNDS: usize = 21;
const RECORDS_A_ROUND: usize = 20;
const SMALL_A_ROUND: usize = 1_000;
const DAMAGED: usize = 20_000;
// 96 train numbers so far apart are spread over the range
const APART: u32 = 680;
// the letters of approaches, kinds 1 to 4
const APPROACHES: &[u8; 4] = b"ABEF";
// the sample record of document 01
const SMALL: &[u8] = include_bytes!("../examples/k.record");

#[derive(Clone, Copy)]
enum Side {
    Ours,
    Full,
    Kept,
}

const SIDES: [Side; 3] = [Side::Ours, Side::Full, Side::Kept];

// A small generator of numbers (xorshift).
struct Random(u64);

impl Random {
    fn below(&mut self, n: u64) -> u64 {
        self.0 ^= self.0 << 13;
        self.0 ^= self.0 >> 7;
        self.0 ^= self.0 << 17;
        self.0 % n
    }
}

// A train's number or one beside: at an edge, small, one of those spread over the range, any, or beyond it.
fn any_number(r: &mut Random) -> u32 {
    match r.below(5) {
        0 => [0, 1, 65_535, 65_536, u32::MAX][r.below(5) as usize],
        1 => r.below(99) as u32,
        2 => APART * (1 + r.below(96) as u32),
        3 => r.below(LAST_TRAIN as u64 + 1) as u32,
        _ => r.below(1 << 32) as u32,
    }
}

// The kinds of train that approach: kind 1, whose times the others have too (what is measured), or all four by chance, with
// times of their own; or kind 1 with the numbers of document 01, 1 to 96.
#[derive(Clone, Copy)]
enum Kinds {
    One,
    Four,
    Old,
}

// A yard in which the number of trains present stays: a train that leaves makes room for the next number's approach at once.
// A train is coming for the ticks of its kind and then inside for about as long; with one kind every third of a tick brings a
// train's step.
struct Yard {
    random: Random,
    bench: Bench<FullLooks>,
    settings: Settings,
    kinds: Kinds,
    next: u32,
    present: u32,
    // the lowers whose train approached after another that is due as soon
    equals: usize,
}

impl Yard {
    fn new(many: u32, earliest: u32, fall: u32, kinds: Kinds, seed: u64) -> Yard {
        let e = earliest;
        let first = (e, e * 3 / 2);
        let times = match kinds {
            Kinds::One | Kinds::Old => [first; 4],
            // one that overtakes it, a slow one, and one that is known to the tick
            Kinds::Four => [first, (e * 3 / 4, e), (2 * e, 3 * e), (e + 1, e + 1)],
        };
        let widest = times.iter().map(|(e, f)| f - e).max().unwrap_or(0);
        let [(e, f), (e2, f2), (e3, f3), (e4, f4)] = times;
        let settings = [e, f, fall, 1920, 2, FULL.div_ceil(fall) + widest, 3, e2, f2, e3, f3, e4, f4];
        assert_eq!(inplace::check(&settings), 0);
        Yard {
            random: Random(seed),
            bench: Bench::new(&settings),
            settings,
            kinds,
            next: 0,
            present: many,
            equals: 0,
        }
    }

    fn count(&self) -> usize {
        self.present_trains().count()
    }

    fn present_trains(&self) -> impl Iterator<Item = &Entry> {
        self.bench.trains.table.iter().filter(|e| e.since().is_some())
    }

    // The next number whose train is away, of 96 spread over the range; with four kinds any such number, so that of equals the
    // lowest may be the later one.
    fn next_away(&mut self) -> u32 {
        loop {
            self.next = match self.kinds {
                Kinds::One => self.next % (96 * APART) + APART,
                Kinds::Old => self.next % 96 + 1,
                Kinds::Four => 1 + self.random.below(LAST_TRAIN as u64) as u32,
            };
            if self.present_trains().all(|e| e.number as u32 != self.next) {
                return self.next;
            }
        }
    }

    fn approach_letter(&mut self) -> u8 {
        match self.kinds {
            Kinds::One | Kinds::Old => b'A',
            Kinds::Four => APPROACHES[self.random.below(4) as usize],
        }
    }

    // A train that now occupies (it may, and by chance or because it must) or leaves (by chance).
    fn train_moves(&mut self) -> Option<(u8, u32)> {
        let now = self.bench.now;
        for entry in &self.bench.trains.table {
            let (n, t) = (entry.number as u32, self.bench.trains.times[entry.kind as usize]);
            match entry.standing {
                Standing::Coming(a) if now >= a + t.earliest => {
                    if now == a + t.latest || self.random.below(t.earliest as u64) == 0 {
                        return Some((b'O', n));
                    }
                }
                Standing::Inside(_) if self.random.below(t.earliest as u64) == 0 => return Some((b'L', n)),
                _ => {}
            }
        }
        None
    }

    // An accepted step: its letter, its train or angle, and the command given.
    fn step(&mut self) -> (u8, u32, Order) {
        let few = self.count() < self.present as usize;
        let (letter, number) = if few {
            (self.approach_letter(), self.next_away())
        } else {
            self.train_moves().unwrap_or_else(|| (b'T', self.angle()))
        };
        let order = self.bench.step(letter, number).expect("a step that is accepted");
        if let Order::Lower(n) = order {
            self.equals += self.later_equal(n) as usize;
        }
        (letter, number, order)
    }

    // Whether a train that approached before this one is due at the same instant.
    fn later_equal(&self, n: u32) -> bool {
        let trains = &self.bench.trains;
        let approach = |e: &Entry| (e.since(), trains.due_of(e));
        let own = self.present_trains().find(|e| e.number as u32 == n).map(approach);
        let mut all = self.present_trains().map(approach);
        own.is_some_and(|(a, due)| all.any(|(b, other)| b < a && other == due))
    }

    // As far as the arm must go.
    fn angle(&self) -> u32 {
        if self.bench.up {
            (self.bench.angle + self.settings[3]).min(FULL)
        } else {
            self.bench.angle.saturating_sub(self.settings[2])
        }
    }
}

// A list of steps in slices, and the places for what is answered.
struct List {
    settings: Settings,
    letters: Vec<u8>,
    numbers: Vec<u32>,
    readings: Vec<f32>,
    answers: Vec<u8>,
    orders: Vec<u8>,
    named: Vec<u32>,
    equals: usize,
}

impl List {
    fn new(many: u32, kinds: Kinds) -> List {
        List::first_of(Yard::new(many, 8 * many, 1440, kinds, 0x2545_f491_4f6c_dd1d), STEPS)
    }

    // So many steps of a yard.
    fn first_of(mut yard: Yard, many: usize) -> List {
        let steps: Vec<(u8, u32, Order)> = (0..many).map(|_| yard.step()).collect();
        List {
            settings: yard.settings,
            letters: steps.iter().map(|s| s.0).collect(),
            numbers: steps.iter().map(|s| s.1).collect(),
            readings: steps.iter().map(|s| if s.0 == b'T' { s.1 as f32 / 64.0 } else { 0.0 }).collect(),
            answers: vec![99; many],
            orders: vec![99; many],
            named: vec![99; many],
            equals: yard.equals,
        }
    }

    fn ours(&mut self) -> u8 {
        unsafe {
            weqhaso_run(
                self.settings.as_ptr(),
                self.settings.len(),
                self.letters.as_ptr(),
                self.letters.len(),
                self.numbers.as_ptr(),
                self.numbers.len(),
                self.readings.as_ptr(),
                self.readings.len(),
                self.answers.as_mut_ptr(),
                self.answers.len(),
                self.orders.as_mut_ptr(),
                self.orders.len(),
                self.named.as_mut_ptr(),
                self.named.len(),
            )
        }
    }

    fn rust<L: Looks>(&mut self) -> u8 {
        inplace::run::<L>(
            black_box(&self.settings),
            black_box(&self.letters),
            &self.numbers,
            &self.readings,
            &mut self.answers,
            &mut self.orders,
            &mut self.named,
        )
    }

    fn run(&mut self, side: Side) -> u8 {
        match side {
            Side::Ours => self.ours(),
            Side::Full => self.rust::<FullLooks>(),
            Side::Kept => self.rust::<Kept>(),
        }
    }

    // Recorded into `out`: as the library packs its answer.
    fn record(&mut self, side: Side, out: &mut [u8]) -> u64 {
        match side {
            Side::Ours => self.ours_recorded(out),
            Side::Full => self.rust_recorded::<FullLooks>(out),
            Side::Kept => self.rust_recorded::<Kept>(out),
        }
    }

    fn ours_recorded(&mut self, out: &mut [u8]) -> u64 {
        unsafe {
            weqhaso_record(
                self.settings.as_ptr(),
                self.settings.len(),
                self.letters.as_ptr(),
                self.letters.len(),
                self.numbers.as_ptr(),
                self.numbers.len(),
                self.readings.as_ptr(),
                self.readings.len(),
                self.answers.as_mut_ptr(),
                self.answers.len(),
                self.orders.as_mut_ptr(),
                self.orders.len(),
                self.named.as_mut_ptr(),
                self.named.len(),
                out.as_mut_ptr(),
                out.len(),
            )
        }
    }

    fn rust_recorded<L: Looks + Clone>(&mut self, out: &mut [u8]) -> u64 {
        inplace::record::<L>(
            black_box(&self.settings),
            black_box(&self.letters),
            &self.numbers,
            &self.readings,
            &mut self.answers,
            &mut self.orders,
            &mut self.named,
            out,
        )
    }

    // With space for all of its record, just so much, and less.
    fn check_same_recorded(&mut self, out: &mut [u8]) {
        let bytes = self.record(Side::Full, out) as usize / 256;
        for len in [bytes + 1, bytes, bytes - 1, bytes / 2, HEAD + LINE, HEAD + LINE - 1, 0] {
            self.recorded_alike(len);
        }
    }

    // What all sides answer, recorded into so many bytes, with the same answers, commands and trains beside the steps.
    fn recorded_alike(&mut self, len: usize) -> (u64, Vec<u8>) {
        let [ours, full, kept] = SIDES.map(|side| {
            let mut out = vec![99; len];
            self.unwrite();
            (self.record(side, &mut out), self.written(), out)
        });
        assert!(ours == full && ours == kept, "recordings differ in {len} bytes");
        (ours.0, ours.2)
    }

    // Nothing is written beside the steps.
    fn unwrite(&mut self) {
        self.answers.fill(99);
        self.orders.fill(99);
        self.named.fill(99);
    }

    // What is written beside the steps, and beyond.
    fn written(&self) -> (Vec<u8>, Vec<u8>, Vec<u32>) {
        (self.answers.clone(), self.orders.clone(), self.named.clone())
    }

    fn check_same(&mut self) {
        let (refusal, answers) = self.run_alike();
        assert!(refusal == 0 && answers.iter().all(|a| *a == 0), "a run or a step is refused");
    }

    // What all sides answer, with the same commands and trains.
    fn run_alike(&mut self) -> (u8, Vec<u8>) {
        let [ours, full, kept] = SIDES.map(|side| {
            self.unwrite();
            (self.run(side), self.written())
        });
        assert!(ours == full && ours == kept, "answers, commands or trains differ");
        (ours.0, ours.1 .0)
    }

    // A step exchanged or left out, another setting, too short a slice, or any letter.
    fn damage(&mut self, r: &mut Random) {
        let at = r.below(self.letters.len() as u64) as usize;
        let i = r.below(13) as usize;
        match r.below(12) {
            0 | 1 => self.letters[at] = b"ABEFOLT"[r.below(7) as usize],
            2 => self.numbers[at] = any_number(r),
            3 => self.readings[at] = r.below(2 * FULL as u64 + 9) as f32 / 128.0,
            4 => self.settings[i] = [0, 1, FULL, FULL + 1, 60_000, 60_001][r.below(6) as usize],
            5 => self.settings[i] = (self.settings[i] + r.below(5) as u32).saturating_sub(2),
            6 if r.below(8) == 0 => match r.below(3) {
                0 => self.answers.truncate(at),
                1 => self.orders.truncate(at),
                _ => self.named.truncate(at),
            },
            7 if r.below(8) == 0 => self.letters[at] = b'A' + r.below(26) as u8,
            // one more approach
            8 | 9 => {
                self.letters.insert(at, APPROACHES[r.below(4) as usize]);
                self.numbers.insert(at, any_number(r));
                self.readings.insert(at, 0.0);
                self.answers.push(99);
                self.orders.push(99);
                self.named.push(99);
            }
            _ => {
                self.letters.remove(at);
                self.numbers.remove(at);
                self.readings.remove(at);
            }
        }
    }

    fn says(&self) -> String {
        let share = |l: u8| 100.0 * self.letters.iter().filter(|x| **x == l).count() as f64 / STEPS as f64;
        let commands = self.orders.iter().filter(|o| **o != 0).count();
        format!(
            "clock {:.1} %, approach {:.1} %, occupy {:.1} %, leave {:.1} %, {commands} commands, {:?}",
            share(b'T'),
            share(b'A'),
            share(b'O'),
            share(b'L'),
            self.settings
        )
    }
}

// A number in the last columns of a line.
fn last_columns<F: Form>(n: u32) -> String {
    format!("{n:>width$}", width = F::LINE - 11)
}

fn put_line<F: Form>(text: &mut Vec<u8>, first: u32, letter: u8, last: u32) {
    let last = last_columns::<F>(last);
    text.extend_from_slice(format!("{first:>8} {}{last}\n", letter as char).as_bytes());
}

// A record that fills what the report takes, as far as whole lines go: two trains present, with short stretches.
fn record<F: Form>(kinds: Kinds) -> Vec<u8> {
    let mut yard = Yard::new(2, 4, 2880, kinds, 0x9e37_79b9_7f4a_7c15);
    let mut text = F::FIRST_LINE.to_vec();
    for (i, value) in yard.settings[..F::SETTINGS].iter().enumerate() {
        put_line::<F>(&mut text, *value, b'S', i as u32 + 1);
    }
    loop {
        let (letter, number, order) = yard.step();
        let mut lines = Vec::new();
        put_line::<F>(&mut lines, yard.bench.now, letter, number);
        if order.letter() != 0 {
            put_line::<F>(&mut lines, yard.bench.now, order.letter(), F::on_lower(order.train()));
        }
        if text.len() + lines.len() + F::LINE > LONGEST {
            break;
        }
        text.extend(lines);
    }
    text.extend_from_slice(F::LAST_LINE);
    assert_eq!(text.len(), LONGEST / F::LINE * F::LINE, "the last step has a command without space");
    text
}

// The verdict on a text, as the library packs it.
fn read(side: Side, text: &[u8]) -> u64 {
    match side {
        Side::Ours => unsafe { weqhaso_read(text.as_ptr(), text.len()) },
        Side::Full => inplace::read::<FullLooks>(text),
        Side::Kept => inplace::read::<Kept>(text),
    }
}

// The report of a text, as the library packs its answer.
fn report(side: Side, text: &[u8], out: &mut [u8]) -> u64 {
    match side {
        Side::Ours => unsafe { weqhaso_report(text.as_ptr(), text.len(), out.as_mut_ptr(), out.len()) },
        Side::Full => inplace::report::<FullLooks>(text, out),
        Side::Kept => inplace::report::<Kept>(text, out),
    }
}

// The record in the other form, as the library packs its answer: the one that stands, or document 01's.
type Turn = fn(Side, &[u8], &mut [u8]) -> u64;

fn to_new(side: Side, text: &[u8], out: &mut [u8]) -> u64 {
    match side {
        Side::Ours => unsafe { weqhaso_to_new(text.as_ptr(), text.len(), out.as_mut_ptr(), out.len()) },
        Side::Full => inplace::to_new::<FullLooks>(text, out),
        Side::Kept => inplace::to_new::<Kept>(text, out),
    }
}

fn to_old(side: Side, text: &[u8], out: &mut [u8]) -> u64 {
    match side {
        Side::Ours => unsafe { weqhaso_to_old(text.as_ptr(), text.len(), out.as_mut_ptr(), out.len()) },
        Side::Full => inplace::to_old::<FullLooks>(text, out),
        Side::Kept => inplace::to_old::<Kept>(text, out),
    }
}

// The form that stands of an old record.
fn turned(old: &[u8]) -> Vec<u8> {
    let mut out = vec![0; 2 * old.len()];
    let answer = to_new(Side::Full, old, &mut out);
    assert_eq!(answer % 256, 0, "an old record is refused");
    out.truncate(answer as usize / 256);
    out
}

// What all sides answer to a text that is turned, with so long a buffer and the same bytes left in it.
fn turned_alike(turn: Turn, text: &[u8], len: usize) -> u64 {
    let [ours, full, kept] = SIDES.map(|side| {
        let mut out = vec![99; len];
        (turn(side, text, &mut out), out)
    });
    assert!(ours == full && ours == kept, "turned otherwise: {}", String::from_utf8_lossy(text));
    ours.0
}

// Whether all sides give one verdict on a text and report it alike, with so long a buffer, and leave the same bytes in it.
fn same_report(text: &[u8], len: usize) -> bool {
    let [ours, full, kept] = SIDES.map(|side| {
        let mut out = vec![99; len];
        (read(side, text), report(side, text, &mut out), out)
    });
    ours == full && ours == kept
}

fn damage<F: Form>(text: &mut Vec<u8>, r: &mut Random) {
    let at = r.below(text.len() as u64) as usize;
    let line = at / F::LINE * F::LINE;
    match r.below(8) {
        0 => text[at] = b"0123456789 ABEFOLTDUS\n"[r.below(22) as usize],
        1 => text[at] = r.below(256) as u8,
        2 => text.truncate(at),
        3 => drop(text.drain(line..line + F::LINE)),
        // an approach, from this line on, of another kind
        4 => {
            let mut letters = text.iter_mut().skip(line.max(F::HEAD) + 9).step_by(F::LINE);
            if let Some(letter) = letters.find(|l| APPROACHES.contains(l)) {
                *letter = APPROACHES[r.below(4) as usize];
            }
        }
        // any letter
        5 => text[line + 9] = b'A' + r.below(26) as u8,
        // a command, from this line on, with any train or 0
        6 => {
            let mut lines = text.chunks_exact_mut(F::LINE).skip(line.max(F::HEAD) / F::LINE);
            if let Some(command) = lines.find(|l| matches!(l[9], b'D' | b'U')) {
                let most = 10_u32.pow(F::LINE as u32 - 11) - 1;
                let number = last_columns::<F>(any_number(r).min(most));
                command[10..F::LINE - 1].copy_from_slice(number.as_bytes());
            }
        }
        _ => text.push(10),
    }
}

// The first lines of a record, some steps among them, and the last one, damaged: most damage early, where it is cheap to reach.
fn damaged<F: Form>(text: &[u8], r: &mut Random) -> Vec<u8> {
    let lines = F::SETTINGS + 2 + r.below(60) as usize;
    let mut damaged = text[..(F::LINE * lines).min(text.len() - F::LINE)].to_vec();
    damaged.extend_from_slice(F::LAST_LINE);
    damage::<F>(&mut damaged, r);
    damaged
}

// The whole record, buffers that are just long enough and one byte short, damaged records, and too long a text.
fn check_same_reports(text: &[u8]) {
    let mut out = vec![99; LONGEST];
    let bytes = (report(Side::Full, text, &mut out) / 256) as usize;
    for len in [LONGEST, bytes, bytes - 1, 19, 18, 0] {
        assert!(same_report(text, len), "reports differ with a buffer of {len} bytes");
    }
    let mut r = Random(0x1234_5678_9abc_def1);
    for _ in 0..DAMAGED {
        let damaged = damaged::<New>(text, &mut r);
        let len = [19, 18, LONGEST][r.below(3) as usize];
        assert!(same_report(&damaged, len), "{}", String::from_utf8_lossy(&damaged));
    }
    let mut long = text.to_vec();
    long.resize(LONGEST + 1, 10);
    assert!(same_report(&long, 19), "reports of too long a text differ");
}

// The whole record turned, into buffers that are just long enough, one byte short, longer and empty, and damaged ones. They are met
// by these numbers among others.
fn check_same_turned<F: Form>(turn: Turn, text: &[u8], numbers: &[usize]) {
    let bytes = (turned_alike(turn, text, 2 * text.len()) / 256) as usize;
    let met_whole = [bytes, bytes + 1, bytes - 1, 0].map(|len| turned_alike(turn, text, len) % 256);
    assert_eq!(met_whole, [0, 0, 14, 14], "a record in buffers about its length");
    let mut met = [0; 19];
    let mut r = Random(0x1234_5678_9abc_def1);
    for _ in 0..DAMAGED {
        let damaged = damaged::<F>(text, &mut r);
        let len = [0, damaged.len(), 2 * LONGEST][r.below(3) as usize];
        met[turned_alike(turn, &damaged, len) as usize % 256] += 1;
    }
    assert!(numbers.iter().all(|number| met[*number] > 0), "a number is never answered: {met:?}");
}

// Lists of trains of four kinds, plain and damaged, run and recorded, and the records read and turned back, plain and damaged: how
// often each number was answered. In some there are as many trains as the table has entries.
fn check_same_lists() -> [usize; 19] {
    let mut r = Random(0x0fed_cba9_8765_4321);
    let mut met = [0; 19];
    let mut equals = 0;
    for _ in 0..DAMAGED {
        let full = r.below(16) == 0;
        let (present, earliest) = (if full { 96 } else { 1 + r.below(6) as u32 }, 6 + r.below(10) as u32);
        let yard = Yard::new(present, earliest, 1920, Kinds::Four, 1 + r.below(u64::MAX));
        let mut list = List::first_of(yard, 20 + r.below(200) as usize + full as usize * 96);
        match r.below(4) {
            0 => equals += list.equals,
            times => (0..times).for_each(|_| list.damage(&mut r)),
        }
        let (refusal, answers) = list.run_alike();
        met[refusal as usize] += 1;
        if refusal == 0 {
            answers[..list.letters.len()].iter().for_each(|a| met[*a as usize] += 1);
        }
        let len = HEAD + r.below(2 * (LINE * list.letters.len()) as u64) as usize;
        let (recorded, out) = list.recorded_alike(len);
        let mut text = out[..recorded as usize / 256].to_vec();
        assert!(same_report(&text, LONGEST), "{}", String::from_utf8_lossy(&text));
        if !text.is_empty() {
            damage::<New>(&mut text, &mut r);
            assert!(same_report(&text, LONGEST), "{}", String::from_utf8_lossy(&text));
        }
        met[read(Side::Ours, &text) as usize % 256] += 1;
        met[turned_alike(to_old, &text, text.len()) as usize % 256] += 1;
    }
    assert!(equals > 0, "no lower of the lowest of equals, which is not the first of them");
    met
}

// The inputs again with trains of four kinds, and lists in which steps are refused.
fn check_same_kinds() {
    for many in [1, 8, 96] {
        let mut list = List::new(many, Kinds::Four);
        list.check_same();
        list.check_same_recorded(&mut vec![0; LINE * (15 + 2 * STEPS)]);
    }
    check_same_reports(&record::<New>(Kinds::Four));
    let met = check_same_lists();
    // only the end of the clock is too far
    assert!((0..19).all(|number| number == 10 || met[number] > 0), "a number is never answered: {met:?}");
    assert!(met[17] >= 100, "too few approaches to a full table: {met:?}");
}

// A record, the place for what is made of it, and how many times it goes through in a round.
struct Text {
    bytes: Vec<u8>,
    out: Vec<u8>,
    times: usize,
}

impl Text {
    fn new(bytes: Vec<u8>, times: usize) -> Text {
        let out = vec![0; 2 * LONGEST];
        Text { bytes, out, times }
    }

    fn read(&self, side: Side) {
        for _ in 0..self.times {
            black_box(read(side, black_box(&self.bytes)));
        }
    }

    fn report(&mut self, side: Side) {
        for _ in 0..self.times {
            black_box(report(side, black_box(&self.bytes), &mut self.out));
        }
    }

    fn turn(&mut self, side: Side, turn: Turn) {
        for _ in 0..self.times {
            black_box(turn(side, black_box(&self.bytes), &mut self.out));
        }
    }

    fn says_turned(&mut self, turn: Turn) -> String {
        let bytes = turn(Side::Ours, &self.bytes, &mut self.out) / 256;
        format!("{} bytes, {bytes} in the other form", self.bytes.len())
    }

    fn says(&mut self) -> String {
        let rows = report(Side::Ours, &self.bytes, &mut self.out) / 256 / ROW as u64;
        format!("{} bytes, a report of {rows} lines", self.bytes.len())
    }
}

enum Input {
    Steps(List),
    // a list, and the place for its record
    Write(List, Vec<u8>),
    Read(Text),
    Report(Text),
    Forward(Text),
    Back(Text),
}

impl Input {
    fn named(name: &str) -> Input {
        match name {
            "write" => Input::Write(List::new(8, Kinds::One), vec![0; LINE * (15 + 2 * STEPS)]),
            "read" => Input::Read(Text::new(record::<New>(Kinds::One), RECORDS_A_ROUND)),
            "report" => Input::Report(Text::new(record::<New>(Kinds::One), RECORDS_A_ROUND)),
            "forward" => Input::Forward(Text::new(record::<Old>(Kinds::Old), RECORDS_A_ROUND)),
            "back" => Input::Back(Text::new(turned(&record::<Old>(Kinds::Old)), RECORDS_A_ROUND)),
            "small" => Input::Report(Text::new(SMALL.to_vec(), SMALL_A_ROUND)),
            many => {
                let many = many.parse().expect("1, 8, 96, write, read, report, small, forward or back");
                Input::Steps(List::new(many, Kinds::One))
            }
        }
    }

    fn check_same(&mut self) {
        match self {
            Input::Steps(list) => list.check_same(),
            Input::Write(list, out) => list.check_same_recorded(out),
            Input::Read(text) | Input::Report(text) => check_same_reports(&text.bytes),
            Input::Forward(text) => check_same_turned::<Old>(to_new, &text.bytes, &[0, 1, 5, 14, 15, 16]),
            Input::Back(text) => check_same_turned::<New>(to_old, &text.bytes, &[0, 1, 14, 15, 16, 18]),
        }
    }

    fn says(&mut self) -> String {
        match self {
            Input::Steps(list) => list.says(),
            Input::Write(..) => format!("{STEPS} steps, {} lines", self.units()),
            Input::Read(text) | Input::Report(text) => text.says(),
            Input::Forward(text) => text.says_turned(to_new),
            Input::Back(text) => text.says_turned(to_old),
        }
    }

    // The steps, lines or records of a round.
    fn units(&mut self) -> usize {
        match self {
            Input::Steps(_) => STEPS,
            Input::Write(list, out) => list.record(Side::Full, out) as usize / 256 / LINE,
            Input::Read(text) | Input::Report(text) | Input::Forward(text) | Input::Back(text) => text.times,
        }
    }

    fn round(&mut self, side: Side) {
        match self {
            Input::Steps(list) => {
                black_box(list.run(side));
            }
            Input::Write(list, out) => {
                black_box(list.record(side, out));
            }
            Input::Read(text) => text.read(side),
            Input::Report(text) => text.report(side),
            Input::Forward(text) => text.turn(side, to_new),
            Input::Back(text) => text.turn(side, to_old),
        }
    }

    // The seconds of a round.
    fn seconds(&mut self, side: Side) -> f64 {
        let begin = Instant::now();
        self.round(side);
        begin.elapsed().as_secs_f64()
    }

    // Round by round each side once; the medians.
    fn medians(&mut self) -> [f64; 3] {
        let rounds: Vec<[f64; 3]> = (0..ROUNDS).map(|_| SIDES.map(|side| self.seconds(side))).collect();
        [0, 1, 2].map(|i| {
            let mut times: Vec<f64> = rounds.iter().map(|r| r[i]).collect();
            times.sort_by(f64::total_cmp);
            times[ROUNDS / 2]
        })
    }
}

fn measure() {
    let mut inputs = [
        ("steps, 1 present", Input::named("1")),
        ("steps, 8 present", Input::named("8")),
        ("steps, 96 present", Input::named("96")),
        ("lines of a record written, 8 present", Input::named("write")),
        ("records of 65,520 bytes read", Input::named("read")),
        ("records of 65,520 bytes read and reported", Input::named("report")),
        ("small records read and reported", Input::named("small")),
        ("old records of 65,535 bytes turned", Input::named("forward")),
        ("new records of 70,000 bytes turned back", Input::named("back")),
    ];
    for (_, input) in &mut inputs {
        input.check_same();
    }
    check_same_kinds();
    println!("All three sides give the same answers on these inputs, on the like with four kinds of train, on {DAMAGED} damaged");
    println!("copies of each record, and on {DAMAGED} lists of four kinds with refused steps, run, recorded, read and turned back.");
    println!("Lists have {STEPS} accepted steps; the number of trains present stays, but between a leave and the approach after it.");
    for (what, input) in &mut inputs {
        println!("  {what}: {}", input.says());
    }
    let [ours, full, kept, by_full, by_kept] = ["ours", "full looks", "kept", "by full", "by kept"];
    println!("\n{:<43}{ours:>12}{full:>12}{kept:>12}{by_full:>10}{by_kept:>10}", "a second, median; ratios of time");
    for (what, input) in &mut inputs {
        let units = input.units() as f64;
        let [ours, full, kept] = input.medians().map(|seconds| units / seconds);
        println!("{what:<43}{ours:>12.0}{full:>12.0}{kept:>12.0}{:>10.2}{:>10.2}", full / ours, kept / ours);
    }
}

// One round of one side on one input, and nothing else.
fn once(side: &str, input: &str) {
    let mut input = Input::named(input);
    match side {
        "ours" => input.round(Side::Ours),
        "full" => input.round(Side::Full),
        "kept" => input.round(Side::Kept),
        _ => {}
    }
}

fn main() {
    let words: Vec<String> = std::env::args().skip(1).collect();
    match words.iter().map(String::as_str).collect::<Vec<_>>()[..] {
        [] => measure(),
        ["once", side, input] => once(side, input),
        ["units", input] => println!("{}", Input::named(input).units()),
        _ => panic!("bench | bench once SIDE INPUT | bench units INPUT"),
    }
}
