// The proved library against the second program, on many inputs: seeded, so every run tries the same ones.
//
//   tools/library
//   rustc -O --edition 2021 tests/compare.rs -L target/staticlib -l static=exports -o target/compare && target/compare
//
// Random lists of steps (refused ones among them; sensible and absurd readings, as f32 bit patterns; 1 to 155 trains, their numbers
// from the whole range, at its edges and beyond; settings that are refused; four kinds, alike or each with its own times) through
// `weqhaso_run`: every answer, every command, the train that a lower names (0 beside all other steps), and the places beyond the
// list; also with too few settings and with values behind them. The same lists one call a step through `weqhaso_bench_start` and the
// calls of a bench, on words that hold anything before: every answer, and what the bench shows at the end. The same lists through `weqhaso_state`, with enough places and too
// few: also the bench after the list, its trains by number, wherever in the table they stand. The same lists through `weqhaso_look`,
// in the same way: the pose by its bits, the gate and the trains present. The same lists with two neighbours swapped that are
// accepted, about different trains, no clock steps, and not an approach and a leave: all but the place of a command between the two
// and the entries of trains stays, trains of lowers too. The same lists through `weqhaso_record`, into records just long enough,
// one byte shorter, longer, of any length, and with space for a step that lowers but not for its D line: every answer, every
// command and its train, every byte, and how many are used. Records of the accepted steps, whole, damaged, and with another number
// on a D or U line, through `weqhaso_read`: number and line; and through `weqhaso_report`, into buffers just long enough, one byte
// shorter, and longer: every byte, and how many are used. Long records about the longest text that is reported, 65,535 bytes. The
// stretches of these records and of some that are several times as long, one by one through `weqhaso_start`,
// `weqhaso_next_lowered` and `weqhaso_next_occupied`, and the instants of `weqhaso_below`. Lists of what a cabinet alone hears
// through `weqhaso_cabinet`: every answer, every command and its train, and the places beyond the list; and one call a step. Ten million clock steps, up
// to the last instant, of the bench and of a cabinet alone. A mismatch prints the input that shows it.
//
// The library keeps two trains beside its table, the soonest due one and the coming one that is first at its latest; the second
// program looks through the whole table each time. So there are also lists made for these two trains to change hands at nearly
// every step of a train, through all these functions, with a count of how often they do. A lower names the soonest one: so some of
// these lists let trains of several kinds come due in one tick, and it is counted how often a lower named one of several due in its
// tick, and one that another look would not have named.
//
// The report joins stretches with a train inside that touch; one by one they are given as they happened. So in some of the lists
// trains hand the crossing over, one leaving and the next going inside at one instant; their records also end at any step, or are
// damaged. Over all texts it is counted how often the report joins stretches, and of what sorts.
//
// The table has 96 entries for 65,535 numbers. So in some of the lists, of a bench and of a cabinet alone, more trains come than
// there are entries, and entries are used again and again; it is counted how often 17 was met, also in texts and without space
// for a line. One list has every number, and one such is heard. Records in the 14 columns that lines had before are 15 at line 1.
//
// Old records and new ones, turned by `weqhaso_to_new` and `weqhaso_to_old`: runs that document 01's form holds, written in both
// forms; runs that it does not hold, by a train above 96, a kind, a setting or several of these, at any line, also with a refusal of
// reading before it, in it or behind it; all these and the sample of document 01 damaged in many ways; texts of the other form and of
// both. Each into buffers just long enough, one byte shorter, shorter, empty and longer: number, line or bytes used, and every byte,
// also before and behind the buffer. What is taken must come back with every byte through the library alone, and hold the same run
// for the second program's readers and for `weqhaso_read` and `weqhaso_report`. Texts have up to 70,000 lines, two more bytes than
// fit in 24 bits, and two a clock step more than there are instants. It is counted what was refused, and where.

#[allow(dead_code)]
#[path = "../second/second.rs"]
mod second;

use second::{
    alike, angles_of, check, joined, lowered_runs, occupied_stretches, old_line, read, read_old,
    record_line, record_of, report, report_into, report_line, report_lines, ticks_for, to_new,
    to_old, turned, Bench, Cabinet, Command, Gate, Kind, Recorder, Run, Standing, Stretch,
    FIRST_LINE, FIRST_STEP_LINE, FULL, K, KINDS, LAST_INSTANT, LAST_LINE, LAST_TRAIN, LINE_BYTES,
    LONGEST_TEXT, OLD_FIRST_LINE, OLD_LAST_LINE, OLD_LAST_TRAIN, OLD_SAMPLE, OLD_SETTINGS, PLACES,
    SETTINGS,
};

extern "C" {
    fn weqhaso_run(
        values: *const u32,
        values_len: usize,
        letters: *const u8,
        letters_len: usize,
        numbers: *const u32,
        numbers_len: usize,
        readings: *const f32,
        readings_len: usize,
        answers: *mut u8,
        answers_len: usize,
        orders: *mut u8,
        orders_len: usize,
        named: *mut u32,
        named_len: usize,
    ) -> u8;
    fn weqhaso_state(
        values: *const u32,
        values_len: usize,
        letters: *const u8,
        letters_len: usize,
        numbers: *const u32,
        numbers_len: usize,
        readings: *const f32,
        readings_len: usize,
        answers: *mut u8,
        answers_len: usize,
        orders: *mut u8,
        orders_len: usize,
        named: *mut u32,
        named_len: usize,
        state: *mut u32,
        state_len: usize,
    ) -> u8;
    fn weqhaso_look(
        values: *const u32,
        values_len: usize,
        letters: *const u8,
        letters_len: usize,
        numbers: *const u32,
        numbers_len: usize,
        readings: *const f32,
        readings_len: usize,
        answers: *mut u8,
        answers_len: usize,
        orders: *mut u8,
        orders_len: usize,
        named: *mut u32,
        named_len: usize,
        pose: *mut f32,
        pose_len: usize,
        look: *mut u32,
        look_len: usize,
    ) -> u8;
    fn weqhaso_cabinet(
        values: *const u32,
        values_len: usize,
        letters: *const u8,
        letters_len: usize,
        numbers: *const u32,
        numbers_len: usize,
        answers: *mut u8,
        answers_len: usize,
        orders: *mut u8,
        orders_len: usize,
        named: *mut u32,
        named_len: usize,
    ) -> u8;
    fn weqhaso_record(
        values: *const u32,
        values_len: usize,
        letters: *const u8,
        letters_len: usize,
        numbers: *const u32,
        numbers_len: usize,
        readings: *const f32,
        readings_len: usize,
        answers: *mut u8,
        answers_len: usize,
        orders: *mut u8,
        orders_len: usize,
        named: *mut u32,
        named_len: usize,
        out: *mut u8,
        out_len: usize,
    ) -> u64;
    fn weqhaso_read(text: *const u8, len: usize) -> u64;
    fn weqhaso_report(text: *const u8, len: usize, out: *mut u8, out_len: usize) -> u64;
    fn weqhaso_start(places: *mut usize, places_len: usize) -> u8;
    fn weqhaso_next_lowered(
        text: *const u8,
        len: usize,
        places: *mut usize,
        places_len: usize,
    ) -> u8;
    fn weqhaso_next_occupied(
        text: *const u8,
        len: usize,
        places: *mut usize,
        places_len: usize,
    ) -> u8;
    fn weqhaso_below(text: *const u8, len: usize) -> usize;
    fn weqhaso_cabinet_start(words: *mut u32, len: usize, s: *const u32, s_len: usize) -> u64;
    fn weqhaso_cabinet_approach(words: *mut u32, len: usize, letter: u8, train: u32) -> u64;
    fn weqhaso_cabinet_leave(words: *mut u32, len: usize, train: u32) -> u64;
    fn weqhaso_cabinet_clock(words: *mut u32, len: usize) -> u64;
    fn weqhaso_bench_start(words: *mut u32, len: usize, s: *const u32, s_len: usize) -> u64;
    fn weqhaso_bench_approach(words: *mut u32, len: usize, letter: u8, train: u32) -> u64;
    fn weqhaso_bench_occupy(words: *mut u32, len: usize, train: u32) -> u64;
    fn weqhaso_bench_leave(words: *mut u32, len: usize, train: u32) -> u64;
    fn weqhaso_bench_clock(words: *mut u32, len: usize, reading: f32) -> u64;
    fn weqhaso_bench_pose(words: *const u32, len: usize, pose: *mut f32, places: usize) -> u64;
    fn weqhaso_bench_gate(words: *const u32, len: usize, angle: *mut f32, places: usize) -> u64;
    fn weqhaso_to_new(text: *const u8, len: usize, out: *mut u8, out_len: usize) -> u64;
    fn weqhaso_to_old(text: *const u8, len: usize, out: *mut u8, out_len: usize) -> u64;
}

// One of the two functions that give the next stretch.
type Next = unsafe extern "C" fn(*const u8, usize, *mut usize, usize) -> u8;

const STEPS: u64 = 340_000;
const LONG_TEXTS: u32 = 60;
const LONGER_TEXTS: u32 = 40;
const HAND_LISTS: u32 = 1_500;
const FULL_YARDS: u32 = 100;
const MEETINGS: u32 = 300;
const CONVOYS: u32 = 600;
const CROWDS: u32 = 200;
const HEARD_LISTS: u32 = 3_000;
const SHELVES: u32 = 1_200;
const LONG_SHELVES: u32 = 8;
const WHOLE: u64 = 99;
const UNTOUCHED: u8 = 99;
const UNTOUCHED_TRAIN: u32 = 99_999;

// The words of a cabinet and of a bench that the calls of one step are lent.
const CABINET_WORDS: usize = 405;
const BENCH_WORDS: usize = 411;
// The numbers of a bench.
const STATE: usize = 4 + 4 * PLACES;
// The most that the last columns of a line hold.
const WIDEST: u32 = 99_999;
// Train numbers at an edge, and beyond the last.
const EDGES: &[u32] = &[
    0, 1, 96, 97, 255, 256, 9_999, 10_000, 65_534, 65_535, 65_536, 65_537, 99_999, 131_071,
];

// Bytes that stand for no step, and such as a cabinet does not hear.
const NO_STEP: &[u8] = b"DUSCG abeolt\0\xff";
const NOT_HEARD: &[u8] = b"OOODUSCG ablt\0\xff";

// A small generator of numbers (xorshift).
struct Random(u64);

impl Random {
    fn next(&mut self) -> u64 {
        self.0 ^= self.0 << 13;
        self.0 ^= self.0 >> 7;
        self.0 ^= self.0 << 17;
        self.0
    }

    fn below(&mut self, n: u64) -> u64 {
        self.next() % n
    }

    fn one_of<T: Copy>(&mut self, from: &[T]) -> T {
        from[self.below(from.len() as u64) as usize]
    }
}

// Earliest and latest of each kind, not before this: all alike, or each with its own.
fn times(r: &mut Random, least: u32, wide: u64) -> [(u32, u32); 4] {
    let alike = r.below(3) == 0;
    let mut times = [(0, 0); 4];
    for k in 0..4 {
        let e = least + r.below(5 + wide) as u32;
        times[k] = if alike && k > 0 {
            times[0]
        } else {
            (e, e + r.below(6 + wide) as u32)
        };
    }
    times
}

// The thirteen settings in their order.
fn in_order(times: [(u32, u32); 4], others: [u32; 5]) -> [u32; SETTINGS] {
    let [one, two, three, four] = times;
    let [p, q, w, x, y] = others;
    [
        one.0, one.1, p, q, w, x, y, two.0, two.1, three.0, three.1, four.0, four.1,
    ]
}

// The largest difference of latest and earliest.
fn widest(times: [(u32, u32); 4]) -> u32 {
    times.map(|(e, f)| f - e).into_iter().max().unwrap()
}

// Mostly settings that are taken, close to their limits; now and then one that is spoiled.
fn settings(r: &mut Random) -> [u32; SETTINGS] {
    let p = r.one_of(&[5760, 2880, 1921, 1919, 1440, 960, 577, 100]);
    let q = r.one_of(&[5760, 2880, 1440, 700]);
    let (d, u) = ((5760 + p - 1) / p, (5760 + q - 1) / q);
    let times = times(r, d + 1, 0);
    let w = r.below(6) as u32;
    let x = d + widest(times) + r.below(3) as u32;
    let mut s = in_order(times, [p, q, w, x, u + r.below(3) as u32]);
    if r.below(10) == 0 {
        let i = r.below(SETTINGS as u64) as usize;
        s[i] = r.one_of(&[
            0,
            1,
            5761,
            60000,
            60001,
            u32::MAX,
            s[i] + 1,
            s[i].wrapping_sub(1),
        ]);
    }
    s
}

// A reading that the movement rule allows: at its limit, or this many 64ths beyond it.
fn driven(b: &Bench, beyond: u32) -> f32 {
    let angle = if b.cabinet.up {
        (b.angle + b.settings[3] + beyond).min(5760)
    } else {
        b.angle.saturating_sub(b.settings[2] + beyond)
    };
    angle as f32 / 64.0
}

// Mostly a reading that the movement rule allows.
fn reading(r: &mut Random, b: &Bench) -> f32 {
    let some = r.below(50) as u32 * (r.below(6) / 5) as u32;
    match r.below(12) {
        0 => f32::from_bits(r.next() as u32),
        1 => -0.0,
        2 => 90.015625,
        3 => r.below(5761) as f32 / 64.0,
        4 => (r.below(5761) as f32 + 0.5) / 64.0,
        _ => driven(b, some),
    }
}

// What stands beside the steps of a list: each one's refusal number, the letter of its command, and the train of a lower.
#[derive(Clone, Default, Debug, PartialEq)]
struct Told {
    answers: Vec<u8>,
    orders: Vec<u8>,
    named: Vec<u32>,
}

impl Told {
    fn untouched(places: [usize; 3]) -> Told {
        Told {
            answers: vec![UNTOUCHED; places[0]],
            orders: vec![UNTOUCHED; places[1]],
            named: vec![UNTOUCHED_TRAIN; places[2]],
        }
    }

    fn add(&mut self, answer: Result<Command, u8>) {
        let command = answer.ok().and_then(Command::letter_and_number);
        self.answers.push(answer.err().unwrap_or(0));
        self.orders
            .push(command.map_or(0, |(letter, _)| letter as u8));
        self.named.push(command.map_or(0, |(_, train)| train));
    }

    // Written into the first places.
    fn write(&mut self, told: &Told) {
        let n = told.answers.len();
        self.answers[..n].copy_from_slice(&told.answers);
        self.orders[..n].copy_from_slice(&told.orders);
        self.named[..n].copy_from_slice(&told.named);
    }

    // The commands with their trains.
    fn commands(&self) -> Vec<(u8, u32)> {
        let orders = self.orders.iter().copied();
        orders.zip(self.named.iter().copied()).collect()
    }
}

// A list of steps with what the second program answers to each.
#[derive(Default, Debug)]
struct List {
    letters: Vec<u8>,
    numbers: Vec<u32>,
    readings: Vec<f32>,
    told: Told,
    accepted: Vec<(char, u32)>,
    state: State,
    // the pose's two numbers by their bits
    pose: [u32; 2],
    look: [u32; 2],
}

impl List {
    fn add(
        &mut self,
        letter: char,
        number: u32,
        reading: f32,
        held: u32,
        answer: Result<Command, u8>,
    ) {
        self.letters.push(letter as u8);
        self.numbers.push(number);
        self.readings.push(reading);
        self.told.add(answer);
        if answer.is_ok() {
            self.accepted.push((letter, held));
        }
    }

    // The bench after the list, and what it shows.
    fn end(&mut self, b: &Bench) {
        let pose = b.pose();
        let gate = match b.shown() {
            Gate::Up => 0,
            Gate::Down => 1,
            Gate::Falling(_) => 2,
            Gate::Rising(_) => 3,
        };
        self.state = state_of(b);
        self.pose = [pose.angle, pose.change].map(f32::to_bits);
        self.look = [gate, b.trains_present() as u32];
    }
}

// Any number: at an edge, one that agrees with a train's in its lower 16 bits, or any other.
fn any_number(r: &mut Random, trains: &[u32]) -> u32 {
    let higher = 65_536 * r.one_of(&[1, 2, 3, 65_535]);
    let any = r.next() as u32;
    match r.below(3) {
        0 => r.one_of(EDGES),
        1 => r.one_of(trains) + higher,
        _ => r.one_of(&[any, any, u32::MAX]),
    }
}

// One that is able to do the step, with some luck; else any of the trains, or any number.
fn train(r: &mut Random, trains: &[u32], able: &[u32]) -> u32 {
    match r.below(20) {
        0..=2 => any_number(r, trains),
        3..=12 if !able.is_empty() => r.one_of(able),
        _ => r.one_of(trains),
    }
}

// Those present on the bench that stand so.
fn standing_so(b: &Bench, so: impl Fn(&Standing) -> bool) -> Vec<u32> {
    let present = b.table.iter().filter(|e| e.standing != Standing::Away);
    present
        .filter(|e| so(&e.standing))
        .map(|e| e.train)
        .collect()
}

// Those that are away, of four of the trains.
fn away(r: &mut Random, trains: &[u32], is_away: impl Fn(u32) -> bool) -> Vec<u32> {
    let mut some: Vec<u32> = (0..4).map(|_| r.one_of(trains)).collect();
    some.retain(|n| is_away(*n));
    some
}

// Kinds are 1 to 4.
fn number_of(kind: Kind) -> u32 {
    1 + KINDS.iter().position(|k| *k == kind).unwrap() as u32
}

// A bench by numbers: instant, angle, angle before and command; then the present trains by rising number, wherever in the table
// they stand: number, kind, 1 coming or 2 inside, and the instant of the approach.
#[derive(Clone, Default, Debug, PartialEq)]
struct State {
    head: [u32; 4],
    trains: Vec<[u32; 4]>,
}

fn state_of(b: &Bench) -> State {
    let before = b.angle as i32 - b.change;
    let present = b.present().into_iter();
    State {
        head: [b.now, b.angle, before as u32, !b.cabinet.up as u32],
        trains: present
            .map(|(n, kind, inside, a)| [n, number_of(kind), 1 + inside as u32, a])
            .collect(),
    }
}

// The state in the library's numbers, where an entry that no train has is four zeros and no number stands twice.
fn state_in(numbers: &[u32]) -> Option<State> {
    let entries = numbers[4..STATE].chunks_exact(4);
    let mut trains: Vec<[u32; 4]> = entries.map(|e| [e[0], e[1], e[2], e[3]]).collect();
    trains.retain(|e| *e != [0; 4]);
    trains.sort();
    let twice = trains.windows(2).any(|two| two[0][0] == two[1][0]);
    let no_train = trains.iter().any(|e| e[0] == 0);
    let head = [numbers[0], numbers[1], numbers[2], numbers[3]];
    (!twice && !no_train).then_some(State { head, trains })
}

// Different trains for a list, and how many of them approach at first: in one of so many lists about as many as the table has entries.
fn yard(r: &mut Random, one_of: u64) -> (Vec<u32>, usize) {
    if r.below(one_of) == 0 {
        let many = PLACES + r.below(60) as usize;
        (some_trains(r, many), many.min(94 + r.below(6) as usize))
    } else {
        let many = r.one_of(&[1, 2, 3, 8, 96, 140]);
        (some_trains(r, many), 0)
    }
}

fn steps(r: &mut Random, s: &[u32; SETTINGS], least: u64) -> List {
    let mut list = List::default();
    let Ok(mut b) = Bench::new(s) else {
        list.add('A', 1, 0.0, 1, Ok(Command::Nothing));
        return list;
    };
    let (trains, at_first) = yard(r, 16);
    for n in &trains[..at_first] {
        let kind = r.one_of(&KINDS);
        list.add(kind.letter(), *n, 0.0, *n, b.approach(kind, *n));
    }
    for _ in 0..least + r.below(120) {
        by_letter(r, s, &mut b, &mut list, &trains);
    }
    list.end(&b);
    list
}

// A step of a list by chance.
fn by_letter(r: &mut Random, s: &[u32; SETTINGS], b: &mut Bench, list: &mut List, trains: &[u32]) {
    let now = b.now;
    let noise = f32::from_bits(r.next() as u32);
    match r.below(10) {
        0 | 1 => {
            let able = away(r, trains, |n| b.standing(n) == Standing::Away);
            let n = train(r, trains, &able);
            let kind = r.one_of(&KINDS);
            list.add(kind.letter(), n, noise, n, b.approach(kind, n));
        }
        2 | 3 => {
            let due =
                |t: &Standing| matches!(t, Standing::Coming(k, a) if a + k.earliest(s) <= now);
            let n = train(r, trains, &standing_so(b, due));
            list.add('O', n, noise, n, b.occupy(n));
        }
        4 => {
            let inside = standing_so(b, |t| matches!(t, Standing::Inside(..)));
            let n = train(r, trains, &inside);
            list.add('L', n, noise, n, b.leave(n));
        }
        _ => {
            let f = reading(r, b);
            let answer = b.clock(f);
            list.add('T', r.next() as u32, f, b.angle, answer);
        }
    }
}

// The library's run of a list.
fn run(s: &[u32], list: &List, told: &mut Told) -> u8 {
    unsafe {
        weqhaso_run(
            s.as_ptr(),
            s.len(),
            list.letters.as_ptr(),
            list.letters.len(),
            list.numbers.as_ptr(),
            list.numbers.len(),
            list.readings.as_ptr(),
            list.readings.len(),
            told.answers.as_mut_ptr(),
            told.answers.len(),
            told.orders.as_mut_ptr(),
            told.orders.len(),
            told.named.as_mut_ptr(),
            told.named.len(),
        )
    }
}

// What a call of one step is to answer to a step of a list.
fn packed(told: &Told, i: usize) -> u64 {
    let (order, train) = (told.orders[i] as u64, told.named[i] as u64);
    told.answers[i] as u64 + 256 * order + 65_536 * train
}

// Whether a list goes through the library one call a step as it does in the second program, on words that hold anything before the
// start: every answer, refused calls leave every word, and after the list the pose and the gate. `call` makes a step.
fn same_steps(
    s: &[u32; SETTINGS],
    list: &List,
    words: &mut [u32],
    started: u64,
    call: impl Fn(&mut [u32], usize) -> u64,
) -> bool {
    let left = vec![UNTOUCHED_TRAIN; words.len()];
    let number = check(s) as u64;
    if started != number || (number > 0) != (words == &left[..]) {
        println!("settings {s:?}, one call a step: {number} wanted, {started} got");
        return false;
    }
    for i in 0..list.letters.len() * (number == 0) as usize {
        let before = words.to_vec();
        let (want, got) = (packed(&list.told, i), call(words, i));
        if got != want || (want % 256 > 0 && words != &before[..]) {
            println!("settings {s:?}, step {i} by a call: {want} wanted, {got} got\n{list:?}");
            return false;
        }
    }
    true
}

// On a bench.
fn same_calls(s: &[u32; SETTINGS], list: &List) -> bool {
    let mut words = [UNTOUCHED_TRAIN; BENCH_WORDS];
    let started = unsafe { weqhaso_bench_start(words.as_mut_ptr(), BENCH_WORDS, s.as_ptr(), s.len()) };
    let same = same_steps(s, list, &mut words, started, |words, i| {
        let (at, n, letter) = (words.as_mut_ptr(), list.numbers[i], list.letters[i]);
        unsafe {
            match letter {
                b'O' => weqhaso_bench_occupy(at, BENCH_WORDS, n),
                b'L' => weqhaso_bench_leave(at, BENCH_WORDS, n),
                b'T' => weqhaso_bench_clock(at, BENCH_WORDS, list.readings[i]),
                _ => weqhaso_bench_approach(at, BENCH_WORDS, letter, n),
            }
        }
    });
    if !same || started > 0 {
        return same;
    }
    let (mut pose, mut angle) = ([f32::NAN; 2], [f32::NAN]);
    let shown = unsafe { weqhaso_bench_pose(words.as_ptr(), BENCH_WORDS, pose.as_mut_ptr(), 2) };
    let gate = unsafe { weqhaso_bench_gate(words.as_ptr(), BENCH_WORDS, angle.as_mut_ptr(), 1) };
    let want = [list.pose[0], f32::NAN.to_bits()][(list.look[0] < 2) as usize];
    let same = shown == 0
        && pose.map(f32::to_bits) == list.pose
        && gate == 256 * list.look[0] as u64
        && angle[0].to_bits() == want;
    if !same {
        println!("settings {s:?}: pose {pose:?} and gate {gate} ({angle:?}) by calls\n{list:?}");
    }
    same
}

// On a cabinet alone.
fn same_cabinet_calls(s: &[u32; SETTINGS], list: &List) -> bool {
    let mut words = [UNTOUCHED_TRAIN; CABINET_WORDS];
    let started = unsafe { weqhaso_cabinet_start(words.as_mut_ptr(), CABINET_WORDS, s.as_ptr(), s.len()) };
    same_steps(s, list, &mut words, started, |words, i| {
        let (at, n, letter) = (words.as_mut_ptr(), list.numbers[i], list.letters[i]);
        unsafe {
            match letter {
                b'L' => weqhaso_cabinet_leave(at, CABINET_WORDS, n),
                b'T' => weqhaso_cabinet_clock(at, CABINET_WORDS),
                _ => weqhaso_cabinet_approach(at, CABINET_WORDS, letter, n),
            }
        }
    })
}

// Whether the library answers the list as the second program does, and leaves the places beyond it; also one call a step.
fn same_run(r: &mut Random, s: &[u32; SETTINGS], list: &List) -> bool {
    let number = check(s);
    let len = list.letters.len() + r.below(3) as usize;
    let mut told = Told::untouched([len; 3]);
    let mut want = told.clone();
    if number == 0 {
        want.write(&list.told);
    }
    let got = run(s, list, &mut told);
    let same = got == number && told == want;
    if !same {
        println!(
            "settings {s:?}: {number} wanted, {got} got\n{list:?}\n{want:?} wanted\n{told:?} got"
        );
    }
    same && same_calls(s, list)
}

// Whether fewer than thirteen settings are refused, 1, as the missing ones are 0, and values behind the thirteen change nothing.
fn same_values(r: &mut Random, s: &[u32; SETTINGS], list: &List) -> bool {
    let n = list.letters.len();
    let mut given = s.to_vec();
    given.extend((0..3).map(|_| r.next() as u32));
    (0..=given.len()).all(|many| {
        let left = Told::untouched([n; 3]);
        let mut told = left.clone();
        let got = run(&given[..many], list, &mut told);
        let want = if many < SETTINGS { 1 } else { check(s) };
        let want_told = if want == 0 { &list.told } else { &left };
        let same = got == want && told == *want_told;
        if !same {
            println!("{many} of the settings {given:?}: {want} wanted, {got} got\n{list:?}\n{told:?} got");
        }
        same
    })
}

// What is lent to a run of a list, and what is wanted of it. Spoiled 0, a letter is foreign to the list; 1 to 5, a slice is one place
// too short; without space for what is written after the run, 14.
struct Lent {
    letters: Vec<u8>,
    numbers: Vec<u32>,
    readings: Vec<f32>,
    told: Told,
    want: u8,
    want_told: Told,
}

impl Lent {
    fn new(
        r: &mut Random,
        s: &[u32; SETTINGS],
        list: &List,
        foreign: &[u8],
        spoiled: u64,
        space: bool,
    ) -> Lent {
        let n = list.letters.len();
        let short = |k| n - (spoiled == k) as usize;
        let mut letters = list.letters.clone();
        if spoiled == 0 {
            letters[r.below(n as u64) as usize] = r.one_of(foreign);
        }
        let places = [3, 4, 5].map(|k| short(k) + r.below(3) as usize * (spoiled > k) as usize);
        let told = Told::untouched(places);
        let want = match (check(s), spoiled) {
            (0, 0) => 15,
            (0, 1..=5) => 14,
            (0, _) if !space => 14,
            (k, _) => k,
        };
        let mut want_told = told.clone();
        if want == 0 {
            want_told.write(&list.told);
        }
        Lent {
            letters,
            numbers: list.numbers[..short(1)].to_vec(),
            readings: list.readings[..short(2)].to_vec(),
            told,
            want,
            want_told,
        }
    }

    // Whether the number, the answers, the commands and their trains are those wanted.
    fn same(&self, s: &[u32; SETTINGS], list: &List, got: u8) -> bool {
        let same = got == self.want && self.told == self.want_told;
        if !same {
            println!("settings {s:?}: {} wanted, {got} got", self.want);
            println!("{:?} for {list:?}", self.letters);
            println!("{:?} wanted\n{:?} got", self.want_told, self.told);
        }
        same
    }

    // The library's run, with the bench after it.
    fn run_to_state(&mut self, s: &[u32; SETTINGS], state: &mut [u32]) -> u8 {
        unsafe {
            weqhaso_state(
                s.as_ptr(),
                s.len(),
                self.letters.as_ptr(),
                self.letters.len(),
                self.numbers.as_ptr(),
                self.numbers.len(),
                self.readings.as_ptr(),
                self.readings.len(),
                self.told.answers.as_mut_ptr(),
                self.told.answers.len(),
                self.told.orders.as_mut_ptr(),
                self.told.orders.len(),
                self.told.named.as_mut_ptr(),
                self.told.named.len(),
                state.as_mut_ptr(),
                state.len(),
            )
        }
    }

    // The library's run, with what the bench shows after it.
    fn run_to_look(&mut self, s: &[u32; SETTINGS], pose: &mut [f32], look: &mut [u32]) -> u8 {
        unsafe {
            weqhaso_look(
                s.as_ptr(),
                s.len(),
                self.letters.as_ptr(),
                self.letters.len(),
                self.numbers.as_ptr(),
                self.numbers.len(),
                self.readings.as_ptr(),
                self.readings.len(),
                self.told.answers.as_mut_ptr(),
                self.told.answers.len(),
                self.told.orders.as_mut_ptr(),
                self.told.orders.len(),
                self.told.named.as_mut_ptr(),
                self.told.named.len(),
                pose.as_mut_ptr(),
                pose.len(),
                look.as_mut_ptr(),
                look.len(),
            )
        }
    }
}

// What a cabinet alone hears, with what the second program's answers: trains that are present and others, any number.
fn hearing(r: &mut Random, s: &[u32; SETTINGS]) -> List {
    let mut list = List::default();
    let Ok(mut c) = Cabinet::new(s) else {
        list.add('T', 0, 0.0, 0, Ok(Command::Nothing));
        return list;
    };
    let (trains, at_first) = yard(r, 8);
    let quiet = r.one_of(&[1, 3, 6, 12]);
    for n in &trains[..at_first] {
        let kind = r.one_of(&KINDS);
        list.add(kind.letter(), *n, 0.0, *n, c.approach(kind, *n));
    }
    for _ in 0..1 + r.below(150) {
        heard_by_chance(r, &mut c, &mut list, &trains, quiet);
    }
    // who is present?
    if at_first > 0 {
        for n in mixed(r, &trains) {
            list.add('L', n, 0.0, n, c.leave(n));
        }
    }
    list
}

// A step that a cabinet alone hears, or fewer clock steps than this.
fn heard_by_chance(r: &mut Random, c: &mut Cabinet, list: &mut List, trains: &[u32], quiet: u64) {
    let letters: &[char] = match c.trains_present() {
        90.. => &['A', 'A', 'A', 'L', 'T'],
        _ => &['A', 'A', 'L', 'T', 'T', 'T', 'T', 'T'],
    };
    match r.one_of(letters) {
        'A' => {
            let able = away(r, trains, |n| c.train(n).is_none());
            let n = train(r, trains, &able);
            let kind = r.one_of(&KINDS);
            list.add(kind.letter(), n, 0.0, n, c.approach(kind, n));
        }
        'L' => {
            let present: Vec<u32> = c.present().iter().map(|t| t.0).collect();
            let n = train(r, trains, &present);
            list.add('L', n, 0.0, n, c.leave(n));
        }
        _ => {
            for _ in 0..1 + r.below(quiet) {
                list.add('T', r.next() as u32, 0.0, 0, c.clock());
            }
        }
    }
}

// The library's cabinet alone, taken through a list.
fn run_cabinet(s: &[u32; SETTINGS], letters: &[u8], numbers: &[u32], told: &mut Told) -> u8 {
    unsafe {
        weqhaso_cabinet(
            s.as_ptr(),
            s.len(),
            letters.as_ptr(),
            letters.len(),
            numbers.as_ptr(),
            numbers.len(),
            told.answers.as_mut_ptr(),
            told.answers.len(),
            told.orders.as_mut_ptr(),
            told.orders.len(),
            told.named.as_mut_ptr(),
            told.named.len(),
        )
    }
}

// Whether it answers the list as the second program's does, and leaves all other places.
fn same_heard(r: &mut Random, s: &[u32; SETTINGS], list: &List, spoiled: u64) -> bool {
    let mut lent = Lent::new(r, s, list, NOT_HEARD, spoiled, true);
    let got = run_cabinet(s, &lent.letters, &lent.numbers, &mut lent.told);
    lent.same(s, list, got) && (spoiled != WHOLE || same_cabinet_calls(s, list))
}

// A present train: its number, the instant of its approach, its due instant and its latest.
struct Present {
    train: u32,
    since: u32,
    due: u32,
    latest: u32,
}

// The present trains after this step of a list, in the order of their approaches.
fn present_after(s: &[u32; SETTINGS], list: &List, step: usize) -> Vec<Present> {
    let (mut now, mut present) = (0, Vec::new());
    for i in (0..=step).filter(|i| list.told.answers[*i] == 0) {
        let (letter, train) = (list.letters[i] as char, list.numbers[i]);
        match Kind::from_letter(letter) {
            Some(kind) => present.push(Present {
                train,
                since: now,
                due: now + kind.earliest(s),
                latest: now + kind.latest(s),
            }),
            None if letter == 'L' => present.retain(|t| t.train != train),
            None => now += (letter == 'T') as u32,
        }
    }
    present
}

// Lowers, and how many of them named a train that was due in one tick with another present one; with two or more others; with one
// that approached at another instant; did not have the lowest number present; was not the last to approach; neither of these; was
// not the first to approach; was not the first at its latest. So a look that takes the wrong one is seen.
#[derive(Default, Debug)]
struct Lowers {
    all: u32,
    // by a number of five digits
    five: u32,
    named: [u32; 8],
}

impl Lowers {
    fn count(&mut self, s: &[u32; SETTINGS], list: &List) {
        for i in (0..list.letters.len()).filter(|i| list.told.orders[*i] == b'D') {
            self.count_one(&present_after(s, list, i), list.told.named[i]);
        }
    }

    fn count_one(&mut self, present: &[Present], named: u32) {
        let Some(own) = present.iter().find(|t| t.train == named) else {
            return;
        };
        let same_tick = || present.iter().filter(|t| t.due == own.due);
        let not_lowest = present.iter().any(|t| t.train < named);
        let not_last = present[present.len() - 1].train != named;
        let first_latest = present.iter().map(|t| (t.latest, t.train)).min();
        let is = [
            same_tick().count() >= 2,
            same_tick().count() >= 3,
            same_tick().any(|t| t.since != own.since),
            not_lowest,
            not_last,
            not_lowest && not_last,
            present[0].train != named,
            first_latest != Some((own.latest, named)),
        ];
        self.all += 1;
        self.five += (named >= 10_000) as u32;
        for (n, is) in self.named.iter_mut().zip(is) {
            *n += is as u32;
        }
    }

    fn check_enough(&self, least: [u32; 8]) {
        let enough = self.named.iter().zip(least).all(|(n, least)| *n >= least);
        assert!(enough, "{self:?}, at least {least:?}");
        assert!(self.five >= 1_000, "{self:?}");
    }
}

// How often the cabinet alone lowered, and whom for, raised, and refused with 5, 6, 9 and 17.
#[derive(Default, Debug)]
struct Given {
    lowers: Lowers,
    raises: u32,
    refused: [u32; 4],
}

impl Given {
    fn count(&mut self, s: &[u32; SETTINGS], list: &List) {
        let many = |bytes: &[u8], b: u8| bytes.iter().filter(|x| **x == b).count() as u32;
        self.lowers.count(s, list);
        self.raises += many(&list.told.orders, b'U');
        for (i, k) in [5, 6, 9, 17].into_iter().enumerate() {
            self.refused[i] += many(&list.told.answers, k);
        }
    }

    fn check_enough(&self) {
        assert!(self.lowers.all >= 1_000 && self.raises >= 1_000, "{self:?}");
        assert!(self.refused.iter().all(|n| *n >= 1_000), "{self:?}");
        self.lowers
            .check_enough([450, 70, 25, 300, 700, 150, 400, 150]);
    }
}

// A list of what a cabinet alone hears, its buffers longer, just long enough, too short, and with a foreign letter: how many differ.
fn heard_differs(r: &mut Random, s: &[u32; SETTINGS], list: &List) -> u32 {
    let spoiled = [WHOLE, WHOLE, 0, 1, 3, 4, 5];
    let differ = spoiled.into_iter().filter(|k| !same_heard(r, s, list, *k));
    differ.count() as u32
}

// Whether the library leaves the bench after the list as the second program does, with the same answers and commands, and leaves
// all other places.
fn same_state(
    r: &mut Random,
    s: &[u32; SETTINGS],
    list: &List,
    spoiled: u64,
    places: usize,
) -> bool {
    let mut lent = Lent::new(r, s, list, NO_STEP, spoiled, places >= STATE);
    let mut state: Vec<u32> = (0..places).map(|_| r.next() as u32).collect();
    let left = state.clone();
    let got = lent.run_to_state(s, &mut state);
    let same = match lent.want {
        0 => state_in(&state).as_ref() == Some(&list.state) && state[STATE..] == left[STATE..],
        _ => state == left,
    };
    if !same {
        println!("settings {s:?}, spoiled {spoiled}, {places} places\n{list:?}");
        println!("{left:?} before\n{state:?} got");
    }
    lent.same(s, list, got) && same
}

// Whether the bench after the list shows what the second program's shows: pose, gate and trains present, with the same answers
// and commands; and the library leaves all other places.
fn same_look(
    r: &mut Random,
    s: &[u32; SETTINGS],
    list: &List,
    spoiled: u64,
    places: [usize; 2],
) -> bool {
    let mut lent = Lent::new(
        r,
        s,
        list,
        NO_STEP,
        spoiled,
        places[0] >= 2 && places[1] >= 2,
    );
    // no NaN, whose bits need not survive a copy
    let mut pose: Vec<f32> = (0..places[0]).map(|_| r.below(9_999) as f32).collect();
    let mut look: Vec<u32> = (0..places[1]).map(|_| r.next() as u32).collect();
    let bits = |pose: &[f32]| -> Vec<u32> { pose.iter().map(|f| f.to_bits()).collect() };
    let (mut want_pose, mut want_look) = (bits(&pose), look.clone());
    if lent.want == 0 {
        want_pose[..2].copy_from_slice(&list.pose);
        want_look[..2].copy_from_slice(&list.look);
    }
    let got = lent.run_to_look(s, &mut pose, &mut look);
    let same = bits(&pose) == want_pose && look == want_look;
    if !same {
        println!("settings {s:?}, spoiled {spoiled}, {places:?} places\n{list:?}");
        println!("{want_pose:?}, {want_look:?} wanted\n{pose:?}, {look:?} got");
    }
    lent.same(s, list, got) && same
}

// Whether the library answers clock steps with the arm at 90 degrees, one more than there are instants, as the second program
// does: 10 at the last of them; and its cabinet alone in the same way.
fn same_clock(s: &[u32; SETTINGS]) -> bool {
    let n = LAST_INSTANT as usize + 1;
    let mut b = Bench::new(s).unwrap();
    let mut c = Cabinet::new(s).unwrap();
    let (mut want, mut alone) = (Told::default(), true);
    for _ in 0..n {
        let answer = b.clock(90.0);
        alone = c.clock() == answer && alone;
        want.add(answer);
    }
    let list = List {
        letters: vec![b'T'; n],
        numbers: vec![0; n],
        readings: vec![90.0; n],
        ..List::default()
    };
    let mut told = Told::untouched([n; 3]);
    let got = run(s, &list, &mut told);
    if got != 0 || want.answers[n - 1] != 10 || told != want {
        let (are, were) = (told.commands(), want.commands());
        let at = (0..n).find(|i| told.answers[*i] != want.answers[*i] || are[*i] != were[*i]);
        println!("settings {s:?}: {got} got; of {n} clock steps at 90 degrees the first that differs is {at:?}");
        return false;
    }
    let mut told = Told::untouched([n; 3]);
    let got = run_cabinet(s, &list.letters, &list.numbers, &mut told);
    let heard = alone && got == 0 && told == want;
    if !heard {
        println!("settings {s:?}: {got} got of a cabinet alone; its {n} clock steps differ");
    }
    heard
}

// What the second program records of the list: each step's answer and command, and the bytes used, or the refusal of the start.
fn recorded(s: &[u32; SETTINGS], list: &List, out: &mut [u8]) -> Result<(Told, usize), u8> {
    let mut recorder = Recorder::start(s, out)?;
    let mut told = Told::default();
    for (i, letter) in list.letters.iter().enumerate() {
        let answer = match letter {
            b'T' => recorder.clock(list.readings[i]),
            _ => recorder.step(*letter as char, list.numbers[i]),
        };
        told.add(answer);
    }
    Ok((told, LINE_BYTES * (recorder.lines.len() + 1)))
}

// The library's recording of a list.
fn record(
    s: &[u32; SETTINGS],
    letters: &[u8],
    numbers: &[u32],
    readings: &[f32],
    told: &mut Told,
    out: &mut [u8],
) -> u64 {
    unsafe {
        weqhaso_record(
            s.as_ptr(),
            s.len(),
            letters.as_ptr(),
            letters.len(),
            numbers.as_ptr(),
            numbers.len(),
            readings.as_ptr(),
            readings.len(),
            told.answers.as_mut_ptr(),
            told.answers.len(),
            told.orders.as_mut_ptr(),
            told.orders.len(),
            told.named.as_mut_ptr(),
            told.named.len(),
            out.as_mut_ptr(),
            out.len(),
        )
    }
}

// Whether the library records the list in this many bytes as the second program does, and leaves all other places. Now and then
// a letter stands for no step, or a slice is one place too short.
fn same_record(r: &mut Random, s: &[u32; SETTINGS], list: &List, bytes: usize) -> bool {
    let n = list.letters.len();
    let spoiled = r.below(30);
    let short = |k| n - (spoiled == k) as usize;
    let mut letters = list.letters.clone();
    if spoiled == 0 {
        letters[r.below(n as u64) as usize] = r.one_of(NO_STEP);
    }
    let numbers = &list.numbers[..short(1)];
    let readings = &list.readings[..short(2)];
    let places = [3, 4, 5].map(|k| short(k) + r.below(3) as usize * (spoiled > k) as usize);
    let mut told = Told::untouched(places);
    let mut out: Vec<u8> = (0..bytes).map(|_| r.next() as u8).collect();

    let (mut want_told, mut want_out) = (told.clone(), out.clone());
    let whole = match (check(s), spoiled) {
        (0, 0) => Err(15),
        (0, 1..=5) => Err(14),
        (0, _) => recorded(s, list, &mut want_out),
        (k, _) => Err(k),
    };
    let want = whole.map_or_else(u64::from, |(each, used)| {
        want_told.write(&each);
        256 * used as u64
    });
    let got = record(s, &letters, numbers, readings, &mut told, &mut out);
    let same = got == want && told == want_told && out == want_out;
    if !same {
        println!("settings {s:?}, spoiled {spoiled}, {bytes} bytes: {want} wanted, {got} got");
        println!("{letters:?}\n{list:?}\n{want_told:?} wanted\n{told:?} got");
        println!("{want_out:?} wanted\n{out:?} got");
    }
    same
}

// A line's first byte, where the text has a line.
fn line_at(r: &mut Random, text: &[u8]) -> usize {
    LINE_BYTES * r.below((text.len() / LINE_BYTES).max(1) as u64) as usize
}

// What stands in the last columns of a line: a number of any width, or not as a number stands there.
fn last_columns(r: &mut Random) -> String {
    let most = r.one_of(&[9, 96, 9_999, WIDEST]) as u64;
    let n = match r.below(2) {
        0 => r.one_of(EDGES).min(WIDEST),
        _ => r.below(most + 1) as u32,
    };
    match r.below(8) {
        0 => format!("{n:05}"),
        1 => format!("{n:<5}"),
        2 => format!("{:>4} ", n % 10_000),
        3 => format!("{:>5}", format!("0{}", n % 10_000)),
        _ => format!("{n:>5}"),
    }
}

// Bytes changed, lines dropped, doubled or cut, something appended, a number off by one, other last columns, a line one column
// narrower, as before the fifteenth, or wider.
fn damage(r: &mut Random, text: &mut Vec<u8>) {
    let i = line_at(r, text);
    let byte = r.below(text.len() as u64) as usize;
    match r.below(11) {
        8 => drop(text.splice(i + 10..i + 15, last_columns(r).into_bytes())),
        9 => {
            text.remove(i + 10);
        }
        10 => text.insert(i + r.below(LINE_BYTES as u64) as usize, b' '),
        0 => text[byte] = r.next() as u8,
        1 => text[byte] = r.one_of(b"0123456789 ABEFCOLTDUS"),
        2 => drop(text.drain(i..i + LINE_BYTES)),
        3 => {
            let line = text[i..i + LINE_BYTES].to_vec();
            text.splice(i..i, line);
        }
        4 => text.truncate(byte),
        5 => text.push(r.next() as u8),
        k => {
            let column = if k == 6 { 7 } else { 14 };
            let digit = text[i + column];
            if digit.is_ascii_digit() {
                text[i + column] = if digit == b'9' { b'8' } else { digit + 1 };
            }
        }
    }
}

// The text with 14 columns a line, as it was before five-digit numbers; of these the last four digits.
fn narrowed(text: &[u8]) -> Vec<u8> {
    let lines = text.chunks(LINE_BYTES).enumerate();
    let narrow = lines.flat_map(|(i, line)| {
        let fixed = i == 0 || line.starts_with(b"  END");
        let column = if fixed { 0 } else { 10 };
        [&line[..column], &line[column + 1..]].concat()
    });
    narrow.collect()
}

fn same_text(text: &[u8]) -> bool {
    let want = read(text)
        .err()
        .map_or((0, 0), |(number, line)| (number as u64, line as u64));
    let got = unsafe { weqhaso_read(text.as_ptr(), text.len()) };
    let same = (got % 256, got / 256) == want;
    if !same {
        println!(
            "{want:?} wanted, {:?} got (number, line)\n{}",
            (got % 256, got / 256),
            String::from_utf8_lossy(text)
        );
    }
    same
}

// Whether the library reports the text in this many bytes as the second program does, and leaves all other bytes.
fn same_report(r: &mut Random, text: &[u8], bytes: usize) -> bool {
    let mut out: Vec<u8> = (0..bytes).map(|_| r.next() as u8).collect();
    let mut want_out = out.clone();
    let want = report_into(text, &mut want_out)
        .map_or_else(|(number, _)| u64::from(number), |used| 256 * used as u64);
    let got = unsafe { weqhaso_report(text.as_ptr(), text.len(), out.as_mut_ptr(), out.len()) };
    let same = got == want && out == want_out;
    if !same {
        println!("report in {bytes} bytes: {want} wanted, {got} got");
        println!("{}", String::from_utf8_lossy(text));
        println!("{want_out:?} wanted\n{out:?} got");
    }
    same
}

// The stretches that the library gives one by one from the first step on, where it keeps to its seven places.
fn walked(r: &mut Random, text: &[u8], next: Next) -> Option<Vec<Stretch>> {
    let mut places: Vec<usize> = (0..9).map(|_| r.next() as usize).collect();
    let behind = places[7..].to_vec();
    let few = places[..6].to_vec();
    if unsafe { weqhaso_start(places.as_mut_ptr(), 6) } != 14
        || unsafe { next(text.as_ptr(), text.len(), places.as_mut_ptr(), 6) } != 14
        || places[..6] != few
        || unsafe { weqhaso_start(places.as_mut_ptr(), places.len()) } != 0
        || places[..7] != [LINE_BYTES * (FIRST_STEP_LINE - 1), 0, 0, 0, 0, 0, 0]
    {
        return None;
    }
    let mut stretches = Vec::new();
    loop {
        let cursor = places[..4].to_vec();
        let number = unsafe {
            next(
                text.as_ptr(),
                text.len(),
                places.as_mut_ptr(),
                7 + r.below(3) as usize,
            )
        };
        // a cursor goes on, or stays where nothing is found
        let found = places[4];
        let goes_on = cursor[0] < places[0] && places[0] <= text.len();
        let stays = cursor == places[..4] && places[5..7] == [0, 0];
        let kept = if found == 0 { stays } else { goes_on };
        if number != 0 || found > 2 || !kept || places[7..] != behind {
            return None;
        }
        if found == 0 {
            return Some(stretches);
        }
        stretches.push(Stretch {
            first: places[5] as u32,
            last: places[6] as u32,
            running: found == 2,
        });
    }
}

// Whether the library gives the stretches of an accepted text as the second program has them, and the instants below 90 degrees;
// on a refused text it only has to come to an end.
fn same_stretches(r: &mut Random, text: &[u8], run: Option<&Run>) -> bool {
    let lowered = walked(r, text, weqhaso_next_lowered);
    let occupied = walked(r, text, weqhaso_next_occupied);
    let below = unsafe { weqhaso_below(text.as_ptr(), text.len()) };
    let Some(run) = run else {
        return lowered.is_some() && occupied.is_some();
    };
    let angles = angles_of(run);
    let want_below = angles.iter().filter(|(_, angle)| *angle < FULL).count();
    let same = lowered == Some(lowered_runs(&angles))
        && occupied == Some(occupied_stretches(run))
        && below == want_below;
    if !same {
        println!("stretches: {lowered:?}, {occupied:?}, {below} below 90 degrees got");
        println!("{}", String::from_utf8_lossy(text));
    }
    same
}

// All texts that are compared; those refused with 17; accepted ones whose report joins stretches; the wholes: of two, of three or more, of six or more,
// with one of a single instant between the first and the last, still running, and running with the last begun at the record's last
// instant; neighbours that are one tick apart and stay two.
#[derive(Default, Debug)]
struct Joins {
    texts: u32,
    full: u32,
    joining: u32,
    wholes: [u32; 6],
    apart: u32,
}

impl Joins {
    // A text, and what the second program reads. Stretches of a text that is too long are not reported.
    fn count(&mut self, text: &[u8], run: &Result<Run, (u8, usize)>) {
        self.texts += 1;
        match run {
            Ok(run) if text.len() <= LONGEST_TEXT => self.count_stretches(&occupied_stretches(run)),
            Err((17, _)) => self.full += 1,
            _ => {}
        }
    }

    fn count_stretches(&mut self, stretches: &[Stretch]) {
        let wholes = joined(stretches);
        self.joining += (wholes.len() < stretches.len()) as u32;
        let apart = |two: &&[Stretch]| two[0].last + 1 == two[1].first;
        self.apart += wholes.windows(2).filter(apart).count() as u32;
        for whole in wholes {
            let mut parts = stretches.to_vec();
            parts.retain(|part| whole.first <= part.first && part.last <= whole.last);
            if parts.len() >= 2 {
                self.count_one(whole, &parts);
            }
        }
    }

    fn count_one(&mut self, whole: Stretch, parts: &[Stretch]) {
        let many = parts.len();
        let one_instant = |part: &Stretch| part.first == part.last;
        let is = [
            many == 2,
            many >= 3,
            many >= 6,
            parts[1..many - 1].iter().any(one_instant),
            whole.running,
            whole.running && one_instant(&parts[many - 1]),
        ];
        for (n, is) in self.wholes.iter_mut().zip(is) {
            *n += is as u32;
        }
    }

    fn check_enough(&self) {
        let least = [3_200, 3_000, 750, 1_800, 900, 480];
        let enough = self.wholes.iter().zip(least).all(|(n, least)| *n >= least);
        assert!(enough, "{self:?}, at least {least:?}");
        assert!(self.joining >= 2_300 && self.apart >= 3_100, "{self:?}");
        assert!(self.full >= 200, "{self:?}");
    }
}

// The verdict on a text, its stretches, and its reports in buffers that fit, are one byte short, and longer: how many differ.
fn text_differs(q: &mut Random, text: &[u8], joins: &mut Joins) -> u32 {
    let run = read(text);
    joins.count(text, &run);
    let used = report(text, usize::MAX).map_or(0, |lines| lines.len());
    let more = used + 1 + q.below(40) as usize;
    let mut differ = !same_text(text) as u32 + !same_stretches(q, text, run.as_ref().ok()) as u32;
    for bytes in [used, used - 1, more] {
        differ += !same_report(q, text, bytes) as u32;
    }
    differ
}

// A step of the list that gives this command, and how many lines its record has before the command's.
fn commanding(r: &mut Random, list: &List, command: u8) -> Option<(usize, usize)> {
    let told = &list.told;
    let gives = |i: &usize| told.orders[*i] == command;
    let steps: Vec<usize> = (0..list.letters.len()).filter(gives).collect();
    if steps.is_empty() {
        return None;
    }
    let step = r.one_of(&steps);
    Some((step, lines_with(told, step)))
}

// How many lines the record has with this step's, where it is accepted, and without its command's.
fn lines_with(told: &Told, step: usize) -> usize {
    let taken = told.answers[..=step].iter().filter(|a| **a == 0).count();
    let commands = told.orders[..step].iter().filter(|o| **o != 0).count();
    FIRST_STEP_LINE - 1 + taken + commands
}

// Lists in which an approach was refused with 17, and those steps; lists in which 96 trains were present, and approaches after which
// they were so again; steps refused with 17, and not with 14, in a record without space for another line.
#[derive(Default, Debug)]
struct Crowded {
    lists: u32,
    refused: u32,
    full: u32,
    again: u32,
    no_space: u32,
}

impl Crowded {
    fn count(&mut self, list: &List) {
        let told = &list.told;
        let refused = told.answers.iter().filter(|a| **a == 17).count() as u32;
        let (mut present, mut times) = (0, 0);
        for i in (0..list.letters.len()).filter(|i| told.answers[*i] == 0) {
            let letter = list.letters[i] as char;
            present += is_approach(letter) as usize;
            present -= (letter == 'L') as usize;
            times += (is_approach(letter) && present == PLACES) as u32;
        }
        self.lists += (refused > 0) as u32;
        self.refused += refused;
        self.full += (times > 0) as u32;
        self.again += times.saturating_sub(1);
    }

    // The list recorded with no space left at a step that is refused with 17: how many differ.
    fn record_differs(&mut self, r: &mut Random, s: &[u32; SETTINGS], list: &List) -> u32 {
        let refused = |i: &usize| list.told.answers[*i] == 17;
        let steps: Vec<usize> = (0..list.letters.len()).filter(refused).collect();
        if steps.is_empty() {
            return 0;
        }
        let step = r.one_of(&steps);
        let lines = lines_with(&list.told, step) + 1;
        let bytes = LINE_BYTES * lines + r.below(LINE_BYTES as u64) as usize;
        let whole = recorded(s, list, &mut vec![0; bytes]);
        self.no_space += whole.is_ok_and(|(told, _)| told.answers[step] == 17) as u32;
        !same_record(r, s, list, bytes) as u32
    }

    fn says(&self) -> String {
        let (lists, refused, full, again) = (self.lists, self.refused, self.full, self.again);
        format!("{lists} lists that met 17, {refused} steps refused with 17, {full} lists with a full table, full again {again} times")
    }

    fn check_enough(&self, least: [u32; 5]) {
        let counts = [
            self.lists,
            self.refused,
            self.full,
            self.again,
            self.no_space,
        ];
        let enough = counts.iter().zip(least).all(|(n, least)| *n >= least);
        assert!(enough, "{self:?}, at least {least:?}");
    }
}

// Every train number once, and some beyond: 96 at a time approach, one too many is refused, the arm goes down, and all go inside and
// leave. The cabinet alone hears all but the occupies.
fn every_number(r: &mut Random) -> (List, List) {
    let numbers = mixed(r, &(0..=LAST_TRAIN + 100).collect::<Vec<u32>>());
    let (mut letters, mut named) = (Vec::new(), Vec::new());
    let mut all = |letter: u8, trains: &[u32]| {
        letters.extend(trains.iter().map(|_| letter));
        named.extend_from_slice(trains);
    };
    for (i, trains) in numbers.chunks(PLACES).enumerate() {
        all(b"ABEF"[i % 4], trains);
        all(b'A', &numbers[..1]);
        all(b'T', &[FULL, FULL / 2, 0]);
        for letter in [b'O', b'L'] {
            all(letter, trains);
            all(letter, &numbers[..1]);
        }
        all(b'T', &[FULL]);
    }
    let degrees = |n: &u32| (*n).min(FULL) as f32 / 64.0;
    let readings: Vec<f32> = named.iter().map(degrees).collect();
    let list = answered(&K, &letters, &named, &readings);
    let gone = list.accepted.iter().filter(|step| step.0 == 'L').count();
    assert!(gone >= LAST_TRAIN as usize, "{gone} trains have left");
    let mut c = Cabinet::new(&K).expect("settings that are taken");
    let mut heard = List::default();
    for (letter, n) in letters.iter().zip(named).filter(|(l, _)| **l != b'O') {
        let letter = *letter as char;
        heard.add(letter, n, 0.0, n, c.step(letter, n));
    }
    (list, heard)
}

// Records with another number on a command line, and how often that was 16 at this line: on a D line another present train's, 0, a
// neighbour of its own, one out of range; on a U line any but 0. Recordings with space for the line of a step that lowers, but too
// little for its D line too, and how often that was 14.
#[derive(Default, Debug)]
struct CommandLines {
    refused: [u32; 5],
    records: u32,
    no_space: u32,
}

impl CommandLines {
    // A list under settings that are taken, in these ways: how many differ.
    fn differ(
        &mut self,
        r: &mut Random,
        s: &[u32; SETTINGS],
        list: &List,
        joins: &mut Joins,
    ) -> u32 {
        let train = r.below(4) as usize;
        self.number_differs(r, s, list, train, joins)
            + self.number_differs(r, s, list, 4, joins)
            + self.no_space_differs(r, s, list)
    }

    // The record with a number of this sort on a command line: how many differ.
    fn number_differs(
        &mut self,
        r: &mut Random,
        s: &[u32; SETTINGS],
        list: &List,
        sort: usize,
        joins: &mut Joins,
    ) -> u32 {
        let command = if sort < 4 { b'D' } else { b'U' };
        let Some((step, before)) = commanding(r, list, command) else {
            return 0;
        };
        let own = list.told.named[step];
        let present = present_after(s, list, step).into_iter().map(|t| t.train);
        let others: Vec<u32> = present.filter(|n| *n != own).collect();
        let most = r.one_of(&[1, 96, 9_999, WIDEST as u64]);
        let out_of_range = LAST_TRAIN + 1 + r.below((WIDEST - LAST_TRAIN) as u64) as u32;
        let number = match sort {
            0 if others.is_empty() => return 0,
            0 => r.one_of(&others),
            1 => 0,
            // the next ones, or its other four digits after another first one
            2 => r.one_of(&[
                own.saturating_sub(1),
                own + 1,
                (own + 10_000) % (WIDEST + 1),
            ]),
            // or its lower 16 bits
            3 if own + 65_536 <= WIDEST => r.one_of(&[own + 65_536, out_of_range]),
            3 => out_of_range,
            _ => 1 + r.below(most) as u32,
        };
        let (mut text, _) =
            record_of(s, &list.accepted, LONGEST_TEXT).expect("settings that are taken");
        let columns = LINE_BYTES * before + 10..LINE_BYTES * before + 15;
        text[columns].copy_from_slice(format!("{number:>5}").as_bytes());
        self.refused[sort] += (read(&text).err() == Some((16, before + 1))) as u32;
        text_differs(r, &text, joins)
    }

    // The list recorded with too little space for a D line: how many differ.
    fn no_space_differs(&mut self, r: &mut Random, s: &[u32; SETTINGS], list: &List) -> u32 {
        let Some((step, before)) = commanding(r, list, b'D') else {
            return 0;
        };
        let bytes = LINE_BYTES * (before + 1) + r.below(LINE_BYTES as u64) as usize;
        let whole = recorded(s, list, &mut vec![0; bytes]);
        self.records += 1;
        self.no_space += whole.is_ok_and(|(told, _)| told.answers[step] == 14) as u32;
        !same_record(r, s, list, bytes) as u32
    }

    fn check_enough(&self) {
        assert!(self.refused.iter().all(|n| *n >= 900), "{self:?}");
        assert!(self.no_space >= 5_000, "{self:?}");
    }
}

// A long record about the longest text: ending at it or up to two lines around it, whole, cut, something appended, or damaged.
fn long_text(r: &mut Random) -> Vec<u8> {
    loop {
        let s = settings(r);
        let list = steps(r, &s, 20_000);
        let capacity = LONGEST_TEXT - 30 + r.below(61) as usize;
        let Ok((mut text, _)) = record_of(&s, &list.accepted, capacity) else {
            continue;
        };
        match r.below(6) {
            0 => text.truncate(text.len() - 1 - r.below(20) as usize),
            1 => text.extend((0..1 + r.below(20)).map(|_| b'0')),
            2 => text.resize(LONGEST_TEXT + r.below(2) as usize, b' '),
            3 => damage(r, &mut text),
            _ => {}
        }
        return text;
    }
}

// The record of a list by what stands beside its steps: the second program's recorder writes all of its lines anew at each step.
fn text_of(s: &[u32; SETTINGS], list: &List) -> Vec<u8> {
    let mut lines = vec![FIRST_LINE.to_string()];
    lines.extend((1..).zip(s).map(|(i, value)| record_line(*value, 'S', i)));
    let steps = lines_of_list(list).into_iter();
    lines.extend(steps.map(|(now, letter, number)| record_line(now, letter, number)));
    lines.push(format!("{LAST_LINE}\n"));
    lines.join("\n").into_bytes()
}

// Its lines between the settings and the last line: instant, letter and number.
fn lines_of_list(list: &List) -> Vec<(u32, char, u32)> {
    let taken = (0..list.letters.len()).filter(|i| list.told.answers[*i] == 0);
    let (mut now, mut lines) = (0, Vec::new());
    for (i, (letter, held)) in taken.zip(&list.accepted) {
        now += (*letter == 'T') as u32;
        lines.push((now, *letter, *held));
        let (order, train) = (list.told.orders[i], list.told.named[i]);
        if order != 0 {
            lines.push((now, order as char, train));
        }
    }
    lines
}

// A record longer than any that is reported.
fn longer_text(r: &mut Random) -> Vec<u8> {
    loop {
        let s = settings(r);
        let least = 20_000 + r.below(20_000);
        let list = steps(r, &s, least);
        let text = text_of(&s, &list);
        if check(&s) == 0 && text.len() > LONGEST_TEXT {
            assert!(read(&text).is_ok(), "a record that is accepted");
            return text;
        }
    }
}

// How often the kept trains changed hands over all lists, and how often the clock was held.
#[derive(Default, Debug)]
struct Hands {
    // the soonest left and another one was soonest after it; of these, where both were due at one instant, and where the arm rose
    by_leave: u32,
    of_equals: u32,
    raised: u32,
    // a train approached that is due before the soonest one, or at its instant with a lower number
    by_approach: u32,
    // the train that was first at its latest went inside, and another one was first after it
    by_occupy: u32,
    // refusal 11
    held: u32,
    lowers: Lowers,
}

fn is_approach(letter: char) -> bool {
    Kind::from_letter(letter).is_some()
}

// The train that is first to reach an instant of its own: that instant, and its number.
type First = Option<(u32, u32)>;

impl Hands {
    // An accepted step of a train: the soonest and the one first at its latest before it, and after it.
    fn count(&mut self, letter: char, command: Command, was: [First; 2], is: [First; 2]) {
        let changed = [0, 1].map(|k| was[k].is_some() && is[k].is_some() && was[k] != is[k]);
        let equals = was[0].map(|f| f.0) == is[0].map(|f| f.0);
        let left = letter == 'L' && changed[0];
        self.by_leave += left as u32;
        self.of_equals += (left && equals) as u32;
        self.raised += (left && command == Command::Raise) as u32;
        self.by_approach += (is_approach(letter) && changed[0]) as u32;
        self.by_occupy += (letter == 'O' && changed[1]) as u32;
    }

    // The lists are worth something only if all this happened often.
    fn check_enough(&self) {
        assert!(self.by_leave >= 10_000, "{self:?}");
        assert!(self.of_equals >= 2_000, "{self:?}");
        assert!(self.raised >= 1_000, "{self:?}");
        assert!(self.by_approach >= 1_000, "{self:?}");
        assert!(self.by_occupy >= 10_000, "{self:?}");
        assert!(self.held >= 10_000, "{self:?}");
        self.lowers
            .check_enough([1_800, 700, 500, 2_500, 4_000, 2_200, 1_800, 1_000]);
    }
}

// The first to reach its own instant, of equals the lowest number, by a look through the whole table.
fn first(b: &Bench, own: impl Fn(&Standing) -> Option<u32>) -> First {
    let trains = b.table.iter();
    trains
        .filter_map(|e| Some((own(&e.standing)?, e.train)))
        .min()
}

fn soonest(b: &Bench) -> First {
    first(b, |t| match t {
        Standing::Away => None,
        Standing::Coming(k, a) | Standing::Inside(k, a) => Some(a + k.earliest(&b.settings)),
    })
}

fn first_latest(b: &Bench) -> First {
    first(b, |t| match t {
        Standing::Coming(k, a) => Some(a + k.latest(&b.settings)),
        _ => None,
    })
}

// A list in the making, with the second program's bench after its steps so far.
struct Walk<'a> {
    r: &'a mut Random,
    hands: &'a mut Hands,
    b: Bench,
    list: List,
}

impl Walk<'_> {
    // An approach of some kind.
    fn approach(&mut self, n: u32) {
        let kind = self.r.one_of(&KINDS);
        self.step(kind.letter(), n);
    }

    // A step of a train.
    fn step(&mut self, letter: char, n: u32) {
        let was = [soonest(&self.b), first_latest(&self.b)];
        let answer = self.b.step(letter, n);
        let noise = f32::from_bits(self.r.next() as u32);
        self.list.add(letter, n, noise, n, answer);
        if let Ok(command) = answer {
            let is = [soonest(&self.b), first_latest(&self.b)];
            self.hands.count(letter, command, was, is);
        }
    }

    // A clock step, mostly with the angle that the command drives the arm to. Answers whether a train at its latest holds it.
    fn tick(&mut self) -> bool {
        let f = match self.r.below(16) {
            0 => reading(self.r, &self.b),
            _ => driven(&self.b, 0),
        };
        let answer = self.b.clock(f);
        let number = self.r.next() as u32;
        self.list.add('T', number, f, self.b.angle, answer);
        self.hands.held += (answer == Err(11)) as u32;
        answer == Err(11)
    }

    // Clock steps up to an instant, or to the one before it at which they are held.
    fn tick_until(&mut self, instant: u32) {
        while self.b.now < instant && !self.tick() {}
    }

    // Fewer clock steps than this.
    fn ticks(&mut self, below: u64) {
        let many = self.r.below(below) as u32;
        self.tick_until(self.b.now + many);
    }

    fn standing(&self, n: u32) -> Standing {
        self.b.standing(n)
    }

    // Clock steps until the train is due.
    fn come_due(&mut self, n: u32) {
        if let Standing::Coming(k, a) = self.standing(n) {
            self.tick_until(a + k.earliest(&self.b.settings));
        }
    }

    // The train comes due and goes inside.
    fn go_inside(&mut self, n: u32) {
        self.come_due(n);
        self.step('O', n);
    }

    // Those of the trains that are inside leave.
    fn leave(&mut self, trains: &[u32]) {
        for n in in_some_order(self.r, trains) {
            if let Standing::Inside(..) = self.standing(n) {
                self.step('L', n);
            }
        }
    }

    // Now and then a step that is refused, with 5 to 9.
    fn refused(&mut self, trains: &[u32]) {
        let n = self.r.one_of(trains);
        let any = self.r.one_of(&['A', 'B', 'E', 'F', 'O', 'L']);
        let lower = if n + 65_536 <= WIDEST { n } else { 0 };
        let beyond = self.r.one_of(&[65_536, lower + 65_536, WIDEST, u32::MAX]);
        match (self.r.below(8), self.standing(n)) {
            (0, _) => self.step(any, 0),
            (1, _) => self.step(any, beyond),
            (2, Standing::Away) | (3, Standing::Inside(..)) => self.step('O', n),
            (2, _) => self.approach(n),
            (3, _) => self.step('L', n),
            (4, Standing::Coming(k, a)) if self.b.now < a + k.earliest(&self.b.settings) => {
                self.step('O', n)
            }
            _ => {}
        }
    }

    // Approaches, mostly of trains that are away: as many as there are entries, and some that are refused.
    fn one_more(&mut self, trains: &[u32]) {
        for _ in 0..self.r.one_of(&[1, 1, 2, 3]) {
            let n = self.one_that(trains, |t| t == Standing::Away);
            self.approach(n);
        }
    }

    // A train that stands so, with some luck; else any of them.
    fn one_that(&mut self, trains: &[u32], may: impl Fn(Standing) -> bool) -> u32 {
        let mut able = trains.to_vec();
        able.retain(|n| may(self.standing(*n)));
        if able.is_empty() || self.r.below(4) == 0 {
            able = trains.to_vec();
        }
        self.r.one_of(&able)
    }
}

// Different trains: the first ones, the last ones, those about a number, some at the edges and others, or any.
fn some_trains(r: &mut Random, many: usize) -> Vec<u32> {
    let span = many as u32;
    let about = r.one_of(&[255, 256, 9_999, 32_767]) - r.below(many as u64) as u32;
    let mut trains: Vec<u32> = match r.below(6) {
        0 => (1..=span).collect(),
        1 => (LAST_TRAIN - span + 1..=LAST_TRAIN).collect(),
        2 => (about..about + span).collect(),
        3 => mixed(r, EDGES),
        _ => Vec::new(),
    };
    trains.retain(|n| (1..=LAST_TRAIN).contains(n));
    trains.truncate(many);
    while trains.len() < many {
        let n = 1 + r.below(LAST_TRAIN as u64) as u32;
        if !trains.contains(&n) {
            trains.push(n);
        }
    }
    trains
}

fn mixed(r: &mut Random, trains: &[u32]) -> Vec<u32> {
    let mut order = trains.to_vec();
    for i in (1..order.len()).rev() {
        order.swap(i, r.below(i as u64 + 1) as usize);
    }
    order
}

// By rising numbers, by falling ones, or mixed.
fn in_some_order(r: &mut Random, trains: &[u32]) -> Vec<u32> {
    let mut order = mixed(r, trains);
    match r.below(3) {
        0 => order.sort(),
        1 => order.sort_by(|n, m| m.cmp(n)),
        _ => {}
    }
    order
}

// One train after the other: the soonest comes due, goes inside and leaves while others are present. It approaches again, at
// once or some ticks later.
fn relay(w: &mut Walk, trains: &[u32]) {
    let gap = w.r.one_of(&[1, 2, 4, 9]);
    let order = in_some_order(w.r, trains);
    for n in &order {
        w.approach(*n);
        w.ticks(gap);
    }
    for n in order.iter().cycle().take(5 * order.len()) {
        w.go_inside(*n);
        w.ticks(3);
        w.step('L', *n);
        w.refused(trains);
        w.ticks(gap);
        w.approach(*n);
    }
}

// Trains that approach at one instant, or some at a later one. They go inside and leave, each time in another order; some leave
// before the others go inside, some approach again at once.
fn ties(w: &mut Walk, trains: &[u32]) {
    let order = in_some_order(w.r, trains);
    let groups = order.split_at(w.r.below(order.len() as u64) as usize);
    for group in [groups.0, groups.1] {
        w.ticks(9);
        for n in group {
            w.approach(*n);
        }
    }
    for group in [groups.0, groups.1] {
        for n in in_some_order(w.r, group) {
            w.go_inside(n);
            w.refused(trains);
            if w.r.below(3) == 0 {
                w.step('L', n);
            }
        }
    }
    for n in in_some_order(w.r, trains) {
        w.step('L', n);
        if w.r.below(4) == 0 {
            w.approach(n);
        }
        w.ticks(3);
    }
}

// The clock is driven up to the latest instant of a coming train, again and again. Mostly the train that is first there goes
// inside, now and then another one, and the clock is held as before.
fn up_to_latest(w: &mut Walk, trains: &[u32]) {
    for n in in_some_order(w.r, trains) {
        w.approach(n);
        w.ticks(3);
    }
    for _ in 0..2 * trains.len() {
        let Some((instant, first)) = first_latest(&w.b) else {
            break;
        };
        w.tick_until(instant + 1);
        let other = w.one_that(trains, |t| matches!(t, Standing::Coming(..)));
        let n = w.r.one_of(&[first, first, first, other]);
        w.step('O', n);
    }
    for n in in_some_order(w.r, trains) {
        w.step('L', n);
        w.ticks(3);
    }
}

// Steps by chance, mostly such as are accepted.
fn by_chance(w: &mut Walk, trains: &[u32]) {
    for _ in 0..80 {
        let (now, s) = (w.b.now, w.b.settings);
        let approach = w.r.one_of(&KINDS).letter();
        let (letter, n) = match w.r.below(8) {
            0 | 1 => (approach, w.one_that(trains, |t| t == Standing::Away)),
            2 | 3 => (
                'O',
                w.one_that(
                    trains,
                    |t| matches!(t, Standing::Coming(k, a) if a + k.earliest(&s) <= now),
                ),
            ),
            4 => (
                'L',
                w.one_that(trains, |t| matches!(t, Standing::Inside(..))),
            ),
            _ => ('T', 0),
        };
        if letter == 'T' {
            w.tick();
        } else {
            w.step(letter, n);
        }
    }
}

// Trains that approach at one instant or at rising ones. They leave as they come due, or only when all are inside; with refused
// steps in between.
fn full_yard(w: &mut Walk, trains: &[u32]) {
    let gap = w.r.one_of(&[1, 2, 5]);
    let order = in_some_order(w.r, trains);
    for n in &order {
        w.approach(*n);
        w.refused(trains);
        w.ticks(gap);
    }
    assert_eq!(w.b.trains_present(), trains.len());
    let at_once = w.r.below(2) == 0;
    for n in &order {
        w.go_inside(*n);
        w.refused(trains);
        if at_once {
            w.step('L', *n);
        }
    }
    for n in in_some_order(w.r, trains) {
        w.step('L', n);
        w.refused(trains);
        w.ticks(2);
    }
}

// More trains than entries: 96 come, and then again and again one goes inside, one leaves, and another one gets its entry. Before
// and after it others approach, refused with 17, and such as are present, refused with 6.
fn crowd(w: &mut Walk, trains: &[u32]) {
    let gap = w.r.one_of(&[1, 1, 2]);
    for n in in_some_order(w.r, trains) {
        w.approach(n);
        w.refused(trains);
        w.ticks(gap);
    }
    assert_eq!(w.b.trains_present(), PLACES);
    for _ in 0..120 {
        w.one_more(trains);
        let Some((_, first)) = first_latest(&w.b) else {
            break;
        };
        w.go_inside(first);
        w.one_more(trains);
        for _ in 0..w.r.one_of(&[0, 1, 1, 1, 3]) {
            let n = w.one_that(trains, |t| matches!(t, Standing::Inside(..)));
            w.step('L', n);
        }
        w.one_more(trains);
        w.refused(trains);
    }
    w.leave(trains);
    w.ticks(9);
    if w.r.below(2) == 0 {
        mixed(w.r, trains).iter().for_each(|n| w.approach(*n));
    }
}

// Trains of any kinds that come due in one tick, or some in the next: the slower ones approach first. They go inside and leave, each
// time in another order.
fn meet(w: &mut Walk, trains: &[u32]) {
    let s = w.b.settings;
    let slowest = KINDS.map(|k| k.earliest(&s)).into_iter().max().unwrap();
    let tick = w.b.now + slowest + w.r.below(3) as u32;
    let mut coming = Vec::new();
    for n in in_some_order(w.r, trains) {
        let kind = w.r.one_of(&KINDS);
        let due = tick + w.r.one_of(&[0, 0, 1]);
        coming.push((due - kind.earliest(&s), kind, n));
    }
    coming.sort_by_key(|c| c.0);
    for (since, kind, n) in coming {
        w.tick_until(since);
        w.step(kind.letter(), n);
        w.refused(trains);
    }
    // twice, for the clock may be held before one is due
    for _ in 0..2 {
        for n in in_some_order(w.r, trains) {
            w.go_inside(n);
        }
    }
    for n in in_some_order(w.r, trains) {
        w.step('L', n);
        w.ticks(2);
    }
}

// Some trains hand the crossing over to others: these go inside at the instant at which the last of those leaves. So many times of
// eight it is otherwise: they are inside before, or go inside a tick or two later.
fn hand_over(w: &mut Walk, from: &[u32], to: &[u32], otherwise: u64) {
    let to = in_some_order(w.r, to);
    let other = w.r.below(8) < otherwise;
    let later = w.r.one_of(&[0, 0, 1, 2]) * other as u32;
    if other && later == 0 {
        to.iter().for_each(|n| w.step('O', *n));
        w.ticks(3);
        w.leave(from);
    } else {
        w.leave(from);
        w.tick_until(w.b.now + later);
        w.refused(from);
        to.iter().for_each(|n| w.step('O', *n));
    }
}

// Trains one by one, or two or three together, hand the crossing over from the first ones to the last, now and then once more. Some
// are inside for no tick. At the end the last ones leave, or stay inside.
fn convoy(w: &mut Walk, trains: &[u32]) {
    w.leave(trains);
    let order = in_some_order(w.r, trains);
    let groups: Vec<&[u32]> = order.chunks(w.r.one_of(&[1, 1, 1, 2, 3])).collect();
    let many = groups.len() * w.r.one_of(&[1, 1, 2]);
    let turns: Vec<&[u32]> = groups.iter().copied().cycle().take(many).collect();
    let (gap, stay) = (w.r.one_of(&[1, 2, 4]), w.r.one_of(&[1, 2, 4]));
    let otherwise = w.r.one_of(&[0, 1, 4]);
    for n in &order {
        w.approach(*n);
        w.ticks(gap);
    }
    turns[0].iter().for_each(|n| w.go_inside(*n));
    for (i, two) in turns.windows(2).enumerate() {
        w.ticks(stay);
        w.refused(trains);
        two[1].iter().for_each(|n| w.come_due(*n));
        hand_over(w, two[0], two[1], otherwise);
        if i + groups.len() < many {
            two[0].iter().for_each(|n| w.approach(*n));
        }
    }
    if w.r.below(2) == 0 {
        w.ticks(3);
    }
    if w.r.below(2) == 0 {
        w.leave(trains);
        w.ticks(9);
    }
}

// Settings that are taken; a longer stay for a full yard and for a convoy. E is just above D, or about as far as the look goes
// under the command down: then the next train decides whether a leave raises the arm.
fn close_settings(r: &mut Random, yard: Yard) -> [u32; SETTINGS] {
    let full = matches!(yard, Yard::Full | Yard::Crowd);
    let longer = match yard {
        Yard::Full | Yard::Crowd => 500,
        Yard::Convoy => r.one_of(&[5, 60, 60]),
        Yard::Few | Yard::Meeting => 0,
    };
    let p = r.one_of(&[5760, 2880, 1921]);
    let q = r.one_of(&[5760, 2880, 1440]);
    let (d, u) = (ticks_for(p), ticks_for(q));
    let w = r.one_of(&[0, 0, 1, 4, 20, 60_000]);
    let least = d + 1 + r.below(4) as u32 + r.one_of(&[0, u + w.min(20), 300 * full as u32]);
    let mut times = times(r, least, 4);
    for t in &mut times {
        t.1 += longer;
    }
    in_order(times, [p, q, w, d + widest(times), u])
}

#[derive(Clone, Copy, PartialEq)]
enum Yard {
    Few,
    Full,
    Meeting,
    Convoy,
    Crowd,
}

// A list in which the kept trains change hands: a full yard, or few trains in three of the ways above, or only such that meet, or
// three convoys, or more trains than entries.
fn handed_over(r: &mut Random, hands: &mut Hands, yard: Yard) -> ([u32; SETTINGS], List) {
    let s = close_settings(r, yard);
    let list = handed_over_under(r, hands, yard, &s);
    (s, list)
}

// Such a list under these settings.
fn handed_over_under(r: &mut Random, hands: &mut Hands, yard: Yard, s: &[u32; SETTINGS]) -> List {
    let many = match yard {
        Yard::Full => PLACES,
        Yard::Crowd => PLACES + 1 + r.below(60) as usize,
        Yard::Convoy => 4 + r.below(5) as usize,
        Yard::Few | Yard::Meeting => 2 + r.below(4) as usize,
    };
    let trains = some_trains(r, many);
    let mut w = Walk {
        r,
        hands,
        b: Bench::new(s).expect("settings that are taken"),
        list: List::default(),
    };
    match yard {
        Yard::Full => full_yard(&mut w, &trains),
        Yard::Meeting => (0..3).for_each(|_| meet(&mut w, &trains)),
        Yard::Convoy => (0..3).for_each(|_| convoy(&mut w, &trains)),
        Yard::Crowd => crowd(&mut w, &trains),
        Yard::Few => {
            for _ in 0..3 {
                let way: fn(&mut Walk, &[u32]) =
                    w.r.one_of(&[relay, ties, up_to_latest, by_chance]);
                way(&mut w, &trains);
            }
        }
    }
    // so that each list has a refused step
    w.step('A', 0);
    w.list.end(&w.b);
    w.hands.lowers.count(s, &w.list);
    w.list
}

// The record of the steps before one that is refused with one of these numbers, and that step's line after it.
fn up_to_refused(r: &mut Random, s: &[u32; SETTINGS], list: &List, by: &[u8]) -> Vec<u8> {
    let refused = |i: &usize| by.contains(&list.told.answers[*i]);
    let steps: Vec<usize> = (0..list.letters.len()).filter(refused).collect();
    let at = r.one_of(&steps);
    let before = list.told.answers[..at].iter().filter(|a| **a == 0).count();
    let accepted = &list.accepted[..before];
    let now = accepted.iter().filter(|step| step.0 == 'T').count() as u32;
    let line = match list.letters[at] {
        b'T' => record_line(now + 1, 'T', 5760),
        letter => record_line(now, letter as char, list.numbers[at]),
    };
    let (mut text, _) = record_of(s, accepted, LONGEST_TEXT).expect("settings that are taken");
    text.truncate(text.len() - LINE_BYTES);
    text.extend_from_slice(format!("{line}\n{LAST_LINE}\n").as_bytes());
    text
}

// A list run and recorded, its record and one with a refused step read and reported: how many differ.
fn list_differs(r: &mut Random, s: &[u32; SETTINGS], list: &List, joins: &mut Joins) -> u32 {
    let (whole, _) = record_of(s, &list.accepted, LONGEST_TEXT).expect("settings that are taken");
    let mut differ = !same_run(r, s, list) as u32;
    differ += !same_state(r, s, list, WHOLE, STATE) as u32;
    differ += !same_record(r, s, list, whole.len()) as u32;
    differ += text_differs(r, &whole, joins);
    // for its train, or because the clock is held
    let refused = up_to_refused(r, s, list, &[5, 6, 7, 8, 9, 10, 11, 17]);
    differ + text_differs(r, &refused, joins)
}

// The record of a list up to any of its steps, up to one with which a train goes inside, and damaged: how many differ.
fn cut_differs(r: &mut Random, s: &[u32; SETTINGS], list: &List, joins: &mut Joins) -> u32 {
    let whole = list.accepted.len();
    let any = 1 + r.below(whole as u64) as usize;
    let mut inside: Vec<usize> = (1..=whole).collect();
    inside.retain(|steps| list.accepted[steps - 1].0 == 'O');
    let inside = r.one_of(&inside);
    let mut differ = 0;
    for (steps, damaged) in [(any, false), (inside, false), (inside, true), (whole, true)] {
        let steps = &list.accepted[..steps];
        let (mut text, _) = record_of(s, steps, LONGEST_TEXT).expect("settings that are taken");
        if damaged {
            damage(r, &mut text);
        }
        differ += text_differs(r, &text, joins);
    }
    differ
}

// The sorts of neighbours that are swapped: their letters in the order of the alphabet, A for an approach of any kind.
const PAIRS: [&[u8; 2]; 5] = [b"AA", b"AO", b"OO", b"LO", b"LL"];

// How many neighbours of each sort were swapped; how often the arm rose with the later of two leaves, and then with the other
// train's; and how often at the other of the two places. (Never: whoever goes inside or leaves is due, so as long as one of the two
// has not left, no leave raises the arm.) After how many swaps the library's trains had other entries.
#[derive(Default, Debug)]
struct Swaps {
    tried: [u32; 5],
    other_train: u32,
    other_place: u32,
    other_entries: u32,
}

impl Swaps {
    fn check_enough(&self) {
        assert!(self.tried.iter().all(|n| *n >= 500), "{self:?}");
        assert!(self.other_train >= 500, "{self:?}");
        assert!(self.other_entries >= 500, "{self:?}");
    }

    fn all(&self) -> u32 {
        self.tried.iter().sum()
    }
}

// The sort of the steps i and i + 1, where they can be swapped: both accepted, about different trains, neither a clock step, and
// not an approach beside a leave.
fn swappable(list: &List, i: usize) -> Option<usize> {
    let sort_of = |letter: u8| {
        if is_approach(letter as char) {
            b'A'
        } else {
            letter
        }
    };
    let mut pair = [list.letters[i], list.letters[i + 1]].map(sort_of);
    pair.sort();
    let accepted = list.told.answers[i..i + 2] == [0, 0];
    let different = list.numbers[i] != list.numbers[i + 1];
    let sort = PAIRS.iter().position(|p| **p == pair);
    sort.filter(|_| accepted && different)
}

// What the second program answers to the steps of a list.
fn answered(s: &[u32; SETTINGS], letters: &[u8], numbers: &[u32], readings: &[f32]) -> List {
    let mut b = Bench::new(s).expect("settings that are taken");
    let mut list = List::default();
    for (i, letter) in letters.iter().enumerate() {
        let (letter, n) = (*letter as char, numbers[i]);
        let answer = match letter {
            'T' => b.clock(readings[i]),
            _ => b.step(letter, n),
        };
        list.add(letter, n, readings[i], n, answer);
    }
    list.end(&b);
    list
}

// Whether the list with the steps i and i + 1 swapped is answered by the library as by the second program, and as the list is:
// the same refusal numbers, final state and trains, wherever in the table they stand, the same commands with their trains before and
// after the two, and of the two together the same in the same order.
fn same_swapped(
    r: &mut Random,
    s: &[u32; SETTINGS],
    list: &List,
    i: usize,
    swaps: &mut Swaps,
) -> bool {
    let (mut letters, mut numbers) = (list.letters.clone(), list.numbers.clone());
    letters.swap(i, i + 1);
    numbers.swap(i, i + 1);
    let swapped = answered(s, &letters, &numbers, &list.readings);
    let given = |commands: &[(u8, u32)]| -> Vec<(u8, u32)> {
        let two = commands[i..i + 2].iter().copied();
        two.filter(|c| *c != (0, 0)).collect()
    };
    let mut got = Vec::new();
    for each in [list, &swapped] {
        let mut lent = Lent::new(r, s, each, NO_STEP, WHOLE, true);
        let mut state = vec![0; STATE];
        let number = lent.run_to_state(s, &mut state);
        let trains = state_in(&state);
        if !lent.same(s, each, number) || trains.as_ref() != Some(&each.state) {
            println!("settings {s:?}, steps {i} and the next swapped: {state:?} got\n{each:?}");
            return false;
        }
        let mut commands = lent.told.commands();
        commands.truncate(letters.len());
        lent.told.answers.truncate(letters.len());
        got.push((lent.told.answers, commands, trains, state));
    }
    let (was, is) = (&got[0], &got[1]);
    let same = was.0 == is.0
        && was.2 == is.2
        && was.1[..i] == is.1[..i]
        && was.1[i + 2..] == is.1[i + 2..]
        && given(&was.1) == given(&is.1);
    if !same {
        println!("settings {s:?}, steps {i} and the next swapped: {was:?}, then {is:?}\n{list:?}");
    }
    swaps.other_entries += (was.3 != is.3) as u32;
    let raised = |commands: &[(u8, u32)]| (i..i + 2).find(|j| commands[*j].0 == b'U');
    match (raised(&was.1), raised(&is.1)) {
        (Some(j), Some(k)) if j == k => swaps.other_train += 1,
        (Some(_), Some(_)) => swaps.other_place += 1,
        _ => {}
    }
    same
}

// Some neighbours of each sort swapped, one pair at a time: how many differ.
fn swapped_differ(r: &mut Random, s: &[u32; SETTINGS], list: &List, swaps: &mut Swaps) -> u32 {
    let mut differ = 0;
    for sort in 0..PAIRS.len() {
        let here = |i: &usize| swappable(list, *i) == Some(sort);
        let places: Vec<usize> = (0..list.letters.len() - 1).filter(here).collect();
        for _ in 0..places.len().min(2) {
            let i = r.one_of(&places);
            swaps.tried[sort] += 1;
            differ += !same_swapped(r, s, list, i, swaps) as u32;
        }
    }
    differ
}

// The two ways of turning a record: from the form of document 01 into the one that stands, and back.
#[derive(Clone, Copy, PartialEq, Debug)]
enum Way {
    Forward,
    Back,
}

const WAYS: [Way; 2] = [Way::Forward, Way::Back];

impl Way {
    fn other(self) -> Way {
        match self {
            Way::Forward => Way::Back,
            Way::Back => Way::Forward,
        }
    }

    // The second program's turning.
    fn second(self) -> fn(&[u8], &mut [u8]) -> Result<usize, (u8, usize)> {
        match self {
            Way::Forward => to_new,
            Way::Back => to_old,
        }
    }

    // The library's: 256 times the bytes written, or the line, and the refusal number.
    fn library(self, text: &[u8], out: &mut [u8]) -> u64 {
        let turn = match self {
            Way::Forward => weqhaso_to_new,
            Way::Back => weqhaso_to_old,
        };
        unsafe { turn(text.as_ptr(), text.len(), out.as_mut_ptr(), out.len()) }
    }

    // What the library alone makes of a text, in a buffer that is long enough.
    fn by_library(self, text: &[u8]) -> Option<Vec<u8>> {
        let mut out = vec![UNTOUCHED; 2 * text.len() + 200];
        let got = self.library(text, &mut out);
        out.truncate((got / 256) as usize);
        (got % 256 == 0).then_some(out)
    }

    // The form of the texts that go this way: the bytes of a line.
    fn line_bytes(self) -> usize {
        match self {
            Way::Forward => LINE_BYTES - 1,
            Way::Back => LINE_BYTES,
        }
    }

    fn settings(self) -> usize {
        match self {
            Way::Forward => OLD_SETTINGS,
            Way::Back => SETTINGS,
        }
    }

    // The first byte of the first step's line.
    fn first_step(self) -> usize {
        self.line_bytes() * (1 + self.settings())
    }

    fn line(self, first: u32, letter: char, number: u32) -> Vec<u8> {
        match self {
            Way::Forward => old_line(first, letter, number).into_bytes(),
            Way::Back => format!("{}\n", record_line(first, letter, number)).into_bytes(),
        }
    }
}

// A text, or the beginning of one that is very long.
fn shown(text: &[u8]) -> String {
    String::from_utf8_lossy(&text[..text.len().min(2 * LONGEST_TEXT)]).into_owned()
}

// Whether the library turns the text in this many bytes as the second program does, and leaves all other bytes, also those before
// and behind what is lent; and the refusal number.
fn same_turned(r: &mut Random, way: Way, text: &[u8], bytes: usize) -> (bool, u64) {
    let (before, behind) = (r.below(9) as usize, 1 + r.below(33) as usize);
    let mut out: Vec<u8> = (0..before + bytes + behind)
        .map(|_| r.next() as u8)
        .collect();
    let mut want_out = out.clone();
    let lent = before..before + bytes;
    let want = way.second()(text, &mut want_out[lent.clone()]).map_or_else(
        |(number, line)| 256 * line as u64 + number as u64,
        |used| 256 * used as u64,
    );
    let got = way.library(text, &mut out[lent]);
    let same = got == want && out == want_out;
    if !same {
        let at = (0..out.len()).find(|i| out[*i] != want_out[*i]);
        println!(
            "{way:?} in {bytes} bytes: {:?} wanted, {:?} got (number, bytes or line)",
            (want % 256, want / 256),
            (got % 256, got / 256)
        );
        if let Some(at) = at {
            let near = at..(at + 32).min(out.len());
            let (wanted, is) = (&want_out[near.clone()], &out[near]);
            println!("from byte {at} less {before} on {wanted:?} wanted, {is:?} got");
        }
        println!("{}", shown(text));
    }
    (same, want % 256)
}

// Whether a text that is taken comes back from the library with every byte; and whether what the library makes of it holds the same
// run: the second program reads it there, the library reads and reports the form that stands as this run's, and the old form is 15 at
// line 1 for it.
fn same_trip(way: Way, text: &[u8]) -> bool {
    let there = way.by_library(text);
    let back = there
        .as_ref()
        .and_then(|there| way.other().by_library(there));
    let same = back.as_deref() == Some(text)
        && there.as_ref().is_some_and(|there| match way {
            Way::Forward => same_held(there, text),
            Way::Back => same_held(text, there),
        });
    if !same {
        println!("{way:?} and again, or its run or its report:");
        println!("{}", shown(text));
        println!("{}", shown(&there.unwrap_or_default()));
        println!("{}", shown(&back.unwrap_or_default()));
    }
    same
}

fn same_held(new: &[u8], old: &[u8]) -> bool {
    let run = read_old(old);
    let verdicts = [new, old].map(|text| unsafe { weqhaso_read(text.as_ptr(), text.len()) });
    let refused = |number: usize, line: usize| vec![report_line(number, line, 'R')];
    let want_new = match &run {
        Ok(run) if new.len() <= LONGEST_TEXT => report_lines(run),
        _ => refused(14, 0),
    };
    let want_old = match old.len() {
        0..=LONGEST_TEXT => refused(15, 1),
        _ => refused(14, 0),
    };
    let reported = |text: &[u8], lines: Vec<String>| {
        let mut want = format!("{}\n", lines.join("\n")).into_bytes();
        want.extend([UNTOUCHED; 3]);
        let mut out = vec![UNTOUCHED; want.len()];
        let got = unsafe { weqhaso_report(text.as_ptr(), text.len(), out.as_mut_ptr(), out.len()) };
        got == 256 * (want.len() as u64 - 3) && out == want
    };
    run.is_ok()
        && read(new) == run
        && verdicts == [0, 256 + 15]
        && reported(new, want_new)
        && reported(old, want_old)
}

// The lines of an accepted record that document 01's form cannot hold, by their columns alone.
fn lines_at_fault(text: &[u8]) -> Vec<usize> {
    let lines: Vec<&[u8]> = text.chunks(LINE_BYTES).collect();
    let at_fault = |i: &usize| {
        let line = lines[*i];
        // setting i: its earliest is like that in the second line, its latest like that in the third
        let unlike = (8..=13).contains(i) && line[..8] != lines[1 + i % 2][..8];
        let above = line[10..15] > b"   96"[..] && b"ABEFOLD".contains(&line[9]);
        unlike || (*i >= 14 && (above || b"BEF".contains(&line[9])))
    };
    let but_last = 0..lines.len() - 1;
    but_last.filter(at_fault).map(|i| i + 1).collect()
}

// Records turned forward and back.
#[derive(Default, Debug)]
struct Shelves {
    // the texts by the number that refuses them, 0 for those taken
    numbers: [[u32; 19]; 2],
    // the buffers, and how many were too short
    buffers: u32,
    no_space: [u32; 2],
    // the longest texts that were taken; the last line at fault, of 18 and of other refusals
    longest: [usize; 2],
    farthest: [usize; 2],
    // taken: those with train 96, and the lowers of old ones
    with_96: u32,
    lowers: u32,
    grounds: Grounds,
    // a refusal of reading before the line that would be at fault, in it, and behind it
    spoiled: [u32; 3],
    // another number on a D line, 16 there
    on_d: [u32; 2],
    // texts of the other form and of both forms
    foreign: u32,
}

// Records refused with 18: by setting 8 to 13; by a letter B, E, F; by a train above 96, by 97; by a letter and a train in one line;
// with several lines at fault; at a line below 300.
#[derive(Default, Debug)]
struct Grounds {
    settings: [u32; 6],
    letters: [u32; 3],
    trains: [u32; 2],
    both: u32,
    several: u32,
    far: u32,
}

impl Grounds {
    // A record that is refused at this line: whether it is the first that its columns show.
    fn count(&mut self, text: &[u8], line: usize) -> bool {
        let faults = lines_at_fault(text);
        let columns = &text[LINE_BYTES * (line - 1)..LINE_BYTES * line];
        let letter = b"BEF".iter().position(|letter| *letter == columns[9]);
        let above = columns[10..15] > b"   96"[..];
        if line < FIRST_STEP_LINE {
            self.settings[line - 9] += 1;
        } else if let Some(kind) = letter {
            self.letters[kind] += 1;
            self.both += above as u32;
        } else {
            self.trains[(columns[10..15] == *b"   97") as usize] += 1;
        }
        self.several += (faults.len() >= 2) as u32;
        self.far += (line > 300) as u32;
        let first = faults.first() == Some(&line);
        if !first {
            println!("18 at {line}, but the columns show {faults:?}");
            println!("{}", String::from_utf8_lossy(text));
        }
        first
    }

    fn check_enough(&self) {
        let each = [&self.settings[..], &self.letters, &self.trains].concat();
        let others = [self.both, self.several, self.far];
        let all = each.iter().chain(&others);
        assert!(all.min() >= Some(&50), "{self:?}");
    }

    fn says(&self) -> String {
        let (settings, letters, [above, of_97]) = (self.settings, self.letters, self.trains);
        let (both, several, far) = (self.both, self.several, self.far);
        let trains = above + of_97;
        format!("by settings 8 to 13 {settings:?}, by letters B, E, F {letters:?}, by trains {trains}, of these by 97 {of_97}, by both in one line {both}, with several lines at fault {several}, below line 300 {far}")
    }
}

impl Shelves {
    // A text turned, in buffers that fit, are one byte short, shorter, empty and longer; and, where it is taken, back: how many differ.
    fn differ(&mut self, r: &mut Random, way: Way, text: &[u8]) -> u32 {
        let want = turned(way.second(), text);
        // a refused text gets what it would need
        let fits = match &want {
            Ok(there) => there.len(),
            Err(_) => text.len() + text.len() / 14 + 120,
        };
        let short = r.below(fits as u64) as usize;
        let more = fits + 1 + r.below(60) as usize;
        let mut differ = 0;
        for bytes in [fits, fits - 1, short, 0, more] {
            differ += self.buffer_differs(r, way, text, bytes);
        }
        differ + self.text_differs(way, text, &want)
    }

    fn buffer_differs(&mut self, r: &mut Random, way: Way, text: &[u8], bytes: usize) -> u32 {
        let (same, number) = same_turned(r, way, text, bytes);
        self.buffers += 1;
        self.no_space[way as usize] += (number == 14) as u32;
        !same as u32
    }

    // What is asked once of a text, with what the second program makes of it.
    fn text_differs(&mut self, way: Way, text: &[u8], want: &Result<Vec<u8>, (u8, usize)>) -> u32 {
        let (number, line) = want.as_ref().err().copied().unwrap_or((0, 0));
        self.numbers[way as usize][number as usize] += 1;
        match want {
            Ok(there) => {
                let forward = way == Way::Forward;
                let lines = if forward { there } else { text }.chunks(LINE_BYTES);
                let lowers = lines.clone().filter(|line| line[9] == b'D').count();
                let is_96 = |line: &[u8]| line[9] == b'A' && line[10..15] == *b"   96";
                self.longest[way as usize] = self.longest[way as usize].max(text.len());
                self.with_96 += lines.into_iter().any(is_96) as u32;
                self.lowers += lowers as u32 * forward as u32;
                !same_trip(way, text) as u32
            }
            Err((18, _)) => {
                self.farthest[0] = self.farthest[0].max(line);
                !self.grounds.count(text, line) as u32
            }
            Err(_) => {
                self.farthest[1] = self.farthest[1].max(line);
                0
            }
        }
    }

    // A text in one of the forms, damaged once or twice: how many differ.
    fn damaged_differs(&mut self, r: &mut Random, way: Way, text: &[u8]) -> u32 {
        let mut text = text.to_vec();
        for _ in 0..r.one_of(&[1, 1, 2]) {
            damage_in(r, way, &mut text);
        }
        self.differ(r, way, &text)
    }

    // A record with another number on a D line: 0, a train's, any.
    fn lower_differs(&mut self, r: &mut Random, way: Way, text: &[u8]) -> u32 {
        let Some(at) = step_line(r, way, text, b"D") else {
            return 0;
        };
        let n = way.line_bytes();
        let mut text = text.to_vec();
        put_number(r, way, &mut text, at);
        let refused = way.second()(&text, &mut []).err();
        self.on_d[way as usize] += (refused == Some((16, at / n + 1))) as u32;
        self.differ(r, way, &text)
    }

    // A record with the line of a step in it that is refused there: how many differ.
    fn refused_differs(
        &mut self,
        r: &mut Random,
        way: Way,
        s: &[u32; SETTINGS],
        steps: &[(char, u32)],
    ) -> u32 {
        let list = list_of(s, steps);
        let up_to = list_of(s, &steps[..r.below(steps.len() as u64 + 1) as usize]);
        let (text, before) = match way {
            Way::Forward => (old_text_of(s, &list), old_text_of(s, &up_to)),
            Way::Back => (text_of(s, &list), text_of(s, &up_to)),
        };
        let place = before.len() - way.line_bytes();
        let (letter, number) = refused_step(r, way, s, &up_to);
        let now = up_to.state.head[0] + (letter == 'T') as u32;
        let line = way.line(now, letter, number);
        self.differ(r, way, &[&text[..place], &line, &text[place..]].concat())
    }

    // A record that document 01's form cannot hold, and the same with a refusal of reading before the line at fault, in it, and
    // behind it: how many differ.
    fn beyond_differs(&mut self, r: &mut Random, text: &[u8]) -> u32 {
        let mut differ = self.differ(r, Way::Back, text);
        let Some((18, line)) = to_old(text, &mut []).err() else {
            return differ;
        };
        let last = text.len() / LINE_BYTES;
        let before = 1 + r.below(line as u64 - 1) as usize;
        let behind = line + 1 + r.below((last - line) as u64) as usize;
        for at in [before, line, behind] {
            let mut text = text.to_vec();
            spoil_line(r, &mut text, at);
            match to_old(&text, &mut []) {
                Err((18, _)) | Ok(_) => {}
                Err((_, refused)) => {
                    let place = (refused >= line) as usize + (refused > line) as usize;
                    self.spoiled[place] += 1;
                }
            }
            differ += self.differ(r, Way::Back, &text);
        }
        differ
    }

    // A run that document 01's form holds, in both forms, each turned, damaged, mixed with the other, and beyond what it holds: how
    // many differ.
    fn run_differs(&mut self, r: &mut Random, s: &[u32; SETTINGS], steps: &[(char, u32)]) -> u32 {
        let list = list_of(s, steps);
        let (old, new) = (old_text_of(s, &list), text_of(s, &list));
        let mut differ = !same_forms(&old, &new) as u32;
        for (way, own, others) in [(Way::Forward, &old, &new), (Way::Back, &new, &old)] {
            differ += self.differ(r, way, own);
            differ += self.differ(r, way, others);
            for _ in 0..3 {
                differ += self.damaged_differs(r, way, own);
            }
            let both = mixed_forms(r, &old, &new);
            differ += self.differ(r, way, &both);
            differ += self.lower_differs(r, way, own);
            differ += self.refused_differs(r, way, s, steps);
            self.foreign += 2;
        }
        // of a longer run once at its end
        let far = [r.below(BEYOND), LAST_APPROACH][(steps.len() > 250) as usize];
        for sort in [r.below(BEYOND), far] {
            let (s, steps) = beyond(r, s, steps, sort);
            let list = list_of(&s, &steps);
            differ += self.beyond_differs(r, &text_of(&s, &list));
        }
        differ
    }

    // A long run in both forms, whole, damaged at any place, without its last line, and with a train or a kind that document 01 does
    // not have at its last approach: how many differ.
    fn long_differs(&mut self, r: &mut Random, s: &[u32; SETTINGS], steps: &[(char, u32)]) -> u32 {
        let list = list_of(s, steps);
        let (old, new) = (old_text_of(s, &list), text_of(s, &list));
        let mut differ = !same_forms(&old, &new) as u32;
        for (way, text) in [(Way::Forward, &old), (Way::Back, &new)] {
            differ += self.differ(r, way, text);
            differ += self.damaged_differs(r, way, text);
            differ += self.differ(r, way, &text[..text.len() - way.line_bytes()]);
        }
        let (s, steps) = beyond(r, s, steps, LAST_APPROACH);
        differ + self.beyond_differs(r, &text_of(&s, &list_of(&s, &steps)))
    }

    // A text of more bytes than fit in 24 bits, in a buffer that fits: how many differ.
    fn huge_differs(&mut self, r: &mut Random) -> u32 {
        let mut differ = 0;
        for way in WAYS {
            let text = clock_text(way, 1_150_000);
            let there = clock_text(way.other(), 1_150_000);
            assert!(text.len().min(there.len()) >= 1 << 24);
            differ += self.buffer_differs(r, way, &text, there.len());
            differ += self.text_differs(way, &text, &Ok(there));
        }
        differ
    }

    // The sample of document 01 in both forms: every byte replaced by every other, cut anywhere, and into every length of a buffer;
    // the empty text: how many differ.
    fn sample_differs(&mut self, r: &mut Random) -> u32 {
        let old = OLD_SAMPLE.as_bytes().to_vec();
        let new = turned(to_new, &old).expect("the sample is accepted");
        let mut differ = self.differ(r, Way::Forward, b"") + self.differ(r, Way::Back, b"");
        for (way, text) in [(Way::Forward, &old), (Way::Back, &new)] {
            differ += self.differ(r, way, text);
            for bytes in 0..450 {
                differ += self.buffer_differs(r, way, text, bytes);
            }
            for at in 0..text.len() {
                differ += self.differ(r, way, &text[..at]);
                let mut damaged = text.clone();
                for byte in (0..=255).filter(|byte| *byte != text[at]) {
                    damaged[at] = byte;
                    let want = turned(way.second(), &damaged);
                    differ += self.buffer_differs(r, way, &damaged, 420);
                    differ += self.text_differs(way, &damaged, &want);
                }
            }
        }
        differ
    }

    fn check_enough(&self) {
        let all = [0, 1, 2, 3, 4, 5, 6, 7, 8, 9, 11, 12, 13, 15, 16];
        for way in [0, 1] {
            let numbers = self.numbers[way];
            assert!(all.iter().all(|k| numbers[*k] >= 25), "{self:?}");
            assert!(self.on_d[way] >= 500, "{self:?}");
            assert!(self.no_space[way] >= 3_000, "{self:?}");
            assert!(self.longest[way] >= 1 << 24, "{self:?}");
            assert!(self.farthest[way] > 65_536, "{self:?}");
        }
        let [[old, ..], [new, ..]] = self.numbers;
        assert!(old >= 1_000 && new >= 1_000, "{self:?}");
        assert!(self.numbers[1][17] >= 20, "{self:?}");
        assert!(self.numbers[1][18] >= 2_000, "{self:?}");
        assert!(self.with_96 >= 500 && self.lowers >= 5_000, "{self:?}");
        assert!(self.spoiled.iter().all(|n| *n >= 1_000), "{self:?}");
        self.grounds.check_enough();
    }

    fn says(&self) -> String {
        let [forward, back] = self.numbers.map(|n| n.iter().sum::<u32>());
        let [old, new] = self.numbers.map(|n| n[0]);
        let (buffers, short, foreign) = (self.buffers, self.no_space, self.foreign);
        let (lowers, with_96, longest) = (self.lowers, self.with_96, self.longest);
        let (spoiled, on_d, farthest) = (self.spoiled, self.on_d, self.farthest);
        let (beyond, grounds) = (self.numbers[1][18], self.grounds.says());
        format!("{forward} texts turned forward and {back} back in {buffers} buffers (too short: {short:?}; taken and restored: {old} old records with {lowers} lowers, {new} new ones, {with_96} of both with train 96, the longest of {longest:?} bytes; {foreign} texts of the other form or of both; another number on a D line, 16 there: {on_d:?}; {beyond} refused with 18: {grounds}; a refusal of reading before, in and behind the line of 18: {spoiled:?}; the last line at fault, of 18 and of others: {farthest:?})")
    }
}

// Whether the second program turns each form into the other.
fn same_forms(old: &[u8], new: &[u8]) -> bool {
    let same =
        turned(to_new, old).as_deref() == Ok(new) && turned(to_old, new).as_deref() == Ok(old);
    if !same {
        println!("the second program does not turn these into each other:");
        println!("{}", String::from_utf8_lossy(old));
        println!("{}", String::from_utf8_lossy(new));
    }
    same
}

// What the second program answers to these steps, of trains and of the clock with an angle.
fn list_of(s: &[u32; SETTINGS], steps: &[(char, u32)]) -> List {
    let letters: Vec<u8> = steps.iter().map(|step| step.0 as u8).collect();
    let numbers: Vec<u32> = steps.iter().map(|step| step.1).collect();
    let degrees = |n: &u32| (*n).min(FULL) as f32 / 64.0;
    let readings: Vec<f32> = numbers.iter().map(degrees).collect();
    answered(s, &letters, &numbers, &readings)
}

// The record of a list in the form of document 01, where it can hold it.
fn old_text_of(s: &[u32; SETTINGS], list: &List) -> Vec<u8> {
    let settings = (1..=OLD_SETTINGS).map(|i| old_line(s[i - 1], 'S', i as u32));
    let lines = lines_of_list(list).into_iter();
    let without_train = |(now, letter, n)| old_line(now, letter, if letter == 'D' { 0 } else { n });
    let mut text = OLD_FIRST_LINE.to_string();
    text.extend(settings.chain(lines.map(without_train)));
    text.push_str(OLD_LAST_LINE);
    text.into_bytes()
}

// A step that is refused after this list: with 17 where some are, else with any number (5 can always be).
fn refused_step(r: &mut Random, way: Way, s: &[u32; SETTINGS], list: &List) -> (char, u32) {
    let mut b = Bench::new(s).expect("settings that are taken");
    for (letter, n) in &list.accepted {
        b.step(*letter, *n).expect("a step that is accepted");
    }
    let approaches: &[char] = match way {
        Way::Forward => &['A'],
        Way::Back => &['A', 'B', 'E', 'F'],
    };
    let letters = [approaches, &['O', 'L', 'T']].concat();
    let angle = r.below(FULL as u64) as u32;
    let mut by_number: Vec<Vec<(char, u32)>> = vec![Vec::new(); 18];
    for letter in letters {
        for n in (0..=97).chain([angle, FULL, FULL + 1, 9_999]) {
            if let Err(number) = b.clone().step(letter, n) {
                by_number[number as usize].push((letter, n));
            }
        }
    }
    if by_number[17].is_empty() {
        by_number.retain(|steps| !steps.is_empty());
    } else {
        by_number.drain(..17);
    }
    let number = r.below(by_number.len() as u64) as usize;
    r.one_of(&by_number[number])
}

// The place of any line of a step or command with one of these letters, after some tries.
fn step_line(r: &mut Random, way: Way, text: &[u8], letters: &[u8]) -> Option<usize> {
    let (n, first) = (way.line_bytes(), way.first_step());
    let many = (text.len().saturating_sub(first) / n) as u64;
    let from = r.below(many.max(1)) as usize;
    let places = (0..many as usize).map(|i| first + n * ((from + i) % many as usize));
    places.take(400).find(|at| letters.contains(&text[*at + 9]))
}

// Another number in the last columns of the line at this place.
fn put_number(r: &mut Random, way: Way, text: &mut [u8], at: usize) {
    let end = at + way.line_bytes() - 1;
    let own = text[at + 10..end].to_vec();
    while text[at + 10..end] == own {
        let most = r.one_of(&[2, 97, 5_761, 10_000]);
        let any = r.below(most) as u32;
        let number = match way {
            Way::Forward => r.one_of(&[any, 0, 1, 95, 96, 97, 98, 256, 5_760, 5_761, 9_999]),
            Way::Back => r.one_of(&[any, 0, 96, 97, 5_761, 9_999, 10_000, 65_535, 65_536, 99_999]),
        };
        let columns = way.line(0, 'A', number);
        text[at + 10..end].copy_from_slice(&columns[10..columns.len() - 1]);
    }
}

// Another digit in the place of this one.
fn put_digit(r: &mut Random, text: &mut [u8], at: usize) {
    if text[at].is_ascii_digit() {
        text[at] = r.one_of(b"0123456789");
    }
}

// A line of a record spoiled, so that it is mostly refused.
fn spoil_line(r: &mut Random, text: &mut [u8], line: usize) {
    let at = LINE_BYTES * (line - 1);
    let letter = r.one_of(b"XSBDULOAT");
    match r.below(6) {
        0 => text[at + 15] = b' ',
        1 => text[at + r.below(15) as usize] = b'\n',
        2 => text[at + 9] = letter,
        3 => put_digit(r, text, at + 7),
        _ => put_number(r, Way::Back, text, at),
    }
}

// Damage to a text in one of the forms: a byte replaced, put in or taken out, a line dropped, doubled or exchanged, the end cut,
// something behind it, another digit, number or letter, a setting at a limit, the line of a step put in.
fn damage_in(r: &mut Random, way: Way, text: &mut Vec<u8>) {
    let n = way.line_bytes();
    if text.len() < way.first_step() + 2 * n {
        text.push(r.one_of(b"\n 0"));
        return;
    }
    let lines = (text.len() / n) as u64;
    let at = n * r.below(lines) as usize;
    let byte = r.below(text.len() as u64) as usize;
    let setting = 1 + r.below(way.settings() as u64) as usize;
    let any_step = step_line(r, way, text, b"ABEFOLTDU").unwrap_or(at);
    match r.below(18) {
        0 => text[byte] = r.next() as u8,
        1 => text[byte] = r.one_of(b"0123456789 ABEFCOLTDUS\n"),
        2 => text.insert(byte, r.one_of(b"0 \n")),
        3 => {
            text.remove(byte);
        }
        4 => drop(text.drain(at..at + n)),
        5 => {
            let line = text[at..at + n].to_vec();
            text.splice(at..at, line);
        }
        6 => {
            let next = (at + n * r.one_of(&[1, 1, 2, 5])).min(n * (lines as usize - 1));
            (0..n).for_each(|i| text.swap(at + i, next + i));
        }
        7 => text.truncate(r.one_of(&[byte, at, text.len() - 1])),
        8 => text.push(r.one_of(b"\n 0\0")),
        9 => text.extend_from_within(at..at + n),
        10 => put_digit(r, text, at + 7),
        11 => put_digit(r, text, at + n - 2),
        12 | 13 => put_number(r, way, text, any_step),
        14 => text[any_step + 9] = r.one_of(b"ABEFOLTDUSC"),
        15 | 16 => {
            let own: u32 = String::from_utf8_lossy(&text[n * setting..n * setting + 8])
                .trim()
                .parse()
                .unwrap_or(0);
            let limit = r.one_of(&[0, 1, 2, 5_760, 5_761, 60_000, 60_001, 99_999_999]);
            let near = [own.saturating_sub(1), (own + 1).min(99_999_999)];
            let value = r.one_of(&[near[0], near[0], near[1], near[1], limit]);
            let line = way.line(value, 'S', setting as u32);
            text[n * setting..n * (setting + 1)].copy_from_slice(&line);
        }
        _ => {
            let letter = r.one_of(b"AAAAOLBEFT");
            let any = 1 + r.below(96) as u32;
            let number = r.one_of(&[any, any, 1, 2, 3, 0, 96, 97]);
            let mut line = way.line(0, letter as char, number);
            if any_step > way.first_step() {
                line[..8].copy_from_slice(&text[any_step - n..any_step - n + 8]);
            }
            text.splice(any_step..any_step, line);
        }
    }
}

// A text of both forms, of the lines of one run.
fn mixed_forms(r: &mut Random, old: &[u8], new: &[u8]) -> Vec<u8> {
    let olds: Vec<&[u8]> = old.chunks(LINE_BYTES - 1).collect();
    let news: Vec<&[u8]> = new.chunks(LINE_BYTES).collect();
    let many = olds.len();
    let (olds_head, news_head) = (1 + OLD_SETTINGS, 1 + SETTINGS);
    let at = r.below(many as u64) as usize;
    let same = if at < olds_head { at } else { at + 6 };
    let narrow = |line: &&[u8]| [&line[..10], &line[11..]].concat();
    let mut lines: Vec<Vec<u8>> = match r.below(2) {
        0 => olds.iter().map(|line| line.to_vec()).collect(),
        _ => news.iter().map(|line| line.to_vec()).collect(),
    };
    match r.below(8) {
        0 => return [&olds[..at], &news[same..]].concat().concat(),
        1 => return [&news[..same], &olds[at..]].concat().concat(),
        2 => return [&olds[..olds_head], &news[news_head..]].concat().concat(),
        3 => return [&news[..news_head], &olds[olds_head..]].concat().concat(),
        // one line of the other form
        4 if lines.len() == many => lines[at] = news[same].to_vec(),
        4 => lines[same] = olds[at].to_vec(),
        // thirteen settings in the old form, or its D lines with their trains; seven in the new form
        5 if lines.len() == many => {
            let six = news[olds_head..news_head].iter().map(narrow);
            lines.splice(olds_head..olds_head, six);
        }
        5 => drop(lines.drain(olds_head..news_head)),
        6 if lines.len() == many => {
            for (i, line) in lines.iter_mut().enumerate().skip(olds_head) {
                if line[9] == b'D' {
                    *line = narrow(&news[i + 6]);
                }
            }
        }
        6 => {
            for line in lines.iter_mut().skip(news_head).filter(|l| l[9] == b'D') {
                line[10..15].copy_from_slice(b"    0");
            }
        }
        // one behind the other
        _ => lines.push(r.one_of(&[old, new]).to_vec()),
    }
    lines.concat()
}

// Settings under which document 01's form holds a record: the times of all kinds alike, now and then at the limits.
fn alike_settings(r: &mut Random) -> [u32; SETTINGS] {
    loop {
        let s = settings(r);
        let mut seven: [u32; OLD_SETTINGS] = std::array::from_fn(|i| s[i]);
        if r.below(12) == 0 {
            seven = r.one_of(&[
                [60_000, 60_000, 1, 1, 60_000, 60_000, 60_000],
                [5_761, 60_000, 1, 5_760, 60_000, 59_999, 1],
                [2, 60_000, 5_760, 5_760, 0, 59_999, 1],
                [2, 2, 5_760, 5_760, 0, 1, 1],
                [2, 2, 5_760, 1, 60_000, 60_000, 5_760],
            ]);
        }
        let s = alike(&seven);
        if check(&s) == 0 {
            return s;
        }
    }
}

// The steps with kind 1 for all trains and numbers from 1 to 96: from the first on, from the last on, or any.
fn fitted(r: &mut Random, steps: &[(char, u32)]) -> Vec<(char, u32)> {
    let all: Vec<u32> = (1..=OLD_LAST_TRAIN).collect();
    let mut usable = in_some_order(r, &all);
    let mut present: Vec<(u32, u32)> = Vec::new();
    let mut fitted = Vec::new();
    for (letter, n) in steps {
        let place = present.iter().position(|(own, _)| own == n);
        fitted.push(match (letter, place) {
            ('T', _) => ('T', *n),
            ('O', Some(i)) => ('O', present[i].1),
            ('L', Some(i)) => {
                let (_, number) = present.swap_remove(i);
                usable.push(number);
                ('L', number)
            }
            _ => {
                let number = usable.pop().expect("at most 96 trains are present");
                present.push((*n, number));
                ('A', number)
            }
        });
    }
    fitted
}

// Settings, and accepted steps under them that document 01's form holds: some by chance, some in which the kept trains change hands.
fn on_shelf(r: &mut Random) -> ([u32; SETTINGS], Vec<(char, u32)>) {
    let yard = match r.below(40) {
        0 => Yard::Full,
        1 | 2 => Yard::Crowd,
        3..=5 => Yard::Few,
        6..=9 => Yard::Meeting,
        10..=13 => Yard::Convoy,
        _ => {
            let s = alike_settings(r);
            let least = r.one_of(&[1, 1, 1, 60, 200, 600]);
            let list = steps(r, &s, least);
            return (s, fitted(r, &list.accepted));
        }
    };
    let close = close_settings(r, yard);
    let s = alike(&std::array::from_fn(|i| close[i]));
    let list = handed_over_under(r, &mut Hands::default(), yard, &s);
    (s, fitted(r, &list.accepted))
}

// The sorts of what document 01's form does not hold: a train above 96 or 97, a kind, both in one approach; one setting unlike kind 1's;
// a train or a kind at the last approach; several of these; any trains.
const BEYOND: u64 = 9;
const LAST_APPROACH: u64 = 5;

fn beyond(
    r: &mut Random,
    s: &[u32; SETTINGS],
    steps: &[(char, u32)],
    sort: u64,
) -> ([u32; SETTINGS], Vec<(char, u32)>) {
    let (mut s, mut steps) = (*s, steps.to_vec());
    let approaches: Vec<usize> = (0..steps.len()).filter(|i| steps[*i].0 == 'A').collect();
    let Some(last) = approaches.last().copied() else {
        return (unlike(r, &s), steps);
    };
    let any = r.one_of(&approaches);
    let number = r.one_of(&[97, 97, 98, 100, 255, 256, 9_999, 10_000, 32_768, 65_535]);
    let kind = r.one_of(&['B', 'E', 'F']);
    match sort {
        0 => rename(&mut steps, any, number),
        1 => rename(&mut steps, any, 97),
        2 => steps[any].0 = kind,
        3 => {
            steps[any].0 = kind;
            rename(&mut steps, any, number);
        }
        4 => s = unlike(r, &s),
        LAST_APPROACH => match r.below(3) {
            0 => rename(&mut steps, last, number),
            1 => rename(&mut steps, last, 97),
            _ => steps[last].0 = kind,
        },
        6 => {
            s = unlike(r, &s);
            s = unlike(r, &s);
            rename(&mut steps, any, number);
        }
        7 => {
            rename(&mut steps, any, number);
            rename(&mut steps, last, 101);
            let other = r.one_of(&approaches);
            steps[other].0 = kind;
        }
        _ => {
            let trains = some_trains(r, PLACES);
            for step in steps.iter_mut().filter(|step| step.0 != 'T') {
                step.1 = trains[step.1 as usize - 1];
            }
        }
    }
    (s, steps)
}

// The train of this approach gets another number, up to its leave.
fn rename(steps: &mut [(char, u32)], approach: usize, number: u32) {
    let own = steps[approach].1;
    for step in &mut steps[approach..] {
        if step.0 != 'T' && step.1 == own {
            step.1 = number;
            if step.0 == 'L' {
                return;
            }
        }
    }
}

// One of the settings 8 to 13 changed, so that all are taken.
fn unlike(r: &mut Random, s: &[u32; SETTINGS]) -> [u32; SETTINGS] {
    // no setting is too small for the margin ahead
    let mut wide = *s;
    wide[5] = 60_000;
    loop {
        let mut other = r.one_of(&[*s, wide]);
        let i = 7 + r.below(6) as usize;
        let near = [other[i] - 1, other[i] + 1];
        other[i] = r.one_of(&[near[0], near[1], 60_000, other[1], other[0]]);
        if other[i] != s[i] && check(&other) == 0 {
            return other;
        }
    }
}

// A run of so many trains one after the other under K, that document 01's form holds.
fn one_by_one(trains: u32) -> Vec<(char, u32)> {
    let mut steps = Vec::new();
    for i in 0..trains {
        let n = 1 + i % OLD_LAST_TRAIN;
        steps.push(('A', n));
        steps.extend([FULL, FULL / 2, 0].map(|angle| ('T', angle)));
        steps.extend([('O', n), ('T', 0), ('L', n), ('T', FULL)]);
    }
    steps
}

// So many clock steps under K with the arm at 90 degrees, in one of the forms.
fn clock_text(way: Way, steps: usize) -> Vec<u8> {
    let list = List::default();
    let mut text = match way {
        Way::Forward => old_text_of(&K, &list),
        Way::Back => text_of(&K, &list),
    };
    let last = text.split_off(way.first_step());
    let mut line = way.line(0, 'T', FULL);
    text.reserve(line.len() * (steps + 1));
    for _ in 0..steps {
        let nines = line[..8].iter().rev().take_while(|c| **c == b'9').count();
        line[8 - nines..8].fill(b'0');
        let digit = &mut line[7 - nines];
        *digit = (*digit).max(b'0') + 1;
        text.extend_from_slice(&line);
    }
    text.extend(last);
    text
}

// Whether one clock step more than there are instants is refused with 10 at its line, each way.
fn same_end() -> bool {
    WAYS.into_iter().all(|way| {
        let text = clock_text(way, LAST_INSTANT as usize + 1);
        let line = (1 + way.settings()) as u64 + LAST_INSTANT as u64 + 1;
        let mut out = [UNTOUCHED; 64];
        let got = way.library(&text, &mut out);
        let same = got == 256 * line + 10 && out == [UNTOUCHED; 64];
        if !same {
            println!("{way:?}, a clock step too many: 10 at line {line} wanted, {got} got");
        }
        same
    })
}

// Old and new records, turned both ways: what was compared, and how many differ.
fn shelves() -> (Shelves, u32) {
    let mut r = Random(0x5be0_cd19_137e_2179);
    let mut shelves = Shelves::default();
    let mut differ = shelves.sample_differs(&mut r);
    for _ in 0..SHELVES {
        let (s, steps) = on_shelf(&mut r);
        differ += shelves.run_differs(&mut r, &s, &steps);
    }
    for _ in 0..LONG_SHELVES {
        let s = alike_settings(&mut r);
        let list = steps(&mut r, &s, 12_000);
        let steps = fitted(&mut r, &list.accepted);
        differ += shelves.long_differs(&mut r, &s, &steps);
    }
    // more lines than 16 bits count
    differ += shelves.long_differs(&mut r, &K, &one_by_one(7_000));
    differ += shelves.huge_differs(&mut r) + !same_end() as u32;
    (shelves, differ)
}

fn main() {
    // beside all else
    let clock = std::thread::spawn(|| (same_clock(&K), shelves()));
    let mut r = Random(0x2545_f491_4f6c_dd1d);
    let mut q = Random(0x9e37_79b9_7f4a_7c15);
    let mut p = Random(0xd1b5_4a32_d192_ed03);
    let mut z = Random(0x6a09_e667_f3bc_c909);
    let mut h = Random(0xbb67_ae85_84ca_a73b);
    let mut l = Random(0x3c6e_f372_fe94_f82b);
    let mut v = Random(0xa54f_f53a_5f1d_36f1);
    let mut c = Random(0x510e_527f_ade6_82d1);
    let mut d = Random(0x9b05_688c_2b3e_6c1f);
    let mut f = Random(0x1f83_d9ab_fb41_bd6b);
    let (mut crowded, mut crowded_alone) = (Crowded::default(), Crowded::default());
    let mut old = 0;
    let (mut looks, mut swaps) = (0, Swaps::default());
    let (mut lines, mut joins) = (CommandLines::default(), Joins::default());
    let (mut tried, mut states, mut records, mut differ) = (0, 0, 0, 0);
    while tried < STEPS {
        let s = settings(&mut r);
        let list = steps(&mut r, &s, 1);
        tried += list.letters.len() as u64;
        differ += !same_run(&mut r, &s, &list) as u32;
        differ += !same_values(&mut z, &s, &list) as u32;
        states += (check(&s) == 0) as u32;
        let enough = STATE + z.below(3) as usize;
        let any = z.below(STATE as u64 + 1) as usize;
        let spoiled = z.below(10);
        for (spoiled, places) in [
            (WHOLE, enough),
            (WHOLE, STATE - 1),
            (spoiled, enough),
            (spoiled, any),
        ] {
            differ += !same_state(&mut z, &s, &list, spoiled, places) as u32;
        }
        let (any, spoiled) = (l.below(4) as usize, l.below(10));
        let longer = [2 + l.below(3) as usize, 2 + l.below(3) as usize];
        for (spoiled, places) in [
            (WHOLE, longer),
            (WHOLE, [2, 2]),
            (WHOLE, [1, 2]),
            (WHOLE, [2, 1]),
            (spoiled, [2, any]),
            (spoiled, [any, 2]),
        ] {
            looks += 1;
            differ += !same_look(&mut l, &s, &list, spoiled, places) as u32;
        }
        if check(&s) == 0 {
            crowded.count(&list);
            differ += crowded.record_differs(&mut f, &s, &list);
            differ += swapped_differ(&mut v, &s, &list, &mut swaps);
        }
        let used = recorded(&s, &list, &mut vec![0; 20_000])
            .map_or(LINE_BYTES * FIRST_STEP_LINE, |(_, used)| used);
        let more = used + 1 + q.below(40) as usize;
        let any = q.below(used as u64 + 40) as usize;
        for bytes in [used, used - 1, more, any] {
            records += 1;
            differ += !same_record(&mut q, &s, &list, bytes) as u32;
        }
        let Ok((whole, _)) = record_of(&s, &list.accepted, 20_000) else {
            continue;
        };
        for damaged in 0..6 {
            let mut text = whole.clone();
            for _ in 0..damaged.min(1 + r.below(2)) {
                if text.len() >= LINE_BYTES {
                    damage(&mut r, &mut text);
                }
            }
            differ += text_differs(&mut p, &text, &mut joins);
        }
        let narrow = narrowed(&whole);
        old += (read(&narrow).err() == Some((15, 1))) as u32;
        differ += text_differs(&mut p, &narrow, &mut joins);
        differ += lines.differ(&mut d, &s, &list, &mut joins);
    }
    for _ in 0..LONG_TEXTS {
        let text = long_text(&mut p);
        differ += text_differs(&mut p, &text, &mut joins);
    }
    let mut longest = 0;
    for _ in 0..LONGER_TEXTS {
        let text = longer_text(&mut p);
        longest = longest.max(text.len());
        differ += text_differs(&mut p, &text, &mut joins);
    }
    let mut hands = Hands::default();
    let few = vec![Yard::Few; HAND_LISTS as usize];
    let full = vec![Yard::Full; FULL_YARDS as usize];
    let meeting = vec![Yard::Meeting; MEETINGS as usize];
    let convoys = vec![Yard::Convoy; CONVOYS as usize];
    let crowds = vec![Yard::Crowd; CROWDS as usize];
    for yard in [few, full, meeting, convoys, crowds].concat() {
        let (s, list) = handed_over(&mut h, &mut hands, yard);
        differ += list_differs(&mut h, &s, &list, &mut joins);
        crowded.count(&list);
        differ += crowded.record_differs(&mut f, &s, &list);
        if yard == Yard::Crowd {
            let refused = up_to_refused(&mut f, &s, &list, &[17]);
            differ += text_differs(&mut f, &refused, &mut joins);
        }
        if yard == Yard::Convoy {
            differ += cut_differs(&mut h, &s, &list, &mut joins);
        }
        looks += 1;
        differ += !same_look(&mut l, &s, &list, WHOLE, [2, 2]) as u32;
        differ += swapped_differ(&mut v, &s, &list, &mut swaps);
        differ += lines.differ(&mut d, &s, &list, &mut joins);
    }
    let (mut heard, mut given) = (0, Given::default());
    for _ in 0..HEARD_LISTS {
        let s = settings(&mut c);
        let list = hearing(&mut c, &s);
        heard += list.letters.len();
        given.count(&s, &list);
        crowded_alone.count(&list);
        differ += heard_differs(&mut c, &s, &list);
    }
    let (every, every_heard) = every_number(&mut f);
    tried += every.letters.len() as u64;
    differ += !same_state(&mut f, &K, &every, WHOLE, STATE) as u32;
    differ += !same_heard(&mut f, &K, &every_heard, WHOLE) as u32;
    if differ == 0 {
        hands.check_enough();
        swaps.check_enough();
        given.check_enough();
        lines.check_enough();
        joins.check_enough();
        crowded.check_enough([300, 5_000, 300, 5_000, 200]);
        crowded_alone.check_enough([200, 2_000, 200, 1_000, 0]);
        assert_eq!(old, states, "texts in 14 columns that are 15 at line 1");
    }
    let lists = HAND_LISTS + FULL_YARDS + MEETINGS + CONVOYS + CROWDS;
    records += lines.records + crowded.no_space;
    tried += 2 * (LAST_INSTANT as u64 + 1);
    let (same_clock, (shelves, shelves_differ)) = clock.join().expect("comparisons beside");
    differ += !same_clock as u32 + shelves_differ;
    if differ == 0 {
        shelves.check_enough();
    }
    let shelves = shelves.says();
    let (texts, reports) = (joins.texts, 3 * joins.texts);
    let (joining, wholes, apart) = (joins.joining, joins.wholes, joins.apart);
    let (swapped, sorts) = (swaps.all(), swaps.tried);
    let (other_train, other_place) = (swaps.other_train, swaps.other_place);
    let (other_entries, full_texts) = (swaps.other_entries, joins.full);
    let (no_space, refused) = (lines.no_space, lines.refused);
    let no_space_17 = crowded.no_space;
    let (crowded, crowded_alone) = (crowded.says(), crowded_alone.says());
    let (lowers, named, alone) = (hands.lowers.all, hands.lowers.named, given.lowers.all);
    let five = hands.lowers.five;
    println!(
        "{tried} steps, {states} final states, {looks} looks, {swapped} swapped neighbours (AA, AO, OO, LO, LL: {sorts:?}; the raise {other_train} times with the other train's leave, {other_place} times at the other place; the trains {other_entries} times in other entries), {HEARD_LISTS} lists of {heard} steps that a cabinet alone hears, with {alone} lowers, a full table on a bench and in a cabinet alone ({crowded}; {crowded_alone}), {records} recordings ({no_space} without space for a D line, {no_space_17} without space where 17 is met), {texts} texts (the longest has {longest} bytes; {full_texts} refused with 17; {old} in 14 columns, 15 at line 1; another number on a command line, 16 there: on D another present train's, 0, a neighbour, out of range, on U: {refused:?}) with their stretches and {reports} reports, {joining} texts with touching stretches joined (of two, of three or more, of six or more, through one instant, still running, running since the last instant: {wholes:?}; one tick apart and not joined: {apart}), {lists} lists in which the kept trains change hands, with {lowers} lowers (of {five} the train's number has five digits; the named train due in one tick with another, with two or more, with one that approached at another instant; not the lowest number, not the last to approach, neither, not the first, not the first at its latest: {named:?}), {shelves}, {differ} differ"
    );
    std::process::exit((differ > 0) as i32);
}
