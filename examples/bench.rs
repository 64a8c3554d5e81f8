// A bench from Rust, one call a step: `Bench` keeps the words and hides the calls. The program takes one through the sample run of
// document 01, with refused steps in between, and prints of each step its answer, and the instant, pose and gate after it.
//
//   rustc --edition 2021 examples/bench.rs -L target/staticlib -l static=exports -o target/bench-example && target/bench-example

use std::fmt;

const WORDS: usize = 411;
const INSTANT: usize = 15;

extern "C" {
    fn weqhaso_bench_start(state: *mut u32, length: usize, settings: *const u32, count: usize) -> u64;
    fn weqhaso_bench_approach(state: *mut u32, length: usize, letter: u8, train: u32) -> u64;
    fn weqhaso_bench_occupy(state: *mut u32, length: usize, train: u32) -> u64;
    fn weqhaso_bench_leave(state: *mut u32, length: usize, train: u32) -> u64;
    fn weqhaso_bench_clock(state: *mut u32, length: usize, reading: f32) -> u64;
    fn weqhaso_bench_pose(state: *const u32, length: usize, pose: *mut f32, places: usize) -> u64;
    fn weqhaso_bench_gate(state: *const u32, length: usize, angle: *mut f32, places: usize) -> u64;
}

// The kind of an approaching train, by the record's letter.
#[derive(Clone, Copy)]
pub enum Kind {
    Loaded = b'A' as isize,
    Empty = b'B' as isize,
    Engine = b'E' as isize,
    RailCar = b'F' as isize,
}

// The command that a step gives; a lower names the train that is due soonest.
pub enum Order {
    Nothing,
    Lower(u32),
    Raise,
}

// A step gives a command or is refused, with document 01's number; a refused step changes nothing.
pub type Answer = Result<Order, u8>;

// Falling and rising with the angle in degrees.
pub enum Gate {
    Up,
    Down,
    Falling(f32),
    Rising(f32),
}

// The angle and its change over the last clock step, in degrees.
pub struct Pose {
    pub angle: f32,
    pub change: f32,
}

#[derive(Clone)]
pub struct Bench {
    words: [u32; WORDS],
}

// number + 256 * letter + 65,536 * train
fn answer(packed: u64) -> Answer {
    match (packed as u8, (packed >> 8) as u8) {
        (0, b'D') => Ok(Order::Lower((packed >> 16) as u32)),
        (0, b'U') => Ok(Order::Raise),
        (0, _) => Ok(Order::Nothing),
        (number, _) => Err(number),
    }
}

// Each call has the words of one bench and no other slice that overlaps them: all that the library asks for.
impl Bench {
    pub fn start(settings: &[u32; 13]) -> Result<Bench, u8> {
        let mut words = [0; WORDS];
        match unsafe { weqhaso_bench_start(words.as_mut_ptr(), WORDS, settings.as_ptr(), settings.len()) } {
            0 => Ok(Bench { words }),
            number => Err(number as u8),
        }
    }

    pub fn approach(&mut self, kind: Kind, train: u32) -> Answer {
        answer(unsafe { weqhaso_bench_approach(self.words.as_mut_ptr(), WORDS, kind as u8, train) })
    }

    pub fn occupy(&mut self, train: u32) -> Answer {
        answer(unsafe { weqhaso_bench_occupy(self.words.as_mut_ptr(), WORDS, train) })
    }

    pub fn leave(&mut self, train: u32) -> Answer {
        answer(unsafe { weqhaso_bench_leave(self.words.as_mut_ptr(), WORDS, train) })
    }

    pub fn clock(&mut self, reading: f32) -> Answer {
        answer(unsafe { weqhaso_bench_clock(self.words.as_mut_ptr(), WORDS, reading) })
    }

    pub fn instant(&self) -> u32 {
        self.words[INSTANT]
    }

    pub fn pose(&self) -> Pose {
        let mut pose = [0.0; 2];
        unsafe { weqhaso_bench_pose(self.words.as_ptr(), WORDS, pose.as_mut_ptr(), pose.len()) };
        Pose { angle: pose[0], change: pose[1] }
    }

    pub fn gate(&self) -> Gate {
        let mut angle = [0.0];
        let packed = unsafe { weqhaso_bench_gate(self.words.as_ptr(), WORDS, angle.as_mut_ptr(), angle.len()) };
        match packed / 256 {
            0 => Gate::Up,
            1 => Gate::Down,
            2 => Gate::Falling(angle[0]),
            _ => Gate::Rising(angle[0]),
        }
    }
}

impl fmt::Display for Gate {
    fn fmt(&self, f: &mut fmt::Formatter) -> fmt::Result {
        match self {
            Gate::Up => write!(f, "up"),
            Gate::Down => write!(f, "down"),
            Gate::Falling(angle) => write!(f, "falling, {angle}"),
            Gate::Rising(angle) => write!(f, "rising, {angle}"),
        }
    }
}

fn in_words(answer: Answer) -> String {
    match answer {
        Ok(Order::Nothing) => "taken".to_string(),
        Ok(Order::Lower(train)) => format!("lower, {train}"),
        Ok(Order::Raise) => "raise".to_string(),
        Err(number) => format!("refused {number}"),
    }
}

enum Step {
    Approach(Kind, u32),
    Occupy(u32),
    Leave(u32),
    Clock(f32),
}

impl Step {
    fn take(&self, bench: &mut Bench) -> Answer {
        match *self {
            Step::Approach(kind, train) => bench.approach(kind, train),
            Step::Occupy(train) => bench.occupy(train),
            Step::Leave(train) => bench.leave(train),
            Step::Clock(reading) => bench.clock(reading),
        }
    }
}

impl fmt::Display for Step {
    fn fmt(&self, f: &mut fmt::Formatter) -> fmt::Result {
        match self {
            Step::Approach(kind, train) => write!(f, "{} {train}", *kind as u8 as char),
            Step::Occupy(train) => write!(f, "O {train}"),
            Step::Leave(train) => write!(f, "L {train}"),
            Step::Clock(reading) => write!(f, "T {reading}"),
        }
    }
}

fn show(step: &str, answer: &str, bench: &Bench) {
    let (now, pose, gate) = (bench.instant(), bench.pose(), bench.gate());
    println!("{step:<14}{answer:<12}{now:>3}{:>12}{:>12}  {gate}", pose.angle, pose.change);
}

// Settings K of document 01, for all four kinds.
const K: [u32; 13] = [3, 4, 2880, 5760, 0, 3, 1, 3, 4, 3, 4, 3, 4];

fn main() {
    use Step::*;
    let steps = [
        // the sample run, with refused steps
        Approach(Kind::Loaded, 0),
        Approach(Kind::Loaded, 65_536),
        Approach(Kind::Loaded, 1),
        Approach(Kind::Empty, 1),
        Clock(45.0),
        Clock(90.0),
        Clock(45.015625),
        Clock(0.0078125),
        Clock(f32::NAN),
        Clock(45.0),
        Occupy(1),
        Clock(-0.0),
        Leave(1),
        Occupy(1),
        Occupy(1),
        Clock(0.0),
        Leave(1),
        Clock(90.0),
        // two trains of other kinds; the arm falls in uneven steps, and one train comes late
        Approach(Kind::RailCar, 40_032),
        Approach(Kind::Engine, 40_031),
        Clock(90.0),
        Clock(44.5),
        Clock(0.0),
        Occupy(40_032),
        Clock(0.0),
        Leave(40_032),
        Clock(0.0),
        Occupy(40_031),
        // a third one so soon after them that the arm stays down
        Approach(Kind::Empty, 2),
        Leave(40_031),
        Clock(0.0),
        Clock(0.0),
        Clock(0.0),
        Occupy(2),
        Leave(2),
        Clock(90.0),
    ];
    let mut soon = K;
    soon[0] = 2;
    if let Err(number) = Bench::start(&soon) {
        println!("earliest 2: refused {number}");
    }
    let Ok(mut bench) = Bench::start(&K) else { panic!("K is refused") };
    show("start", "taken", &bench);
    for step in &steps {
        let answer = in_words(step.take(&mut bench));
        show(&step.to_string(), &answer, &bench);
    }
    // another bench beside it, with as many trains as there can be
    let mut yard = bench.clone();
    let refused: Vec<u32> = (1..=97).filter(|train| yard.approach(Kind::Loaded, *train).is_err()).collect();
    println!("of 97 trains together refused: {refused:?}");
    show("the first", "as it was", &bench);
}
