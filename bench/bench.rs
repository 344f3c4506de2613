// Measures the library against plain Rust that does the same job, both in one run. Each job has several inputs that take turns, so that no
// branch predictor knows one by heart; contenders take turns within a round; a ratio is taken within each round, and what is printed is the
// median over the rounds. Before it is timed, every contender's answer is compared with the library's.
//
//   bench [--quick] [--no-paper] [--only=WORDS] [SVG-FILE]
mod bursts;
mod codec;
mod ffi;
mod groups;
mod jobs;
mod links;
mod maps;
mod paper;
mod plain;
mod rounds;
mod show;

use std::sync::OnceLock;
use std::time::Instant;

// Jobs without these words in their names are compared, but not timed.
static ONLY: OnceLock<String> = OnceLock::new();

pub struct Random(pub u64);

impl Random {
    pub fn draw(&mut self) -> u64 {
        self.0 = self.0.wrapping_add(0x9e37_79b9_7f4a_7c15);
        let z = (self.0 ^ self.0 >> 30).wrapping_mul(0xbf58_476d_1ce4_e5b9);
        let z = (z ^ z >> 27).wrapping_mul(0x94d0_49bb_1331_11eb);
        z ^ z >> 31
    }

    pub fn below(&mut self, n: u64) -> u64 {
        self.draw() % n
    }

    pub fn shuffle<T>(&mut self, list: &mut [T]) {
        for k in (1..list.len()).rev() {
            list.swap(k, self.below(k as u64 + 1) as usize);
        }
    }
}

// Nanoseconds that one call took.
pub fn timed<R>(work: impl FnOnce() -> R) -> f64 {
    let start = Instant::now();
    std::hint::black_box(work());
    start.elapsed().as_nanos() as f64
}

// Runs input number i and gives the nanoseconds of what is to be measured, without what prepares it.
pub type Contender<'a> = (&'static str, Box<dyn FnMut(usize) -> f64 + 'a>);

pub struct Row {
    pub job: String,
    pub against: &'static str,
    pub unit: &'static str,
    pub library: f64,
    pub other: f64,
    pub ratio: f64,
}

pub fn median(mut list: Vec<f64>) -> f64 {
    list.sort_by(|a, b| a.total_cmp(b));
    list[list.len() / 2]
}

// The first contender is the library. `per` is how many units one call does.
pub fn measure(rows: &mut Vec<Row>, job: &str, unit: &'static str, per: f64, inputs: usize, rounds: usize, mut contenders: Vec<Contender>) {
    if ONLY.get().is_some_and(|words| !job.contains(words.as_str())) {
        return;
    }
    let n = contenders.len();
    let mut times = vec![vec![]; n];
    for round in 0..rounds + 1 {
        for turn in 0..n {
            let c = (turn + round) % n;
            let sum: f64 = (0..inputs).map(|i| (contenders[c].1)(i)).sum();
            if round > 0 {
                times[c].push(sum / inputs as f64 / per); // round 0 only warms up
            }
        }
    }
    for c in 1..n {
        let ratios = times[0].iter().zip(&times[c]).map(|(a, b)| a / b).collect();
        rows.push(Row {
            job: job.to_string(),
            against: contenders[c].0,
            unit,
            library: median(times[0].clone()),
            other: median(times[c].clone()),
            ratio: median(ratios),
        });
    }
}

fn main() {
    let mut rounds = 61;
    let mut svg = None;
    let mut with_paper = true;
    for word in std::env::args().skip(1) {
        match word.as_str() {
            "--quick" => rounds = 5,
            "--no-paper" => with_paper = false,
            _ => match word.strip_prefix("--only=") {
                Some(words) => ONLY.set(words.to_string()).expect("--only= is given once"),
                None => svg = Some(word),
            },
        }
    }
    let mut rows = Vec::new();
    jobs::all(&mut rows, rounds);
    groups::all(&mut rows, rounds);
    rounds::all(&mut rows, rounds);
    bursts::all(&mut rows, rounds);
    if with_paper {
        paper::all(&mut rows, rounds.min(5));
    }
    show::markdown(&rows, rounds);
    if let Some(file) = svg {
        std::fs::write(&file, show::svg(&rows)).expect("the picture cannot be written");
    }
}
