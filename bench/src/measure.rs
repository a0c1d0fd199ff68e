//! Times of calls, and the tables that they are printed in.
use std::hint::black_box;
use std::time::{Duration, Instant};

/// A measurement takes so many turns, or fewer once it has taken so long.
pub const TURNS: usize = 200;
const LONGEST: Duration = Duration::from_millis(400);

/// Nanoseconds of each run, the least over the turns, one after another in each turn. A run says whether its result is right.
pub fn compare<const N: usize>(mut runs: [&mut dyn FnMut() -> bool; N]) -> [f64; N] {
    let mut least = [f64::MAX; N];
    let begin = Instant::now();
    for _ in 0..TURNS {
        for (run, best) in runs.iter_mut().zip(&mut least) {
            let start = Instant::now();
            assert!(black_box(run()), "a run with another result");
            *best = best.min(start.elapsed().as_nanos() as f64);
        }
        if LONGEST < begin.elapsed() {
            break;
        }
    }
    least
}

pub fn least(mut run: impl FnMut() -> bool) -> f64 {
    compare([&mut run])[0]
}

/// Nanoseconds of one of many runs.
fn one(bytes: usize, mut run: impl FnMut()) -> f64 {
    let times = (500_000 / bytes.max(1)).max(1);
    let all = least(|| {
        (0..times).for_each(|_| run());
        true
    });
    all / times as f64
}

/// Nanoseconds of a copy of so many bytes.
pub fn copy(bytes: usize) -> f64 {
    let (from, mut to) = (vec![1u8; bytes], vec![0u8; bytes]);
    one(bytes, || black_box(&mut to).copy_from_slice(black_box(&from)))
}

/// Nanoseconds in which so many bytes are set to 0.
pub fn zero(bytes: usize) -> f64 {
    let mut to = vec![1u8; bytes];
    one(bytes, || black_box(&mut to).fill(0))
}

/// One call: its times in nanoseconds, and how many bytes it must read and write once.
pub struct Row {
    pub what: String,
    pub lines: Option<usize>,
    /// Product: for proved callers, and for any memory.
    pub proved: f64,
    pub any: f64,
    /// Hand-written C, and the source's functions.
    pub c: f64,
    pub source: f64,
    pub bytes: usize,
}

pub const HEAD: &str = "\
| call | lines | proved callers, ns | any memory, ns | source, ns | C, ns | limit, ns | proved / source | proved / C | proved / limit |
|---|---|---|---|---|---|---|---|---|---|
";

impl Row {
    pub fn print(&self) -> String {
        let Row { what, proved, any, c, source, .. } = self;
        let limit = copy(self.bytes);
        let lines = self.lines.map_or(String::new(), |n| n.to_string());
        format!(
            "| {what} | {lines} | {proved:.0} | {any:.0} | {source:.0} | {c:.0} | {limit:.0} | {:.2} | {:.2} | {:.1} |\n",
            proved / source,
            proved / c,
            proved / limit
        )
    }
}

/// The rows as a table.
pub fn table(rows: &[Row]) -> String {
    rows.iter().fold(HEAD.to_string(), |all, row| all + &row.print())
}
