//! Interleaved runs of both sides, their medians, and the median of the ratios of each round.
use std::hint::black_box;
use std::time::Duration;

/// One side of a row: does its work this many times, and gives a number so that nothing is dropped, and the time that it took.
pub type Work = Box<dyn FnMut(usize) -> (u64, Duration)>;

pub struct Row {
    pub name: String,
    pub ours: Work,
    pub rust: Work,
    /// How many units (calls, records) one piece of work has.
    pub units: usize,
    /// The greatest ratio that is to be reached.
    pub limit: Option<f64>,
}

mod c {
    #[repr(C)]
    pub struct Time {
        pub seconds: i64,
        pub nanos: i64,
    }
    pub const THREAD_CPUTIME: i32 = 3;
    unsafe extern "C" {
        pub fn clock_gettime(clock: i32, time: *mut Time) -> i32;
    }
}

/// The processor time of this thread (Linux), which other programs on the machine do not lengthen.
fn now() -> Duration {
    let mut time = c::Time { seconds: 0, nanos: 0 };
    // SAFETY: `time` has the layout of C's `timespec`.
    assert_eq!(unsafe { c::clock_gettime(c::THREAD_CPUTIME, &mut time) }, 0);
    Duration::new(time.seconds as u64, time.nanos as u32)
}

/// The work of asking `ask` again and again.
pub fn repeated(mut ask: impl FnMut() -> u64 + 'static) -> Work {
    prepared(|| (), move |()| ask())
}

/// The same with something that is made for each call, which takes no part in the time.
pub fn prepared<T: 'static>(mut make: impl FnMut() -> T + 'static, mut ask: impl FnMut(T) -> u64 + 'static) -> Work {
    Box::new(move |times| {
        let made: Vec<T> = (0..times).map(|_| make()).collect();
        let start = now();
        let sum = made.into_iter().fold(0, |sum, made| sum ^ ask(made));
        (black_box(sum), now() - start)
    })
}

pub fn row(name: String, units: usize, limit: Option<f64>, ours: Work, rust: Work) -> Row {
    Row { name, ours, rust, units, limit }
}

/// 1000 as `1,000`.
pub fn thousands(number: usize) -> String {
    match number {
        0..1000 => number.to_string(),
        _ => format!("{},{:03}", thousands(number / 1000), number % 1000),
    }
}

/// How long one batch of a side shall take.
const BATCH_NS: f64 = 300_000.0;
/// What takes longer is measured in fewer rounds.
const LONG_NS: f64 = 50_000_000.0;

/// Once untimed first: a row then finds its own data in the caches, whatever other rows the run has.
fn time(work: &mut Work, times: usize) -> f64 {
    work(1);
    work(times).1.as_nanos() as f64 / times as f64
}

/// So many pieces of work that a batch takes about `BATCH_NS`, and how many rounds go by for one measurement.
fn batch(work: &mut Work) -> (usize, usize) {
    let mut times = 1;
    loop {
        let each = time(work, times);
        if each * times as f64 >= BATCH_NS / 4.0 {
            return ((BATCH_NS / each).max(1.0) as usize, (each / LONG_NS).ceil() as usize);
        }
        times *= 2;
    }
}

fn median(times: &mut [f64]) -> f64 {
    times.sort_by(f64::total_cmp);
    times[times.len() / 2]
}

struct Times {
    batch: usize,
    every: usize,
    ours: Vec<f64>,
    rust: Vec<f64>,
}

/// Each round measures every row that is due once on both sides; the side that goes first alternates. Before the first
/// both sides must give the same number.
pub fn measure(mut rows: Vec<Row>, rounds: usize) {
    let prepare = |row: &mut Row| {
        assert_eq!((row.ours)(1).0, (row.rust)(1).0, "{}: both sides give the same", row.name);
        let (batch, every) = batch(&mut row.rust);
        Times { batch, every, ours: Vec::new(), rust: Vec::new() }
    };
    let mut all: Vec<Times> = rows.iter_mut().map(prepare).collect();
    for round in 0..rounds {
        for (row, times) in rows.iter_mut().zip(&mut all).filter(|(_, times)| round % times.every == 0) {
            if times.ours.len() % 2 == 0 {
                times.ours.push(time(&mut row.ours, times.batch));
                times.rust.push(time(&mut row.rust, times.batch));
            } else {
                times.rust.push(time(&mut row.rust, times.batch));
                times.ours.push(time(&mut row.ours, times.batch));
            }
        }
    }
    println!("| row | ours, ns | Rust, ns | ratio | of rounds | at most |");
    println!("|---|---:|---:|---:|---:|---:|");
    rows.iter().zip(&mut all).for_each(|(row, times)| print(row, times));
}

/// The ratio of the two medians, and the median of the rounds' ratios.
fn print(row: &Row, times: &mut Times) {
    let units = row.units as f64;
    let mut ratios: Vec<f64> = times.ours.iter().zip(&times.rust).map(|(ours, rust)| ours / rust).collect();
    let (ours, rust) = (median(&mut times.ours) / units, median(&mut times.rust) / units);
    let (ratio, rounds) = (ours / rust, median(&mut ratios));
    let limit = match row.limit {
        Some(limit) if rounds > limit => format!("{limit:.2}, not reached"),
        Some(limit) => format!("{limit:.2}"),
        None => String::new(),
    };
    println!("| {} | {ours:.1} | {rust:.1} | {ratio:.2} | {rounds:.2} | {limit} |", row.name);
}
