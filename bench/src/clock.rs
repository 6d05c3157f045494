//! Two works timed in turns, by the processor time of their thread: what else the machine does counts little.
use std::{
  ffi::{c_int, c_long},
  fmt,
  time::{Duration, Instant},
};

#[repr(C)]
struct Timespec {
  seconds: c_long,
  nanoseconds: c_long,
}

unsafe extern "C" {
  fn clock_gettime(clock: c_int, time: *mut Timespec) -> c_int;
}

/// The processor time that this thread has used.
fn used() -> Duration {
  const THREAD: c_int = 3; // CLOCK_THREAD_CPUTIME_ID on Linux
  let mut time = Timespec { seconds: 0, nanoseconds: 0 };
  // SAFETY: `time` is a live place of the type that the C library writes.
  assert_eq!(unsafe { clock_gettime(THREAD, &mut time) }, 0);
  Duration::new(time.seconds as u64, time.nanoseconds as u32)
}

/// How long a pair is timed, and the fewest and most turns.
const WHILE: Duration = Duration::from_millis(1_500);
pub const FEWEST: usize = 3;
pub const MOST: usize = 101;

/// How long a piece of work took the processor. What it gives is used up after the clock has stopped.
pub fn timed<T>(work: impl FnOnce() -> T) -> Duration {
  let start = used();
  let given = std::hint::black_box(work());
  let time = used() - start;
  drop(given);
  time
}

#[derive(Clone, Copy)]
pub struct Time {
  pub least: Duration,
  pub median: Duration,
}

impl Time {
  fn of(mut times: Vec<Duration>) -> Self {
    times.sort_unstable();
    Self { least: times[0], median: times[times.len() / 2] }
  }
}

pub struct Pair {
  pub theirs: Time,
  pub ours: Time,
  pub turns: usize,
}

/// One untimed run of each, then the two in turns.
pub fn in_turns(mut theirs: impl FnMut() -> Duration, mut ours: impl FnMut() -> Duration) -> Pair {
  theirs();
  ours();
  let start = Instant::now();
  let (mut first, mut second) = (Vec::new(), Vec::new());
  while first.len() < FEWEST || (first.len() < MOST && start.elapsed() < WHILE) {
    first.push(theirs());
    second.push(ours());
  }
  Pair { turns: first.len(), theirs: Time::of(first), ours: Time::of(second) }
}

/// One work after one untimed run, as often.
pub fn alone(mut work: impl FnMut() -> Duration) -> Time {
  work();
  let start = Instant::now();
  let mut times = Vec::new();
  while times.len() < FEWEST || (times.len() < MOST && start.elapsed() < WHILE) {
    times.push(work());
  }
  Time::of(times)
}

fn us(time: Duration) -> f64 {
  time.as_secs_f64() * 1e6
}

impl Pair {
  /// Ours by theirs, of the least times.
  pub fn ratio(&self) -> f64 {
    us(self.ours.least) / us(self.theirs.least)
  }
}

/// As cells of a table.
impl fmt::Display for Pair {
  fn fmt(&self, f: &mut fmt::Formatter<'_>) -> fmt::Result {
    let [a, b] = [self.theirs.least, self.ours.least].map(us);
    let [c, d] = [self.theirs.median, self.ours.median].map(us);
    write!(f, "{a:.1} | {b:.1} | {:.2} | {c:.1} | {d:.1} | {}", self.ratio(), self.turns)
  }
}

/// As cells of a table.
impl fmt::Display for Time {
  fn fmt(&self, f: &mut fmt::Formatter<'_>) -> fmt::Result {
    write!(f, "{:.1} | {:.1}", us(self.least), us(self.median))
  }
}

/// The head of a table whose cells a pair ends.
pub fn head(first: &str) {
  let columns = first.matches('|').count() + 7;
  println!("| {first} | Rust, us | ours, us | ours / Rust | Rust, median | ours, median | turns |");
  println!("{}|", "|---".repeat(columns));
}
