//! Times of an entry on a sheet, by both programs.

use crate::entries::{independent_call, proved_call, Entry, Lines, Told, BLANK};
use crate::sheets::Timed;
use std::hint::black_box;
use std::time::{Duration, Instant};

/// A batch of calls is so long at least, so that the clock is not what is timed. Beside other work a short batch has
/// a better chance of a core of its own than a long one.
const BATCH: Duration = Duration::from_micros(200);

/// The batches of a pass: of both programs in turn, for so long and so many of each at least.
const PASS: Duration = Duration::from_millis(150);
const LEAST: usize = 3;

/// The program that is proved, and then the independent one.
type Call = fn(Entry, &Timed, &mut Lines) -> Told;
const CALLS: [Call; 2] = [proved_call, independent_call];

pub struct Timing<'a> {
    pub entry: Entry,
    pub sheet: &'a Timed,
    /// How many calls a batch has, and nanoseconds of a call in the best batch.
    calls: [u32; 2],
    pub nanoseconds: [f64; 2],
}

impl Timing<'_> {
    pub fn new(entry: Entry, sheet: &Timed) -> Timing<'_> {
        let mut timing = Timing {
            entry,
            sheet,
            calls: [1; 2],
            nanoseconds: [f64::INFINITY; 2],
        };
        for k in 0..2 {
            while timing.batch(k) < BATCH {
                timing.calls[k] *= 2;
            }
        }
        timing
    }

    /// A batch of calls by one of the programs.
    fn batch(&mut self, k: usize) -> Duration {
        let mut lines = BLANK;
        let start = Instant::now();
        for _ in 0..self.calls[k] {
            black_box(CALLS[k](self.entry, black_box(self.sheet), &mut lines));
        }
        let time = start.elapsed();
        let one = time.as_nanos() as f64 / f64::from(self.calls[k]);
        self.nanoseconds[k] = self.nanoseconds[k].min(one);
        time
    }

    pub fn pass(&mut self) {
        let (start, mut batches) = (Instant::now(), 0);
        while start.elapsed() < PASS || batches < LEAST {
            for k in 0..2 {
                self.batch(k);
            }
            batches += 1;
        }
    }
}
