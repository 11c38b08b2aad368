//! Runs the sides in turn, holds their answers to each other, and takes medians over the rounds.
use crate::side::{Answer, Lent, Operation, Side};
use std::time::{Duration, Instant};

/// How long one operation is timed.
#[derive(Clone, Copy)]
pub struct Effort {
    /// The time that may be spent, where the fewest runs do not take longer.
    pub time: Duration,
    pub fewest: usize,
    pub most: usize,
}

impl Effort {
    /// How many runs to take of what takes so long: an odd number.
    fn runs(self, round: Duration) -> usize {
        let runs = (self.time.as_secs_f64() / round.as_secs_f64()) as usize;
        runs.clamp(self.fewest, self.most) | 1
    }
}

/// The processor time that this thread has had, in seconds: what other programs take of the machine is not in it.
fn processor_time() -> f64 {
    #[repr(C)]
    struct Time {
        seconds: i64,
        nanoseconds: i64,
    }
    unsafe extern "C" {
        fn clock_gettime(clock: i32, time: *mut Time) -> i32;
    }
    // Linux's CLOCK_THREAD_CPUTIME_ID.
    const OF_THE_THREAD: i32 = 3;

    let mut time = Time {
        seconds: 0,
        nanoseconds: 0,
    };
    assert_eq!(unsafe { clock_gettime(OF_THE_THREAD, &mut time) }, 0);
    time.seconds as f64 + time.nanoseconds as f64 / 1e9
}

/// One run of each side, one after the other: what each took, in seconds. All have to answer the same.
fn round(
    sides: &mut [Box<dyn Side>],
    operation: Operation,
    lent: &mut Lent,
    answers: &mut [Answer; 2],
) -> Vec<f64> {
    let mut times = Vec::new();
    for side in sides {
        side.prepare(operation);
        lent.reset(operation);
        let start = processor_time();
        side.run(operation, lent);
        times.push(processor_time() - start);

        let [first, other] = &mut *answers;
        let answer = if times.len() == 1 {
            &mut *first
        } else {
            &mut *other
        };
        answer.clear();
        side.answer(operation, answer);
        lent.answer(operation, answer);
        assert!(
            times.len() == 1 || first == other,
            "{operation}: the answers differ"
        );
    }
    times
}

/// The one in the middle of an odd number of values.
fn median(values: impl Iterator<Item = f64>) -> f64 {
    let mut values: Vec<_> = values.collect();
    values.sort_by(f64::total_cmp);
    values[values.len() / 2]
}

/// What the first side took, in seconds, and its time over that of each other side. A ratio is taken within a round,
/// whose runs are close together, so that a machine whose speed drifts disturbs it little.
pub struct Medians {
    pub time: f64,
    pub ratios: Vec<f64>,
}

pub fn medians(
    sides: &mut [Box<dyn Side>],
    operation: Operation,
    lent: &mut Lent,
    effort: Effort,
) -> Medians {
    let mut answers = [Answer::default(), Answer::default()];
    let mut warm = || round(sides, operation, lent, &mut answers);
    warm();
    let start = Instant::now();
    warm();
    let runs = effort.runs(start.elapsed());
    let rounds: Vec<_> = (0..runs)
        .map(|_| round(sides, operation, lent, &mut answers))
        .collect();
    let ratio = |side: usize| median(rounds.iter().map(|round| round[0] / round[side]));
    Medians {
        time: median(rounds.iter().map(|round| round[0])),
        ratios: (1..sides.len()).map(ratio).collect(),
    }
}
