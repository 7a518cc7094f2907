//! How long calls take: runs timed in turn, round by round, and what that tells. Time is that of the own thread, without the turns that others have on its
//! processor.

/// A call to be timed.
pub type Run<'a> = Box<dyn FnMut() + 'a>;

/// What something takes, in microseconds; None where that is too short to tell.
pub type Time = Option<f64>;

/// Microseconds of every run in every round, list by list.
pub type Rounds = Vec<Vec<Vec<f64>>>;

/// The microseconds that one of `rounds` stands for: where a round takes less there are more of them. There are at least so many, and where what they are for
/// is not told by them, up to so many times as many.
const ROUND: f64 = 5_000.0;
const LEAST_ROUNDS: f64 = 9.0;
const MOST_TIMES: usize = 20;

/// `struct timespec` and the clock of a thread, of Linux on 64 bits.
#[repr(C)]
struct Timespec {
    seconds: i64,
    nanoseconds: i64,
}
const CLOCK_THREAD_CPUTIME_ID: i32 = 3;
extern "C" {
    fn clock_gettime(clock: i32, at: *mut Timespec) -> i32;
}

/// The microseconds that this thread has run.
pub fn now() -> f64 {
    let mut at = Timespec { seconds: 0, nanoseconds: 0 };
    // it writes the one struct, which is ours
    assert_eq!(unsafe { clock_gettime(CLOCK_THREAD_CPUTIME_ID, &mut at) }, 0);
    at.seconds as f64 * 1e6 + at.nanoseconds as f64 / 1e3
}

/// Times the runs of some lists in turn until that is `told`. Of each list the runs at even places come first: in a list that begins with two runs of the
/// product, neither comes after the other.
fn race(rounds: usize, mut lists: Vec<Vec<Run>>, told: impl Fn(&Rounds) -> bool) -> Rounds {
    let mut times: Rounds = lists.iter().map(|runs| vec![vec![]; runs.len()]).collect();
    for _ in 0..MOST_TIMES {
        let mut part = 0.0;
        while part < 1.0 {
            let round = now();
            for (runs, times) in lists.iter_mut().zip(&mut times) {
                for k in (0..runs.len()).step_by(2).chain((1..runs.len()).step_by(2)) {
                    let start = now();
                    runs[k]();
                    times[k].push(now() - start);
                }
            }
            part += ((now() - round) / ROUND / rounds as f64).min(1.0 / LEAST_ROUNDS);
        }
        if told(&times) {
            break;
        }
    }
    times
}

/// The best of the rounds of each run.
pub fn best(rounds: usize, runs: Vec<Run>) -> Vec<Time> {
    race(rounds, vec![runs], |_| true)[0].iter().map(|times| times.iter().copied().reduce(f64::min)).collect()
}

/// The middle one of what the rounds gave, where it is four times its own spread: that of the places sqrt(n) before and after it, which have the middle of all
/// rounds there could be between them 95 times in 100.
fn middle(mut given: Vec<f64>) -> Time {
    given.sort_by(f64::total_cmp);
    let (at, off) = (given.len() / 2, given.len().isqrt());
    let spread = given[(at + off).min(given.len() - 1)] - given[at.saturating_sub(off)];
    Some(given[at]).filter(|&middle| middle > 4.0 * spread)
}

/// How much longer a run of the second list takes than that of the first, for each: both are taken in the same round, and after the same run.
pub fn differences(rounds: usize, short: Vec<Run>, long: Vec<Run>) -> Vec<Time> {
    let difference = |(short, long): (&Vec<f64>, &Vec<f64>)| middle(short.iter().zip(long).map(|(short, long)| long - short).collect());
    let all = |times: &Rounds| -> Vec<Time> { times[0].iter().zip(&times[1]).map(difference).collect() };
    all(&race(rounds, vec![short, long], |times| all(times).iter().all(Time::is_some)))
}
