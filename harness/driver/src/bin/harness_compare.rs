//! harness_compare OLD.so NEW.so [ROUNDS [TEXT]]: two builds of the library in one program, which make the same calls by turns, so that both find the machine
//! alike. With TEXT, only the lines that have it in their names.
//! A call is made twice and timed the second time. Each line has the middle of the times with both, then the ratio of the new to the old: the middle one of the
//! rounds, of each fifth of them, of which the middle, the least and the largest are printed. A line is slower where even the least is above 1.02, and faster
//! where even the largest is below 0.98. A pass, and figures with overheads, are the differences of two times of a round; where one of the numbers is not above
//! 0, they are too short to tell.
use driver::boards::climbing_put_off;
use driver::library::RECORD;
use driver::orders;
use driver::timing::now;
use oracle::board::MOST_PUT_OFF;
use oracle::generate::*;
use std::ffi::{c_char, c_int, c_void, CString};
use std::hint::black_box;
use std::mem::transmute;

extern "C" {
    fn dlopen(path: *const c_char, flags: c_int) -> *mut c_void;
    fn dlsym(library: *mut c_void, name: *const c_char) -> *mut c_void;
}
const RTLD_NOW: c_int = 2;

type Overhead = unsafe extern "C" fn(*const u32, usize, usize, usize, *mut u64) -> u32;
type Weigh = unsafe extern "C" fn(*const u32, usize, *const u32, usize, usize, *mut u64) -> u32;
type Analyse = unsafe extern "C" fn(*const u32, usize, *mut u32, usize, *mut u32, usize, *mut u32, usize, *mut u64) -> u32;
type InOrder = unsafe extern "C" fn(*const u32, usize, *mut u32, usize, *mut u32, usize, *mut u32, usize, *const u32, usize, *mut u64) -> u32;
type MakeUp = unsafe extern "C" fn(*const u32, usize, *mut u32, usize, *mut u32, usize, *mut u32, usize, usize, *mut u64, *mut u64) -> u32;

/// The calls of one build, with the declarations of include/zuzgravel.h.
struct Library {
    overhead: Overhead,
    weigh: Weigh,
    analyse: Analyse,
    in_order: InOrder,
    make_up: MakeUp,
}

impl Library {
    fn load(path: &str) -> Library {
        let text = |s: &str| CString::new(s).unwrap();
        // the file is a build of the library, whose functions have these types
        unsafe {
            let file = dlopen(text(path).as_ptr(), RTLD_NOW);
            assert!(!file.is_null(), "{path} cannot be loaded");
            let call = |name: &str| {
                let at = dlsym(file, text(name).as_ptr());
                assert!(!at.is_null(), "{path} has no {name}");
                at
            };
            Library {
                overhead: transmute::<*mut c_void, Overhead>(call("zuzgravel_overhead")),
                weigh: transmute::<*mut c_void, Weigh>(call("zuzgravel_weigh")),
                analyse: transmute::<*mut c_void, Analyse>(call("zuzgravel_analyse")),
                in_order: transmute::<*mut c_void, InOrder>(call("zuzgravel_analyse_in_order")),
                make_up: transmute::<*mut c_void, MakeUp>(call("zuzgravel_make_up")),
            }
        }
    }
}

/// A call on a board.
#[derive(Clone, Copy)]
enum Call<'a> {
    /// the checks alone: with a task number out of range Overhead makes them and stops
    Checks,
    /// the checks of Weigh, refused by its task number
    WeighRefused,
    /// the figures of all tasks and the overheads of all pairs, for the sum of one task at times 0
    Weigh,
    Analyse,
    InOrder(&'a [u32]),
    MakeUp(usize),
}

struct Buffers {
    times: [u32; 64],
    scratch: [u32; 4352],
    records: [u32; 64 * RECORD],
}

#[derive(Clone, Copy)]
struct Job<'a> {
    board: &'a [u32],
    call: Call<'a>,
}

impl Job<'_> {
    fn make(&self, library: &Library, buffers: &mut Buffers) {
        let (board, words) = (black_box(self.board).as_ptr(), self.board.len());
        let zeros = [0u32; 64];
        let (mut answer, mut parts) = ([0u64; 2], [0u64; 6]);
        let (t, s, r, a) = (buffers.times.as_mut_ptr(), buffers.scratch.as_mut_ptr(), buffers.records.as_mut_ptr(), answer.as_mut_ptr());
        // every pointer comes with the length of what it points to
        let code = unsafe {
            match self.call {
                Call::Checks => (library.overhead)(board, words, 0, 0, a),
                Call::WeighRefused => (library.weigh)(board, words, zeros.as_ptr(), 64, 0, a),
                Call::Weigh => (library.weigh)(board, words, zeros.as_ptr(), 64, 1, a),
                Call::Analyse => (library.analyse)(board, words, t, 64, s, 4352, r, 64 * RECORD, a),
                Call::InOrder(order) => (library.in_order)(board, words, t, 64, s, 4352, r, 64 * RECORD, order.as_ptr(), order.len(), a),
                Call::MakeUp(task) => (library.make_up)(board, words, t, 64, s, 4352, r, 64 * RECORD, task, parts.as_mut_ptr(), a),
            }
        };
        black_box((code, answer, parts));
    }
}

/// What is compared, and how: the old build and the new one, how often, and the text in the names of the lines.
struct Comparison {
    libraries: [Library; 2],
    rounds: usize,
    text: String,
}

/// The parts of the rounds, each of which gives a ratio.
const PARTS: usize = 5;

fn middle(mut numbers: Vec<f64>) -> f64 {
    numbers.sort_by(f64::total_cmp);
    numbers[numbers.len() / 2]
}

impl Comparison {
    /// The times of some jobs in one round, with each library. The one that comes first changes from round to round.
    fn times(&self, round: usize, jobs: &[Job], buffers: &mut Buffers) -> [Vec<f64>; 2] {
        let mut taken = [vec![], vec![]];
        for job in jobs {
            for which in [round % 2, 1 - round % 2] {
                job.make(&self.libraries[which], buffers);
                let start = now();
                job.make(&self.libraries[which], buffers);
                taken[which].push(now() - start);
            }
        }
        taken
    }

    /// A line: what `value` makes of the times of the jobs in a round.
    fn line(&self, what: &str, jobs: &[Job], value: impl Fn(&[f64]) -> f64) {
        if !what.contains(&self.text) {
            return;
        }
        let mut buffers = Buffers { times: [0; 64], scratch: [0; 4352], records: [0; 64 * RECORD] };
        let in_part = self.rounds.div_ceil(PARTS).max(1);
        let values: Vec<[f64; 2]> = (0..PARTS * in_part).map(|round| self.times(round, jobs, &mut buffers).map(|times| value(&times))).collect();
        let [old, new] = [0, 1].map(|which| middle(values.iter().map(|values| values[which]).collect()));
        let mut ratios: Vec<f64> = values.chunks(in_part).map(|part| middle(part.iter().map(|[old, new]| new / old).collect())).collect();
        ratios.sort_by(f64::total_cmp);
        let (least, middle, largest) = (ratios[0], ratios[PARTS / 2], ratios[PARTS - 1]);
        if old.min(new).min(least) <= 0.0 {
            println!("{what:54} too short to tell");
            return;
        }
        let verdict = if least > 1.02 { "   slower" } else if largest < 0.98 { "   faster" } else { "" };
        println!("{what:54} {old:10.2} us {new:10.2} us   ratio {middle:5.2} ({least:.2} to {largest:.2}){verdict}");
    }

    fn whole(&self, what: &str, board: &[u32], call: Call) {
        self.line(what, &[Job { board, call }], |times| times[0]);
    }

    /// One pass: two pass limits, both spent, the second with so many passes more.
    fn pass(&self, what: &str, board: &[u32], few: u32, many: u32, call: Call) {
        let [short, long] = [few, many].map(|limit| with_word(board, 12, limit));
        let jobs = [Job { board: &short, call }, Job { board: &long, call }];
        self.line(what, &jobs, |times| (times[1] - times[0]) / (many - few) as f64);
    }

    fn figures(&self, what: &str, board: &[u32]) {
        let jobs = [Job { board, call: Call::WeighRefused }, Job { board, call: Call::Weigh }];
        self.line(what, &jobs, |times| times[1] - times[0]);
    }
}

/// A pass by Analyse and one in order, of 64 tasks on 8 cores. That of a largest board, without a cache, is among its first six, which each of them needs.
fn passes(c: &Comparison, what: &str, bus: u32, climbing: &[u32], largest: &[u32]) {
    for (which, board, few, many) in [("many short times", climbing, 20, 60), ("largest board", largest, 2, 6)] {
        let order = orders::core_by_core(board, 64);
        c.pass(&format!("  {what}bus {bus}, {which}"), board, few, many, Call::Analyse);
        c.pass(&format!("  {what}bus {bus}, {which}, in order"), board, few, many, Call::InOrder(&order));
    }
}

fn main() {
    let arguments: Vec<String> = std::env::args().skip(1).collect();
    let (old, new, rounds, text) = match &arguments[..] {
        [old, new] => (old, new, 1_000, ""),
        [old, new, rounds] => (old, new, rounds.parse().expect("ROUNDS is a number"), ""),
        [old, new, rounds, text] => (old, new, rounds.parse().expect("ROUNDS is a number"), &text[..]),
        _ => panic!("usage: harness_compare OLD.so NEW.so [ROUNDS [TEXT]]"),
    };
    let c = &Comparison { libraries: [old, new].map(|path| Library::load(path)), rounds, text: text.to_string() };
    let eighth = |d: u32| d / 8;
    println!("one pass of 64 tasks on 8 cores");
    for bus in 0..5 {
        let climbing = climbing_board(64, 8, 20_000, bus, 1_000_000);
        passes(c, "", bus, &climbing, &largest_edge(77, 0, bus, 8, 0));
        passes(c, "put off, ", bus, &climbing_put_off(bus), &largest_edge_put_off(77, 0, bus, 8, MOST_PUT_OFF));
        passes(c, "jitter, ", bus, &with_jitter(&climbing, eighth), &largest_edge_with_jitter(77, 0, bus, 8, eighth));
    }
    println!("checks, and figures with the table of overheads, of 64 tasks");
    for memory in 0..3 {
        c.whole(&format!("  checks, memory {memory}"), &largest_edge(77, memory, 2, 8, 0), Call::Checks);
        c.figures(&format!("  figures on 8 cores, 8 traces each, memory {memory}"), &largest_edge(78, memory, 2, 8, 0));
    }
    for cores in [1, 8] {
        for turn in [20, 100, 200] {
            for ways in [1, 2, 4, 8] {
                let one = with_ways(&trace_heavy_board(5, 64, cores, 2, 0, turn), ways);
                c.figures(&format!("  figures on {cores} cores, turn {turn}, ways {ways}"), &one);
                c.figures(&format!("  figures on {cores} cores, turn {turn}, ways {ways}, two caches"), &with_data_sets(&one, one[13]));
            }
        }
    }
    println!("whole calls");
    for bus in 0..5 {
        for memory in 0..3 {
            let board = largest_edge(77, memory, bus, 8, 0);
            let order = orders::core_by_core(&board, 64);
            let calls = [("Analyse", Call::Analyse), ("in order", Call::InOrder(&order)), ("make up", Call::MakeUp(64))];
            for (what, call) in calls {
                c.whole(&format!("  {what}, bus {bus}, memory {memory}"), &board, call);
            }
        }
        c.whole(&format!("  Analyse, bus {bus}, memory 3"), &largest_edge_in_two_caches(77, bus, 8, 1), Call::Analyse);
    }
    c.whole("  Analyse, two tasks, long times", &long_times_board(10_000, 26_000), Call::Analyse);
}
