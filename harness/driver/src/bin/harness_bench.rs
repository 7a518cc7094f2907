//! harness_bench [ROUNDS [TEXT]]: the static library beside the reference, in one run: `plain with tests` (plain 64-bit arithmetic) and `fast` (tuned);
//! Analyse in order and how a time is made up also beside the library's own Analyse, and with refreshes put off or with jitter also beside the library with
//! none. With TEXT, only the lines that have it in their names.
//! Each line has the product's time, then each other's with the ratio; best of the rounds, taken in turn, buffers not cleared in between. A pass, and figures
//! with overheads, are differences of two runs: the middle one of all rounds, and where that is not well above its spread, that it is too short to tell.
use driver::boards::climbing_put_off;
use driver::library::{self, RECORD};
use driver::timing::{best, differences, Run, Time};
use driver::{orders, RULES};
use oracle::board::{check_board, MOST_PUT_OFF};
use oracle::generate::*;
use oracle::changes::MakeUp;
use oracle::literal::{Answer, Figure};
use oracle::{fast, plain};
use std::hint::black_box;

struct Buffers {
    times: Vec<u32>,
    scratch: Vec<u32>,
    records: Vec<u32>,
    table: Vec<Figure>,
}

impl Buffers {
    fn new() -> Buffers {
        Buffers { times: vec![0; 64], scratch: vec![0; 4352], records: vec![0; 64 * RECORD], table: vec![Figure::default(); 64] }
    }
    fn product(&mut self, w: &[u32]) -> library::Reply {
        library::analyse(black_box(w), &mut self.times, &mut self.scratch, &mut self.records)
    }
    fn plain(&mut self, w: &[u32]) -> Answer {
        plain::analyse_tested(black_box(w), &mut self.times, &mut self.scratch, &mut self.table, RULES)
    }
    fn fast(&mut self, w: &[u32]) -> Answer {
        fast::analyse(black_box(w), &mut self.times, &mut self.scratch, &mut self.table, RULES)
    }
    fn product_in_order(&mut self, w: &[u32], order: &[u32]) -> library::Reply {
        library::analyse_in_order(black_box(w), &mut self.times, &mut self.scratch, &mut self.records, order)
    }
    fn plain_in_order(&mut self, w: &[u32], order: &[u32]) -> Answer {
        plain::analyse_in_order_tested(black_box(w), &mut self.times, &mut self.scratch, &mut self.table, order, RULES)
    }
    fn fast_in_order(&mut self, w: &[u32], order: &[u32]) -> Answer {
        fast::analyse_in_order(black_box(w), &mut self.times, &mut self.scratch, &mut self.table, order, RULES)
    }
    fn product_make_up(&mut self, w: &[u32], task: usize) -> (library::Reply, library::Parts) {
        library::make_up(black_box(w), &mut self.times, &mut self.scratch, &mut self.records, task)
    }
    fn plain_make_up(&mut self, w: &[u32], task: usize) -> MakeUp {
        plain::make_up_tested(black_box(w), &mut self.times, &mut self.scratch, &mut self.table, task as u64, RULES)
    }
    fn fast_make_up(&mut self, w: &[u32], task: usize) -> MakeUp {
        fast::make_up(black_box(w), &mut self.times, &mut self.scratch, &mut self.table, task as u64, RULES)
    }
}

/// A call with buffers of its own; the compiler must not leave out what it gives.
fn run<'a, A>(mut call: impl FnMut(&mut Buffers) -> A + 'a) -> Run<'a> {
    let mut buffers = Buffers::new();
    Box::new(move || {
        black_box(call(&mut buffers));
    })
}

/// Whole Analyse: the product, `plain with tests`, `fast`.
fn analyses(w: &[u32]) -> Vec<Run<'_>> {
    vec![run(move |b| b.product(w)), run(move |b| b.plain(w)), run(move |b| b.fast(w))]
}

/// Whole Analyse in order: the product, its own Analyse, `plain with tests` and `fast` in that order.
fn analyses_in_order<'a>(w: &'a [u32], order: &[u32]) -> Vec<Run<'a>> {
    let [x, y, z] = [(); 3].map(|_| order.to_vec());
    vec![
        run(move |b| b.product_in_order(w, &x)),
        run(move |b| b.product(w)),
        run(move |b| b.plain_in_order(w, &y)),
        run(move |b| b.fast_in_order(w, &z)),
    ]
}

/// How a task's time is made up, the whole call: the product, its own Analyse, `plain with tests` and `fast`.
fn makings_up(w: &[u32], task: usize) -> Vec<Run<'_>> {
    vec![
        run(move |b| b.product_make_up(w, task)),
        run(move |b| b.product(w)),
        run(move |b| b.plain_make_up(w, task)),
        run(move |b| b.fast_make_up(w, task)),
    ]
}

/// Whole Analyse: the product, the product on a plainer board, `plain with tests`, `fast`.
fn analyses_beside(w: &[u32], plainer: Vec<u32>) -> Vec<Run<'_>> {
    vec![run(move |b| b.product(w)), run(move |b| b.product(&plainer)), run(move |b| b.plain(w)), run(move |b| b.fast(w))]
}

/// The same board with this pass limit.
fn limited(w: &[u32], limit: u32) -> Vec<u32> {
    with_word(w, 12, limit)
}

/// Times of one pass: the differences of two runs with different limits, all spent. The less comes before the passes the better they are told: of the largest
/// boards, those without caches.
fn per_pass(rounds: usize, w: &[u32], few: u32, many: u32, runs: impl Fn(&[u32]) -> Vec<Run<'_>>) -> Vec<Time> {
    let (short, long) = (limited(w, few), limited(w, many));
    differences(rounds, runs(&short), runs(&long)).into_iter().map(|time| Some(time? / (many - few) as f64)).collect()
}

/// The passes of an answer on a board; of a spent one, its limit.
fn passes_of(answer: Answer, w: &[u32]) -> u64 {
    match answer {
        Answer::Times { passes } | Answer::Late { passes, .. } => passes,
        _ => w[12] as u64,
    }
}

fn passes(w: &[u32]) -> u64 {
    passes_of(Buffers::new().fast(w), w)
}

fn passes_in_order(w: &[u32], order: &[u32]) -> u64 {
    passes_of(Buffers::new().fast_in_order(w, order), w)
}

/// What is asked for: how long a line is measured, and the text in the names of the lines.
struct Bench {
    rounds: usize,
    text: String,
}

fn shown(time: Time, unit: &str) -> String {
    time.map_or("too short to tell".to_string(), |time| format!("{time:.2}{unit}"))
}

fn line(bench: &Bench, what: &str, measure: impl FnOnce(usize) -> Vec<Time>) {
    if !what.contains(&bench.text) {
        return;
    }
    let times = measure(bench.rounds);
    print!("{what:54} {:>17}", shown(times[0], " us"));
    for &other in &times[1..] {
        let ratio = times[0].zip(other).map(|(product, other)| format!("ratio {:5.2}", product / other));
        print!(" {:>17}   {:11}", shown(other, " us"), ratio.unwrap_or_default());
    }
    println!();
}

/// The product's times of three sizes.
fn growth(bench: &Bench, what: &str, measure: impl FnOnce(usize) -> [Time; 3]) {
    if what.contains(&bench.text) {
        println!("{what}: {}", measure(bench.rounds).map(|time| shown(time, "")).join(" "));
    }
}

fn whole(bench: &Bench, what: &str, w: &[u32]) {
    line(bench, &format!("{what}, {} passes", passes(w)), |rounds| best(rounds, analyses(w)));
}

/// The checks alone: with a task number out of range Overhead makes them and stops.
fn checks(bench: &Bench, what: &str, w: &[u32]) {
    let runs = vec![run(|_| library::overhead(black_box(w), 0, 0)), run(|_| check_board(black_box(w), RULES).is_ok())];
    line(bench, what, |rounds| best(rounds, runs));
}

/// The figures of all tasks and the overheads of all pairs: Weigh makes them all for the sum of one task, at times 0. The checks are taken off.
fn prepare(bench: &Bench, what: &str, w: &[u32]) {
    let zeros = [0u32; 64];
    let checks = vec![run(|_| library::weigh(black_box(w), &zeros, 0)), run(|_| check_board(black_box(w), RULES).is_ok())];
    let all = vec![
        run(|_| library::weigh(black_box(w), &zeros, 1)),
        run(|b| fast::prepare_only(&check_board(black_box(w), RULES).unwrap(), &mut b.table)),
    ];
    line(bench, what, |rounds| differences(rounds, checks, all));
}

/// A whole Analyse of the product alone.
fn alone(rounds: usize, w: &[u32]) -> Time {
    best(rounds, vec![run(|b| b.product(w))])[0]
}

/// The boards of memory 2 on which figures and overheads are timed, with one way.
fn figure_boards(cores: u32) -> Vec<(String, Vec<u32>)> {
    let mut boards = vec![("8 traces each".to_string(), largest_edge(78, 2, 2, cores, 0))];
    for turn in [20, 100, 200] {
        boards.push((format!("one trace each, turn {turn}"), trace_heavy_board(5, 64, cores, 2, 0, turn)));
    }
    // 16 sets for some 150 blocks of a trace: every set is full
    let mut full = trace_heavy_board(5, 64, cores, 2, 0, 100);
    full[13] = 16;
    boards.push(("one trace each, full sets".to_string(), full));
    boards
}

/// Figures and overheads of these boards with every number of ways, in caches that `place` makes of the one.
fn figures_in_ways(bench: &Bench, place: impl Fn(&[u32]) -> Vec<u32>) {
    for cores in [1, 8] {
        for (what, w) in figure_boards(cores) {
            for ways in [1, 2, 4, 8] {
                prepare(bench, &format!("  on {cores} cores, {what}, ways {ways}"), &with_ways(&place(&w), ways));
            }
        }
    }
}

/// The same in caches of several ways, with the whole Analyse.
fn several_ways(bench: &Bench) {
    println!("figures and the table of overheads of 64 tasks, caches of several ways: the product, `fast`");
    figures_in_ways(bench, |w| w.to_vec());
    println!("whole Analyse, caches of several ways: the product, `plain with tests`, `fast`");
    for ways in [1, 2, 4, 8] {
        whole(bench, &format!("  largest, bus 2, ways {ways}"), &largest_edge_in_ways(77, 2, 8, ways));
    }
}

/// The same traces in two caches, that of the data with as many sets as that of the code, with the checks and the whole Analyse.
fn two_caches(bench: &Bench) {
    println!("checks, two caches: the product, the reference");
    let w = largest_edge_in_two_caches(77, 2, 8, 1);
    checks(bench, &format!("  {} words, memory 3", w.len()), &w);
    println!("figures and the table of overheads of 64 tasks, two caches: the product, `fast`");
    figures_in_ways(bench, |w| with_data_sets(w, w[13]));
    println!("whole Analyse, two caches: the product, `plain with tests`, `fast`");
    for bus in 0..5 {
        whole(bench, &format!("  largest, bus {bus}, memory 3, ways 1"), &largest_edge_in_two_caches(77, bus, 8, 1));
    }
    for ways in [2, 4, 8] {
        whole(bench, &format!("  largest, bus 2, memory 3, ways {ways}"), &largest_edge_in_two_caches(77, 2, 8, ways));
    }
}

/// Passes on boards with something, for each bus one that climbs and a largest one of some memory, one pass and all, beside the product's own with none, which
/// `without` takes away, and beside the reference.
fn beside_none(bench: &Bench, what: &str, boards: impl Fn(u32, u32) -> [Vec<u32>; 2], without: impl Fn(&[u32]) -> Vec<u32>) {
    println!("{what}, one pass of 64 tasks on 8 cores: the product, itself with none, `plain with tests`, `fast`");
    for bus in 0..5 {
        let [climbing, largest] = boards(bus, 0);
        line(bench, &format!("  bus {bus}, many short times"), |rounds| per_pass(rounds, &climbing, 500, 2_500, |w| analyses_beside(w, without(w))));
        let least = passes(&largest).min(passes(&without(&largest)));
        let most = least.saturating_sub(1).max(4) as u32;
        line(bench, &format!("  bus {bus}, largest board"), |rounds| per_pass(rounds, &largest, 2, most, |w| analyses_beside(w, without(w))));
    }
    println!("{what}, whole Analyse (passes; with none): the same four");
    for bus in 0..5 {
        let [_, w] = boards(bus, 2);
        let none = without(&w);
        let what = format!("  largest, bus {bus}, memory 2, passes {}; {}", passes(&w), passes(&none));
        line(bench, &what, |rounds| best(rounds, analyses_beside(&w, none)));
    }
}

fn put_off(bench: &Bench) {
    let boards = |bus: u32, memory: u32| [climbing_put_off(bus), largest_edge_put_off(77, memory, bus, 8, MOST_PUT_OFF)];
    beside_none(bench, "eight refreshes put off", boards, |w| with_put_off(w, 0));
}

/// Of the boards that climb, tasks with a deadline below 8 have no jitter; the largest ones have times.
fn jitter(bench: &Bench) {
    let eighth = |d: u32| d / 8;
    let climbing = |bus: u32| with_jitter(&climbing_board(64, 8, 20_000, bus, 1_000_000), eighth);
    let boards = |bus: u32, memory: u32| [climbing(bus), largest_edge_with_jitter(77, memory, bus, 8, eighth)];
    beside_none(bench, "jitter of an eighth of each deadline", boards, |w| with_jitter(w, |_| 0));
}

/// Passes in order, one and all, beside the product's own Analyse and beside the reference.
fn in_order(bench: &Bench) {
    println!("passes in order, one pass of 64 tasks on 8 cores core by core: the product, its Analyse, `plain with tests`, `fast`");
    for bus in 0..5 {
        let w = climbing_board(64, 8, 20_000, bus, 1_000_000);
        let order = orders::core_by_core(&w, 64);
        line(bench, &format!("  bus {bus}, many short times"), |rounds| per_pass(rounds, &w, 500, 2_500, |w| analyses_in_order(w, &order)));
        let w = largest_edge(77, 0, bus, 8, 0);
        let order = orders::core_by_core(&w, 64);
        let most = passes_in_order(&w, &order).saturating_sub(1).max(4) as u32;
        line(bench, &format!("  bus {bus}, largest board"), |rounds| per_pass(rounds, &w, 2, most, |w| analyses_in_order(w, &order)));
    }
    println!("passes in order, whole Analyse core by core (passes of Analyse; core by core, ascending, descending): the same four");
    for bus in 0..5 {
        for memory in 0..3 {
            let w = largest_edge(77, memory, bus, 8, 0);
            let order = orders::core_by_core(&w, 64);
            let [cores, up, down] = [&order, &orders::ascending(64), &orders::descending(64)].map(|order| passes_in_order(&w, order));
            let what = format!("  largest, bus {bus}, memory {memory}, passes {}; {cores}, {up}, {down}", passes(&w));
            line(bench, &what, |rounds| best(rounds, analyses_in_order(&w, &order)));
        }
    }
}

/// How the times of the first and of the last task are made up, beside the product's own Analyse and beside the reference.
fn made_up(bench: &Bench) {
    println!("how a time is made up, whole call: the product, its Analyse, `plain with tests`, `fast`");
    for bus in 0..5 {
        for memory in 0..3 {
            let w = largest_edge(77, memory, bus, 8, 0);
            for task in [1, 64] {
                let what = format!("  largest, bus {bus}, memory {memory}, task {task}, passes {}", passes(&w));
                line(bench, &what, |rounds| best(rounds, makings_up(&w, task)));
            }
        }
    }
}

fn main() {
    let mut arguments = std::env::args().skip(1);
    let rounds: usize = match arguments.next().map(|s| s.parse()) {
        None => 31,
        Some(Ok(k)) if k > 0 => k,
        _ => {
            eprintln!("usage: harness_bench [ROUNDS [TEXT]], a number above 0 and a part of the names of lines");
            std::process::exit(2)
        }
    };
    let bench = &Bench { rounds, text: arguments.next().unwrap_or_default() };
    println!("checks: the product, the reference");
    for memory in 0..3 {
        let w = largest_edge(77, memory, 2, 8, 0);
        checks(bench, &format!("  {} words, memory {memory}", w.len()), &w);
    }
    println!("figures and the table of overheads: the product, `fast`");
    for (n, cores) in [(64, 1), (64, 8)] {
        for memory in 0..3 {
            prepare(bench, &format!("  {n} tasks on {cores} cores, 8 traces each, memory {memory}"), &largest_edge(78, memory, 2, cores, 0));
        }
        for turn in [20, 100, 200] {
            prepare(bench, &format!("  {n} tasks on {cores} cores, one trace each, turn {turn}"), &trace_heavy_board(5, n, cores, 2, 0, turn));
        }
    }
    println!("one pass of 64 tasks on 8 cores: the product, `plain with tests`, `fast`");
    for bus in 0..5 {
        let w = climbing_board(64, 8, 20_000, bus, 1_000_000);
        line(bench, &format!("  bus {bus}, many short times"), |rounds| per_pass(rounds, &w, 500, 2_500, analyses));
        let w = largest_edge(77, 0, bus, 8, 0);
        let most = passes(&w).saturating_sub(1).max(4) as u32;
        line(bench, &format!("  bus {bus}, largest board"), |rounds| per_pass(rounds, &w, 2, most, analyses));
    }
    println!("whole Analyse: the product, `plain with tests`, `fast`");
    for bus in 0..5 {
        for memory in 0..3 {
            whole(bench, &format!("  largest, bus {bus}, memory {memory}"), &largest_edge(77, memory, bus, 8, 0));
        }
    }
    whole(bench, "  two tasks, long times", &long_times_board(10_000, 26_000));
    whole(bench, "  64 tasks on 8 cores, climbing", &climbing_board(64, 8, 20_000, 2, 1_000_000));
    println!("growth of the product (microseconds): twice the tasks, twice the instructions, twice the passes");
    growth(bench, "  a pass at n = 16, 32, 64", |rounds| {
        [16, 32, 64].map(|n| per_pass(rounds, &climbing_board(n, 8, 20_000, 2, 1_000_000), 500, 2_500, analyses)[0])
    });
    growth(bench, "  figures and overheads at g = 2,048, 4,096, 8,144", |rounds| {
        [2, 4, 8].map(|n| alone(rounds, &limited(&trace_heavy_board(5, n, 1, 2, 0, 100), 1)))
    });
    growth(bench, "  whole Analyse of 5,000, 10,000, 20,000 passes", |rounds| {
        [5_000, 10_000, 20_000].map(|k| alone(rounds, &limited(&climbing_board(64, 8, 100_000, 2, 1_000_000), k)))
    });
    in_order(bench);
    several_ways(bench);
    put_off(bench);
    two_caches(bench);
    made_up(bench);
    jitter(bench);
}
