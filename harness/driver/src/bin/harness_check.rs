//! harness_check TIMES MAKEUP [SEED [BOARDS]]: the static library and the programs `times` and `makeup`, by their paths, against the reference.
//! All six calls on random, extreme and damaged boards, every lent buffer before and after, guard words around each; Analyse in
//! order and how times are made up beside the library's own Analyse; the programs on the same boards, `makeup` with drawn arguments,
//! and on every prefix of good inputs. Ends with the number of differences, and status 1 if there are any.
use driver::boards::*;
use driver::library::{self, Parts, Reply, LATE, RECORD, REFUSED, SPENT, VALUE};
use driver::{arguments, orders, RULES};
use oracle::board::{check_board, Refusal, MOST_PUT_OFF};
use oracle::damage::damaged;
use oracle::generate::*;
use oracle::literal::{self, Answer, Figure, Model, Nat};
use oracle::changes::{self, MakeUp};
use oracle::{fast, page};
use std::collections::BTreeMap;
use std::ffi::OsStr;
use std::fmt::{Debug, Display};
use std::io::Write;
use std::os::unix::ffi::OsStrExt;
use std::process::{Command, Stdio};

const GUARD: usize = 16;

/// A buffer with guard words around it.
struct Lent {
    all: Vec<u32>,
    len: usize,
}

impl Lent {
    /// All of it random.
    fn new(r: &mut Rng, len: usize) -> Lent {
        Lent { all: (0..len + 2 * GUARD).map(|_| r.next() as u32).collect(), len }
    }
    /// The same, with a length that mostly is enough.
    fn about(r: &mut Rng, need: usize) -> Lent {
        let len = length(r, need);
        Lent::new(r, len)
    }
    /// These words within random ones.
    fn of(r: &mut Rng, words: &[u32]) -> Lent {
        let mut lent = Lent::new(r, words.len());
        lent.part().copy_from_slice(words);
        lent
    }
    fn part(&mut self) -> &mut [u32] {
        &mut self.all[GUARD..GUARD + self.len]
    }
    fn words(&self) -> &[u32] {
        &self.all[GUARD..GUARD + self.len]
    }
    /// The whole buffer, guards too, as it should be where the first words are these.
    fn with(&self, first: &[u32]) -> Vec<u32> {
        let mut v = self.all.clone();
        v[GUARD..GUARD + first.len()].copy_from_slice(first);
        v
    }
}

#[derive(Default)]
struct Tally {
    boards: usize,
    calls: usize,
    pages: usize,
    differences: usize,
    /// How often each call has had each kind of answer.
    answers: BTreeMap<&'static str, BTreeMap<String, usize>>,
    /// How often each reason was given.
    reasons: BTreeMap<u64, usize>,
    /// Boards on which Analyse and an order have an answer with passes, and those of them on which the order needs fewer.
    settled_twice: usize,
    fewer_passes: usize,
    /// Boards with a cache that are not refused, by their word 15; and those with two caches, with those of them that have another answer or other
    /// times than in one cache, the code's.
    ways: BTreeMap<u32, usize>,
    two_caches: BTreeMap<u32, [usize; 2]>,
    /// Boards with distributed refresh that are not refused, by their word 16, and those of them with another answer or other times than with 0.
    put_off: BTreeMap<u32, [usize; 2]>,
    /// Boards with some jitter that are not refused, and those of them with another answer or other times than with none.
    jitter: [usize; 2],
}

impl Tally {
    fn same<T: PartialEq + Debug>(&mut self, what: impl Display, board: &[u32], found: T, wanted: T) {
        if found != wanted {
            self.differences += 1;
            if self.differences <= 5 {
                println!("\n{what} differs: found {found:?}, wanted {wanted:?}\nboard {board:?}");
            }
        }
    }

    /// Counts a board that is not refused by its ways, by the refreshes that it puts off, and where it has jitter.
    fn count(&mut self, w: &[u32]) {
        let Ok(b) = check_board(w, RULES) else { return };
        match b.memory() {
            2 => *self.ways.entry(w[15]).or_default() += 1,
            3 => count_beside(self.two_caches.entry(w[15]).or_default(), w, &with_one_cache(w)),
            _ => {}
        }
        if b.refresh() == 2 {
            count_beside(self.put_off.entry(w[16]).or_default(), w, &with_put_off(w, 0));
        }
        if (1..=b.n()).any(|i| b.jitter(i) > 0) {
            count_beside(&mut self.jitter, w, &with_jitter(w, |_| 0));
        }
    }
}

/// Counts a board, and whether it has another answer or other times than the plainer one.
fn count_beside([boards, changed]: &mut [usize; 2], w: &[u32], plainer: &[u32]) {
    *boards += 1;
    *changed += (of_fast(w) != of_fast(plainer)) as usize;
}

/// What `fast` answers with room for 64 tasks, and the times that it leaves.
fn of_fast(w: &[u32]) -> (Answer, Vec<u32>) {
    let mut times = vec![0; 64];
    let answer = fast::analyse(w, &mut times, &mut vec![0; 4352], &mut vec![Figure::default(); 64], RULES);
    (answer, times)
}

fn refused(e: Refusal) -> Reply {
    Reply::new(REFUSED, [e.no as u64, e.place])
}

fn valued(v: Result<u64, Refusal>) -> Reply {
    match v {
        Ok(x) => Reply::new(VALUE, [x, 0]),
        Err(e) => refused(e),
    }
}

fn answered(a: Answer) -> Reply {
    match a {
        Answer::Times { passes } => Reply::new(VALUE, [passes, 0]),
        Answer::Late { task, passes } => Reply::new(LATE, [task as u64, passes]),
        Answer::Spent => Reply::new(SPENT, [0, 0]),
        Answer::Refused(e) => refused(e),
    }
}

fn kind(a: Answer) -> String {
    match a {
        Answer::Times { .. } => "ok".to_string(),
        Answer::Late { .. } => "late".to_string(),
        Answer::Spent => "spent".to_string(),
        Answer::Refused(e) => format!("bad {}", e.no),
    }
}

/// The reply and the six numbers that a call should give, which are as they were where it has none, and the kind of its answer.
struct Wanted {
    given: (Reply, Parts),
    kind: String,
}

impl From<Answer> for Wanted {
    fn from(a: Answer) -> Wanted {
        Wanted { given: (answered(a), Parts::untouched()), kind: kind(a) }
    }
}

impl From<MakeUp> for Wanted {
    fn from(m: MakeUp) -> Wanted {
        match m {
            MakeUp::Parts { parts, reason } => {
                Wanted { given: (Reply::new(VALUE, [reason as u64, 0]), Parts::new(parts)), kind: "ok".to_string() }
            }
            MakeUp::Spent => Answer::Spent.into(),
            MakeUp::Refused(e) => Answer::Refused(e).into(),
        }
    }
}

fn record(f: &Figure) -> Vec<u32> {
    let mut v = vec![f.core, f.period, f.deadline, f.pd, f.md];
    for w in f.ecb.into_iter().chain(f.ecb_data) {
        v.extend([w as u32, (w >> 32) as u32]);
    }
    v
}

/// A length for a buffer that needs `need` words: mostly enough, at times one short or none.
fn length(r: &mut Rng, need: usize) -> usize {
    match r.range(0, 19) {
        0 => need.saturating_sub(1),
        1 => r.range(0, need as u32) as usize,
        2..=9 => need,
        _ => need + r.range(0, 40) as usize,
    }
}

/// Records for some tasks, mostly n or more, with words to spare.
fn some_records(r: &mut Rng, n: usize) -> Lent {
    let words = length(r, n) * RECORD + r.range(0, RECORD as u32 - 1) as usize;
    Lent::new(r, words)
}

/// Small enough for the reference that follows the text word for word.
fn small(w: &[u32]) -> bool {
    w.len() < 900
}

/// The three calls that settle a board's times.
#[derive(Clone, Copy, Debug)]
enum Settling<'a> {
    Analyse,
    AnalyseInOrder(&'a [u32]),
    MakeUp(usize),
}

impl Settling<'_> {
    fn name(self) -> &'static str {
        match self {
            Settling::Analyse => "analyse",
            Settling::AnalyseInOrder(_) => "analyse in order",
            Settling::MakeUp(_) => "make up",
        }
    }
    fn of_reference(self, w: &[u32], times: &mut [u32], scratch: &mut [u32], table: &mut [Figure]) -> Wanted {
        let literally = small(w) && w.get(12).is_some_and(|&limit| limit < 3000);
        match self {
            Settling::Analyse if literally => literal::analyse(w, times, scratch, table, RULES).into(),
            Settling::Analyse => fast::analyse(w, times, scratch, table, RULES).into(),
            Settling::AnalyseInOrder(list) if literally => changes::analyse_in_order(w, times, scratch, table, list, RULES).into(),
            Settling::AnalyseInOrder(list) => fast::analyse_in_order(w, times, scratch, table, list, RULES).into(),
            Settling::MakeUp(task) if literally => changes::make_up(w, times, scratch, table, task as u64, RULES).into(),
            Settling::MakeUp(task) => fast::make_up(w, times, scratch, table, task as u64, RULES).into(),
        }
    }
    fn of_product(self, w: &[u32], times: &mut [u32], scratch: &mut [u32], records: &mut [u32]) -> (Reply, Parts) {
        match self {
            Settling::Analyse => (library::analyse(w, times, scratch, records), Parts::untouched()),
            Settling::AnalyseInOrder(list) => (library::analyse_in_order(w, times, scratch, records, list), Parts::untouched()),
            Settling::MakeUp(task) => library::make_up(w, times, scratch, records, task),
        }
    }
}

/// A call with buffers that are drawn: its answer, and every word of what it is lent.
fn try_settling(t: &mut Tally, r: &mut Rng, w: &[u32], n: usize, call: Settling) {
    let mut times = Lent::about(r, n);
    let mut scratch = Lent::about(r, n * n + 4 * n);
    let mut records = some_records(r, n);
    let mut table = vec![Figure::default(); records.len / RECORD];
    let mut settled = times.words().to_vec();
    let Wanted { given: wanted, kind } = call.of_reference(w, &mut settled, &mut vec![0; scratch.len], &mut table);
    let told = wanted.0.code == REFUSED;
    let filled: Vec<u32> = if told { vec![] } else { table[..n].iter().flat_map(record).collect() };
    let (times_after, records_after, scratch_before) = (times.with(&settled), records.with(&filled), scratch.all.clone());
    let found = call.of_product(w, times.part(), scratch.part(), records.part());
    t.calls += 1;
    *t.answers.entry(call.name()).or_default().entry(kind).or_default() += 1;
    t.same(format_args!("{call:?}"), w, found, wanted);
    t.same(format_args!("times after {call:?}"), w, &times.all, &times_after);
    t.same(format_args!("records after {call:?}"), w, &records.all, &records_after);
    if told {
        t.same(format_args!("scratch after a refusal of {call:?}"), w, &scratch.all, &scratch_before);
    } else {
        let end = GUARD + scratch.len;
        let (found, wanted) = ((&scratch.all[..GUARD], &scratch.all[end..]), (&scratch_before[..GUARD], &scratch_before[end..]));
        t.same(format_args!("words around the scratch of {call:?}"), w, found, wanted);
    }
}

/// Analyse in the order of a list, which stays as it was.
fn try_in_order(t: &mut Tally, r: &mut Rng, w: &[u32], n: usize, list: &[u32]) {
    let order = Lent::of(r, list);
    let before = order.all.clone();
    try_settling(t, r, w, n, Settling::AnalyseInOrder(order.words()));
    t.same(format_args!("the list after analyse in order {list:?}"), w, &order.all, &before);
}

/// How the times of some tasks are made up, and of tasks that there are not.
fn try_make_up(t: &mut Tally, r: &mut Rng, w: &[u32], n: usize) {
    for i in [task(r, n), task(r, n), r.pick(&[0, n + 1, usize::MAX])] {
        try_settling(t, r, w, n, Settling::MakeUp(i));
    }
}

/// What the library gives with room for 64 tasks, and the times that it leaves.
fn with_room(call: Settling, w: &[u32]) -> ((Reply, Parts), Vec<u32>) {
    let mut times = vec![0; 64];
    let given = call.of_product(w, &mut times, &mut vec![0; 4352], &mut vec![0; 64 * RECORD]);
    (given, times)
}

/// A reply with 0 for its passes, and these; spent and refused have none.
fn passes_apart(reply: Reply) -> (Reply, Option<u64>) {
    let [first, second] = reply.answer;
    match reply.code {
        VALUE => (Reply { answer: [0, second], ..reply }, Some(first)),
        LATE => (Reply { answer: [first, 0], ..reply }, Some(second)),
        _ => (reply, None),
    }
}

/// An order of the tasks beside the library's own Analyse: unless this is spent, the answers are the same but for the passes, of which
/// the order needs no more, and so are the times.
fn try_beside_analyse(t: &mut Tally, w: &[u32], order: &[u32]) {
    let ((analysed, _), times) = with_room(Settling::Analyse, w);
    let ((in_order, _), times_in_order) = with_room(Settling::AnalyseInOrder(order), w);
    t.calls += 2;
    if analysed.code == SPENT {
        return;
    }
    let (wanted, most) = passes_apart(analysed);
    let (found, passes) = passes_apart(in_order);
    t.same(format_args!("the answer in order {order:?} beside analyse"), w, (found, times_in_order), (wanted, times));
    t.same(format_args!("the most passes, in order {order:?} or of analyse,"), w, passes.max(most), most);
    t.settled_twice += (passes.is_some() && most.is_some()) as usize;
    t.fewer_passes += (passes.is_some() && passes < most) as usize;
}

/// How the time of the late task, or of any, is made up, beside the library's own Analyse: it is spent or refused where that is, and leaves the same times;
/// the six numbers add up to the task's time, or, where it is late, to more than its largest time that is not.
fn try_make_up_beside_analyse(t: &mut Tally, r: &mut Rng, w: &[u32], n: usize) {
    let ((analysed, _), times) = with_room(Settling::Analyse, w);
    let late = analysed.code == LATE;
    let task = if late { analysed.answer[0] as usize } else { r.range(1, n.max(1) as u32) as usize };
    let ((reply, parts), left) = with_room(Settling::MakeUp(task), w);
    t.calls += 2;
    t.same("the code of make up, and the times that it leaves, beside analyse", w, (reply.code, left), (if late { VALUE } else { analysed.code }, times.clone()));
    let sum: u128 = parts.numbers.iter().map(|&x| x as u128).sum();
    match analysed.code {
        VALUE => t.same(format_args!("the sum of the six numbers of task {task}"), w, sum, times[task - 1] as u128),
        LATE => t.same(format_args!("that the six numbers of late task {task} exceed D - J"), w, sum > largest_time(w, task - 1) as u128, true),
        _ => t.same("the answer of make up beside analyse", w, reply, analysed),
    }
    if reply.code == VALUE {
        *t.reasons.entry(reply.answer[0]).or_default() += 1;
    }
}

/// D - J of task k, from 0: its largest time that is not late. A damaged board may not have these words, or a J above D.
fn largest_time(w: &[u32], k: usize) -> u32 {
    let word = |at: usize| w.get(at + 5 * k).copied().unwrap_or(0);
    word(22).saturating_sub(word(24))
}

fn try_figures(t: &mut Tally, r: &mut Rng, w: &[u32], n: usize) {
    let mut records = some_records(r, n);
    let mut table = vec![Figure::default(); records.len / RECORD];
    let wanted = literal::figures(w, &mut table, RULES);
    let filled: Vec<u32> = if wanted.is_err() { vec![] } else { table[..n].iter().flat_map(record).collect() };
    let after = records.with(&filled);
    let found = library::figures(w, records.part());
    t.calls += 1;
    t.same("figures", w, found, valued(wanted.map(|_| n as u64)));
    t.same("records after figures", w, &records.all, &after);
}

/// A task number: mostly one of the board's, at times 0, n + 1 or the largest.
fn task(r: &mut Rng, n: usize) -> usize {
    match r.range(0, 24) {
        0 => r.pick(&[0, n + 1, usize::MAX, u32::MAX as usize + 1]),
        _ => r.range(1, n.max(1) as u32) as usize,
    }
}

fn try_overhead_and_weigh(t: &mut Tally, r: &mut Rng, w: &[u32], n: usize) {
    let checked = check_board(w, RULES).ok();
    let model = checked.filter(|_| small(w)).map(Model::new);
    let inside = |k: usize| 1 <= k && k <= n;
    for _ in 0..6 {
        let (i, j) = (task(r, n), task(r, n));
        let wanted = match &model {
            Some(m) if inside(i) && inside(j) => Ok(m.gamma(i, j) as u64),
            _ => literal::overhead(w, i as u64, j as u64, RULES),
        };
        t.calls += 1;
        t.same("overhead", w, library::overhead(w, i, j), valued(wanted));
        if !small(w) && model.is_none() && wanted.is_ok() {
            break;
        }
    }
    for _ in 0..4 {
        let i = task(r, n);
        let caps: Vec<u32> = (0..n).map(|k| largest_time(w, k).saturating_add(1)).collect();
        let mut times: Vec<u32> = caps.iter().map(|&c| if r.chance(15) { c } else { r.range(0, c) }).collect();
        match r.range(0, 15) {
            0 => {
                times.pop();
            }
            1 if n > 0 => {
                let at = r.range(0, n as u32 - 1) as usize;
                times[at] = caps[at].saturating_add(1);
            }
            2 => times.push(u32::MAX),
            _ => {}
        }
        let sound = inside(i) && times.len() >= n && (0..n).all(|k| times[k] <= caps[k]);
        let wanted = match (&model, &checked) {
            (Some(m), _) if sound => Ok(m.sum(&times.iter().map(|&x| x as Nat).collect::<Vec<_>>(), i) as u64),
            (None, Some(b)) if sound => Ok(fast::weigh(b, &times, i)),
            _ => literal::weigh(w, &times, i as u64, RULES),
        };
        t.calls += 1;
        t.same("weigh", w, library::weigh(w, &times, i), valued(wanted));
    }
}

/// The paths of the two programs.
struct Programs {
    times: String,
    makeup: String,
}

fn run_program(program: &str, arguments: &[Vec<u8>], input: &[u8]) -> String {
    let mut command = Command::new(program);
    command.args(arguments.iter().map(|a| OsStr::from_bytes(a)));
    let mut child = command.stdin(Stdio::piped()).stdout(Stdio::piped()).spawn().expect("the program does not start");
    // the program reads at most 65,537 bytes, so the rest may find a closed pipe
    let _ = child.stdin.take().unwrap().write_all(input);
    String::from_utf8_lossy(&child.wait_with_output().unwrap().stdout).into_owned()
}

/// The pages of an input: that of `times`, and that of `makeup` with arguments that are drawn for a board of n tasks.
fn try_pages(t: &mut Tally, r: &mut Rng, programs: &Programs, input: &[u8], n: usize) {
    let board = words_of(input).unwrap_or_default();
    let wanted = page::page_with(input, &mut |w, a, b, c| fast::analyse(w, a, b, c, RULES));
    t.same("page", &board, run_program(&programs.times, &[], input), wanted);
    let given = arguments::any(r, n);
    let argument = given.first().map_or(&[][..], |a| a.as_slice());
    let wanted = page::make_up_page_with(input, argument, &mut |w, a, b, c, i| fast::make_up(w, a, b, c, i, RULES));
    t.same(format_args!("page of makeup {given:?}"), &board, run_program(&programs.makeup, &given, input), wanted);
    t.pages += 2;
}

fn try_board(t: &mut Tally, r: &mut Rng, programs: &Programs, w: &[u32]) {
    t.boards += 1;
    t.count(w);
    // the number of tasks that lengths and task numbers go by; a damaged board may claim any
    let n = w.get(1).copied().unwrap_or(0).min(64) as usize;
    try_settling(t, r, w, n, Settling::Analyse);
    let right = orders::right(r, w, n);
    try_in_order(t, r, w, n, &right);
    try_beside_analyse(t, w, &right);
    let any = orders::any(r, w, n);
    try_in_order(t, r, w, n, &any);
    try_make_up(t, r, w, n);
    try_make_up_beside_analyse(t, r, w, n);
    try_figures(t, r, w, n);
    try_overhead_and_weigh(t, r, w, n);
    try_pages(t, r, programs, &bytes_of(w), n);
}

/// What was counted.
fn report(t: &Tally) {
    for (call, answers) in &t.answers {
        println!("answers of {call}: {answers:?}");
    }
    println!("reasons of make up, of the late task or of any one: {:?}", t.reasons);
    println!("boards with one cache that are not refused, by word 15: {:?}", t.ways);
    println!("boards with two that are not refused, by word 15, and those with another answer or other times than in one: {:?}", t.two_caches);
    println!("boards with distributed refresh that are not refused, by word 16, and those with another answer or other times than with 0: {:?}", t.put_off);
    println!("boards with jitter that are not refused, and those with another answer or other times than with none: {:?}", t.jitter);
    println!("in order beside analyse: {} boards not spent, {} of them with fewer passes", t.settled_twice, t.fewer_passes);
    println!("{} boards, {} calls, {} pages, {} differences", t.boards, t.calls, t.pages, t.differences);
}

fn main() {
    let a: Vec<String> = std::env::args().collect();
    let number = |k: usize, otherwise: u64| match a.get(k) {
        None => otherwise,
        Some(s) => s.parse().unwrap_or_else(|_| {
            eprintln!("harness_check: {s} is not a number");
            std::process::exit(2)
        }),
    };
    let (Some(times), Some(makeup)) = (a.get(1).cloned(), a.get(2).cloned()) else {
        eprintln!("usage: harness_check TIMES MAKEUP [SEED [BOARDS]]");
        std::process::exit(2)
    };
    let programs = Programs { times, makeup };
    let (seed, boards) = (number(3, 1), number(4, 20_000) as usize);
    let mut t = Tally::default();
    let mut r = Rng(seed);
    for k in 0..boards {
        let w = random(&mut r, k);
        try_board(&mut t, &mut r, &programs, &w);
        if k % 10 == 0 {
            let w = extreme(&mut r);
            try_board(&mut t, &mut r, &programs, &w);
        }
        if k % 40 == 0 {
            for w in [without_ways(&mut r, &w), without_sets(&mut r, &w), without_putting_off(&mut r, &w), above_deadline(&mut r, &w)] {
                try_board(&mut t, &mut r, &programs, &w);
            }
        }
        if k % 250 == 0 {
            for (_, bytes) in damaged(&mut r, &w, RULES.level) {
                match words_of(&bytes) {
                    Some(v) => try_board(&mut t, &mut r, &programs, &v),
                    None => try_pages(&mut t, &mut r, &programs, &bytes, w[1] as usize),
                }
            }
        }
        if k % 200 == 199 || k + 1 == boards {
            print!("\r{} of {boards} random boards; {} boards, {} calls, {} pages, {} differences", k + 1, t.boards, t.calls, t.pages, t.differences);
            let _ = std::io::stdout().flush();
        }
    }
    println!();
    for bus in 0..5 {
        for memory in 0..2 {
            try_board(&mut t, &mut r, &programs, &largest_edge(seed + 7, memory, bus, 8, RULES.level));
        }
        for ways in WAYS {
            try_board(&mut t, &mut r, &programs, &largest_edge_in_ways(seed + 7, bus, 8, ways));
            try_board(&mut t, &mut r, &programs, &largest_edge_in_two_caches(seed + 7, bus, 8, ways));
        }
        try_board(&mut t, &mut r, &programs, &largest_edge_in_ways(seed + 8, bus, 1, WAYS[bus as usize]));
        try_board(&mut t, &mut r, &programs, &largest_edge_in_two_caches(seed + 8, bus, 1, WAYS[bus as usize]));
        try_board(&mut t, &mut r, &programs, &largest_edge_put_off(seed + 9, 2, bus, 8, MOST_PUT_OFF));
        try_board(&mut t, &mut r, &programs, &largest_edge_with_jitter(seed + 10, 2, bus, 8, |d| d / 8));
    }
    for ways in WAYS {
        try_board(&mut t, &mut r, &programs, &most_useful_board(ways));
    }
    for w in WAYS.iter().flat_map(|&ways| long_traces(seed, ways)) {
        try_board(&mut t, &mut r, &programs, &w);
    }
    for w in [long_times_board(10_000, 26_000), climbing_board(2, 1, 20_000, 2, 1_000_000), climbing_board(64, 8, 2_000, 2, 1_000_000), climbing_board(64, 8, 20_000_000, 3, 500)] {
        try_board(&mut t, &mut r, &programs, &w);
    }
    for _ in 0..40 {
        let w = lower_overhead_board(&mut r, RULES.level);
        try_board(&mut t, &mut r, &programs, &w);
    }
    println!("extreme boards done; prefixes of good inputs");
    let mut over = bytes_of(&k1());
    over.resize(65_540, 0);
    for end in [65_532, 65_535, 65_536, 65_537, 65_538, 65_540] {
        try_pages(&mut t, &mut r, &programs, &over[..end], 2);
    }
    // K1, a scratchpad, a cache of eight ways, and two
    let good = [k1(), random(&mut r, 7), with_ways(&random(&mut r, 10), 8), with_ways(&random(&mut r, 15), 8)];
    for w in &good {
        let input = bytes_of(w);
        for end in 0..=input.len().min(4_000) {
            try_pages(&mut t, &mut r, &programs, &input[..end], w[1] as usize);
        }
    }
    report(&t);
    std::process::exit((t.differences != 0) as i32);
}
