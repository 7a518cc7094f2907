//! What several tests share; each of them uses a part.
#![allow(dead_code)]
use oracle::board::{Board, Kind, Rules, Trace};
use oracle::changes::{analyse_in_order, make_up, Buffers, MakeUp};
use oracle::literal::{Answer, Figure, Model};
use oracle::{fast, page, plain};
use std::collections::BTreeSet;

pub fn bytes(w: &[u32]) -> Vec<u8> {
    w.iter().flat_map(|x| x.to_le_bytes()).collect()
}

/// The board with other words at some places.
pub fn with(w: &[u32], set: &[(usize, u32)]) -> Vec<u32> {
    let mut v = w.to_vec();
    for &(at, x) in set {
        v[at] = x;
    }
    v
}

/// A board of tasks (core, T, D, cycles, accesses), each with one trace that executes: the first instruction has the cycles. Two cores, FIFO bus, d = 5, a
/// scratchpad that holds block 0, fetched first, and none after; limit 100.
pub fn board(tasks: &[[u32; 5]], set: &[(usize, u32)]) -> Vec<u32> {
    let lengths: Vec<u32> = tasks.iter().map(|task| 1 + task[4]).collect();
    let (n, g) = (tasks.len() as u32, lengths.iter().sum());
    let mut w = with(&[0; 20], &[(0, 2), (1, n), (2, n), (3, g), (4, 1), (5, 2), (7, 5), (12, 100), (13, 1)]);
    for task in tasks {
        w.extend([task[0], task[1], task[2], 1, 0]);
    }
    w.extend(&lengths);
    for task in tasks {
        w.extend(0..=task[4]);
    }
    for task in tasks {
        w.push(task[3] << 16);
        w.extend(vec![0; task[4] as usize]);
    }
    with(&w, set)
}

/// The page of an input, by `literal`, `fast` and both forms of `plain` alike.
pub fn agree(bytes: &[u8], rules: Rules) -> String {
    let page = page::page(bytes, rules);
    for analyse in [fast::analyse, plain::analyse, plain::analyse_tested] {
        assert_eq!(page::page_with(bytes, &mut |w, t, s, f| analyse(w, t, s, f, rules)), page);
    }
    page
}

/// The figures and overheads of a board, by `literal` and `fast` alike.
pub fn agree_on_figures<'a>(b: &Board<'a>) -> Model<'a> {
    let m = Model::new(*b);
    let mut table = vec![Figure::default(); 64];
    let t = fast::tables(b, &mut table);
    assert_eq!(&table[..b.n()], &m.fig[..]);
    for i in 1..=b.n() {
        for j in 1..=b.n() {
            assert_eq!(t.gamma[(i - 1) * 64 + j - 1] as u128, m.gamma(i, j));
        }
    }
    m
}

/// Bus accesses of a trace on a board with a cache or two: a load hits if fewer than `ways` other blocks of its set were loaded since the last load of
/// its block.
pub fn missed_by_distance(b: &Board, tr: Trace) -> u32 {
    let (mut loads, mut count): (Vec<u32>, u32) = (vec![], 0);
    let set = |m: u32| if b.memory() == 3 && m >= 32_768 { (1, m % b.w[14]) } else { (0, m % b.w[13]) };
    for at in tr.start..tr.start + tr.len {
        let mut load = |m: u32| {
            let since = loads.iter().rev().take_while(|&&x| x != m).filter(|&&x| set(x) == set(m));
            let others: BTreeSet<u32> = since.copied().collect();
            count += (!loads.contains(&m) || others.len() >= b.ways()) as u32;
            loads.push(m);
        };
        load(b.fetch(at));
        match b.kind(at) {
            Kind::Execute => {}
            Kind::Read => load(b.data(at)),
            Kind::Write => count += 1,
        }
    }
    count
}

/// The answer of a call with room for 64 tasks, and what it leaves in times and table.
pub fn left<A>(call: impl FnOnce(&mut [u32], &mut [u32], &mut [Figure]) -> A) -> (A, Vec<u32>, Vec<Figure>) {
    let mut b = Buffers::full();
    let answer = call(&mut b.times, &mut b.scratch, &mut b.table);
    (answer, b.times, b.table)
}

/// The answer in the order of a list, by `changes`, `plain` and `fast` alike.
pub fn agree_in_order(w: &[u32], list: &[u32], rules: Rules) -> Answer {
    let wanted = left(|t, s, f| analyse_in_order(w, t, s, f, list, rules));
    assert_eq!(wanted, left(|t, s, f| plain::analyse_in_order_tested(w, t, s, f, list, rules)), "{list:?} {w:?}");
    assert_eq!(wanted, left(|t, s, f| fast::analyse_in_order(w, t, s, f, list, rules)), "{list:?} {w:?}");
    wanted.0
}

/// How a task's time is made up, by `changes`, `plain` and `fast` alike; times and table are left as by Analyse, or as they were where it refuses.
pub fn agree_made_up(w: &[u32], task: u64, rules: Rules) -> MakeUp {
    let wanted = left(|t, s, f| make_up(w, t, s, f, task, rules));
    assert_eq!(wanted, left(|t, s, f| plain::make_up_tested(w, t, s, f, task, rules)), "{task} {w:?}");
    assert_eq!(wanted, left(|t, s, f| fast::make_up(w, t, s, f, task, rules)), "{task} {w:?}");
    let (_, times, table) = match wanted.0 {
        MakeUp::Refused(_) => left(|_, _, _| Answer::Spent),
        _ => left(|t, s, f| fast::analyse(w, t, s, f, rules)),
    };
    assert_eq!((&wanted.1, &wanted.2), (&times, &table), "{task} {w:?}");
    wanted.0
}
