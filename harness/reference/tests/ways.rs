//! Change 2: hits, useful blocks and overheads in caches of several ways by hand; `literal` = `fast`, one way = the old figures, hits by
//! counting the blocks in between; word 15.
mod common;
use common::*;
use oracle::board::*;
use oracle::generate::*;
use oracle::literal::*;
use oracle::page;

const TWO: Rules = Rules { level: 2 };
const READ: u32 = 1 << 28;
const WRITE: u32 = 2 << 28;

/// One core, a cache of 4 sets: task 1 fetches block 1, task 2 has this trace (fetch, work word).
fn cached(ways: u32, trace: &[(u32, u32)]) -> Vec<u32> {
    let mut w = vec![1, 2, 2, 1 + trace.len() as u32, 2, 2, 0, 1, 0, 0, 0, 0, 100, 4, 0, ways, 0, 0, 0, 0];
    for _ in 0..2 {
        w.extend([1, 1000, 1000, 1, 0]);
    }
    w.extend([1, trace.len() as u32, 1]);
    w.extend(trace.iter().map(|x| x.0));
    w.push(0);
    w.extend(trace.iter().map(|x| x.1));
    w
}

/// MD of the trace, its useful blocks at each point, and the overhead of task 1 on it.
fn seen(ways: u32, trace: &[(u32, u32)]) -> (u32, Vec<usize>, u64) {
    let w = cached(ways, trace);
    let b = check_board(&w, TWO).unwrap();
    let m = agree_on_figures(&b);
    let gamma = overhead(&w, 2, 1, TWO).unwrap();
    assert_eq!(m.gamma(2, 1) as u64, gamma);
    (m.fig[1].md, useful_points(&b, 2).iter().map(|u| u.len()).collect(), gamma)
}

/// Executes of the blocks with these numbers in set 1.
fn fetches(numbers: &[u32]) -> Vec<(u32, u32)> {
    numbers.iter().map(|k| (1 + 4 * k, 0)).collect()
}

#[test]
fn as_many_blocks_as_ways() {
    for ways in [1, 2, 4, 8] {
        let blocks: Vec<u32> = (0..ways).chain(0..ways).collect();
        let (md, useful, gamma) = seen(ways, &fetches(&blocks));
        assert_eq!((md, gamma), (ways, ways as u64));
        let wanted: Vec<usize> = (0..ways as usize).chain((1..=ways as usize).rev()).collect();
        assert_eq!(useful, wanted);
    }
}

#[test]
fn one_block_more_than_ways() {
    for ways in [1, 2, 4, 8] {
        let blocks: Vec<u32> = (0..3 * (ways + 1)).map(|p| p % (ways + 1)).collect();
        let (md, useful, gamma) = seen(ways, &fetches(&blocks));
        assert_eq!((md, gamma), (3 * (ways + 1), 0));
        assert!(useful.iter().all(|&u| u == 0));
    }
}

#[test]
fn a_hit_makes_a_block_the_last_one_used() {
    // the second fetch of 0 keeps it from being thrown out by 2
    assert_eq!(seen(2, &fetches(&[0, 1, 0, 2, 0])), (3, vec![0, 1, 1, 1, 1], 1));
    assert_eq!(seen(2, &fetches(&[0, 1, 0, 2, 1])), (4, vec![0, 1, 1, 0, 0], 1));
    assert_eq!(seen(4, &fetches(&[0, 1, 0, 2, 1])), (3, vec![0, 1, 2, 1, 1], 2));
}

#[test]
fn a_write_neither_loads_nor_refreshes() {
    // data blocks in set 1, fetches of block 0
    let data = |kind: u32, k: u32| (0, kind + 32_769 + 4 * k);
    // 0 stays the oldest, though it is written last
    assert_eq!(seen(2, &[data(READ, 0), data(READ, 1), data(WRITE, 0), data(READ, 2), data(READ, 1)]), (5, vec![0, 1, 2, 2, 2], 1));
    assert_eq!(seen(2, &[data(READ, 0), data(READ, 1), data(WRITE, 0), data(READ, 2), data(READ, 0)]), (6, vec![0, 1, 1, 1, 1], 0));
    // a block that is only written is not held
    assert_eq!(seen(2, &[data(READ, 0), data(WRITE, 1), data(WRITE, 2), data(READ, 0), data(READ, 1)]), (5, vec![0, 2, 2, 2, 1], 1));
}

#[test]
fn held_is_not_useful() {
    // not used again, and used again too late
    assert_eq!(seen(2, &fetches(&[0, 1, 2, 3])).1, [0; 4]);
    assert_eq!(seen(2, &fetches(&[0, 1, 2, 3, 0])), (5, vec![0; 5], 0));
}

/// A board with a cache at level 2.
fn drawn(r: &mut Rng, k: u32) -> Vec<u32> {
    let (bus, refresh) = (r.range(0, 4), r.range(0, 2));
    let mut s = shape(r, 2, 2, bus, refresh);
    s.tasks = s.tasks.min(12);
    tuned_board(r, s, k % 2 == 0)
}

#[test]
fn drawn_boards() {
    let mut r = Rng(2525);
    for k in 0..400 {
        let w = with_ways(&drawn(&mut r, k), WAYS[k as usize % 5]);
        let b = check_board(&w, TWO).unwrap();
        let m = agree_on_figures(&b);
        for i in 1..=b.n() {
            assert_eq!(m.fig[i - 1].md, b.traces(i).iter().map(|&tr| missed_by_distance(&b, tr)).max().unwrap());
        }
    }
}

#[test]
fn one_way_is_the_old_cache() {
    let mut r = Rng(11);
    for k in 0..200 {
        let w = with_ways(&drawn(&mut r, k), 0);
        let old = check_board(&w, Rules::BASE).unwrap();
        for v in [w.clone(), with_ways(&w, 1)] {
            let b = check_board(&v, TWO).unwrap();
            assert_eq!(Model::new(b).fig, Model::new(old).fig);
            assert!((1..=b.n()).all(|i| useful_points(&b, i) == useful_points_direct(&old, i)));
            assert_eq!(page::page(&bytes(&v), TWO), page::page(&bytes(&w), Rules::BASE));
        }
    }
}

#[test]
fn word_15() {
    let cache = cached(0, &fetches(&[0]));
    let mut none = cache.clone();
    (none[4], none[13]) = (0, 0);
    let mut held = none.clone();
    held[4] = 1;
    let row = |w: &[u32], set: &[(usize, u32)]| check_board(&with(w, set), TWO).err().map(|e| (e.no, e.place));
    for x in (0..300).chain([1 << 16, 1 << 31, u32::MAX]) {
        assert_eq!(row(&cache, &[(15, x)]), if WAYS.contains(&x) { None } else { Some((2, 15)) });
        for w in [&none, &held] {
            assert_eq!(row(w, &[(15, x)]), if x == 0 { None } else { Some((2, 15)) });
        }
        assert_eq!(row(&cache, &[(4, 3), (15, x)]), Some((2, 4)));
    }
    for x in NO_WAYS {
        assert_eq!(row(&cache, &[(15, x), (13, 257)]), Some((2, 13)));
        assert_eq!(row(&cache, &[(15, x), (14, 1)]), Some((2, 14)));
        assert_eq!(row(&cache, &[(15, x), (16, 1), (19, 1)]), Some((2, 15)));
        assert_eq!(row(&cache, &[(15, x), (20, 0)]), Some((2, 15)));
    }
    assert_eq!(row(&cache, &[(15, 8), (16, 1)]), Some((2, 16)));
}
