//! Change 4: code and data caches of their own by hand: figures, useful blocks, overheads and times; `literal` = `plain` = `fast`, in order too; hits by
//! counting the blocks in between; two caches = one with a half for each; one cache = the old answers; words 4, 13, 14 and 15.
mod common;
use common::*;
use oracle::board::*;
use oracle::generate::*;
use oracle::literal::*;
use oracle::page;
use std::collections::BTreeMap;

const FOUR: Rules = Rules { level: 4 };
const READ: u32 = (1 << 28) + 32_768;
const WRITE: u32 = (2 << 28) + 32_768;

/// An instruction: the block that it fetches, and its work word.
type Step = (u32, u32);

/// One core, d = 5, no cycles without memory; words 4, 13, 14 and 15; a task for each trace, with its period.
fn board(memory: [u32; 4], tasks: &[(u32, &[Step])]) -> Vec<u32> {
    let n = tasks.len() as u32;
    let steps: Vec<Step> = tasks.iter().flat_map(|t| t.1.iter().copied()).collect();
    let [kind, code, data, ways] = memory;
    let mut w = vec![1, n, n, steps.len() as u32, kind, 2, 0, 5, 0, 0, 0, 0, 100, code, data, ways, 0, 0, 0, 0];
    for t in tasks {
        w.extend([1, t.0, t.0, 1, 0]);
    }
    w.extend(tasks.iter().map(|t| t.1.len() as u32));
    w.extend(steps.iter().map(|s| s.0));
    w.extend(steps.iter().map(|s| s.1));
    w
}

/// MD and both ECBs of the second task, and the overhead of the first on it.
fn seen(memory: [u32; 4], first: &[Step], second: &[Step]) -> (u32, [u64; 4], [u64; 4], u64) {
    let w = board(memory, &[(1000, first), (1000, second)]);
    let m = agree_on_figures(&check_board(&w, FOUR).unwrap());
    let gamma = overhead(&w, 2, 1, FOUR).unwrap();
    assert_eq!(m.gamma(2, 1) as u64, gamma);
    let f = m.fig[1];
    (f.md, f.ecb, f.ecb_data, gamma)
}

/// Sets below 64.
fn sets(list: &[u32]) -> [u64; 4] {
    [list.iter().map(|s| 1 << s).sum(), 0, 0, 0]
}

#[test]
fn sets_with_the_same_number() {
    let trace = [(1, READ + 1), (1, READ + 1), (1, READ + 1)];
    let memory = [3, 4, 4, 0];
    let one = sets(&[1]);
    // the code's set, the data's, both, and two others
    assert_eq!(seen(memory, &[(5, 0)], &trace), (2, one, one, 1));
    assert_eq!(seen(memory, &[(0, WRITE + 5)], &trace), (2, one, one, 1));
    assert_eq!(seen(memory, &[(5, READ + 5)], &trace), (2, one, one, 2));
    assert_eq!(seen(memory, &[(0, READ)], &trace), (2, one, one, 0));
    // in one cache every load misses, and nothing is useful
    assert_eq!(seen([2, 4, 0, 0], &[(5, READ + 5)], &trace), (6, one, sets(&[]), 0));
}

/// 32,769 = 3 × 10,923 and 32,771 = 5 × 6,554 + 1.
#[test]
fn sets_of_their_own_number() {
    let trace = [(7, READ + 1), (8, WRITE + 3)];
    assert_eq!(seen([3, 5, 3, 0], &[(0, 0)], &trace), (4, sets(&[2, 3]), sets(&[0, 2]), 0));
    assert_eq!(seen([3, 3, 5, 0], &[(0, 0)], &trace), (4, sets(&[1, 2]), sets(&[4, 1]), 0));
    assert_eq!(seen([3, 256, 256, 0], &[(0, 0)], &[(255, WRITE + 64)]), (2, [0, 0, 0, 1 << 63], [0, 1, 0, 0], 0));
    assert_eq!(seen([3, 1, 1, 0], &[(0, 0)], &trace), (4, sets(&[0]), sets(&[0]), 0));
    // with the other memories the second ECB is empty
    assert_eq!(seen([2, 5, 0, 0], &[(0, 0)], &trace), (4, sets(&[2, 3, 4, 1]), sets(&[]), 0));
    assert_eq!(seen([1, 5, 5, 0], &[(0, 0)], &trace), (3, sets(&[]), sets(&[]), 0));
    assert_eq!(seen([0, 0, 0, 0], &[(0, 0)], &trace), (4, sets(&[]), sets(&[]), 0));
}

/// The useful blocks in sets 1 to 3 at the points 0 to 10: of code 0 1 2 3 2 2 2 1 0 0 0, of data 0 0 0 0 0 1 2 2 3 2 1. Together they are at most 4,
/// at point 6, where neither has its 3.
#[test]
fn counts_are_added_at_each_point() {
    let data = |k: u32| (0, READ + k);
    let trace = [(1, 0), (2, 0), (3, 0), (1, 0), data(1), data(2), (2, 0), (3, READ + 3), data(1), data(2), data(3)];
    let w = board([3, 8, 8, 0], &[(1000, &trace)]);
    let counts: Vec<[usize; 2]> = useful_points(&check_board(&w, FOUR).unwrap(), 1)
        .iter()
        .map(|u| [0, 1].map(|cache| u.iter().filter(|&&(c, s)| c == cache && s > 0).count()))
        .collect();
    assert_eq!(counts, [[0, 0], [1, 0], [2, 0], [3, 0], [2, 0], [2, 1], [2, 2], [1, 2], [0, 3], [0, 2], [0, 1]]);
    let both = [(9, READ + 9), (10, READ + 10), (11, READ + 11)];
    let overhead = |first: &[Step]| seen([3, 8, 8, 0], first, &trace);
    assert_eq!(overhead(&both), (7, sets(&[0, 1, 2, 3]), sets(&[1, 2, 3]), 4));
    assert_eq!(overhead(&both.map(|s| (s.0, 0))).3, 3);
    assert_eq!(overhead(&both.map(|s| (4, s.1))).3, 3);
}

#[test]
fn ways_in_both() {
    let trace = [(1, READ + 1), (5, READ + 5), (1, READ + 1), (5, READ + 5)];
    let above = [(9, READ + 9)];
    for (ways, md, gamma) in [(0, 8, 0), (1, 8, 0), (2, 4, 4), (4, 4, 4), (8, 4, 4)] {
        assert_eq!(seen([3, 4, 4, ways], &above, &trace), (md, sets(&[1]), sets(&[1]), gamma));
    }
    // three blocks of the one and two of the other
    let more = [(1, READ + 1), (5, READ + 5), (9, READ + 1), (1, READ + 5), (5, READ + 1), (9, READ + 5)];
    let swapped = more.map(|s| (s.1 - READ, READ + s.0));
    for (ways, md, gamma) in [(1, 12, 0), (2, 8, 2), (4, 5, 5), (8, 5, 5)] {
        assert_eq!(seen([3, 4, 4, ways], &above, &more), (md, sets(&[1]), sets(&[1]), gamma));
        assert_eq!(seen([3, 4, 4, ways], &above, &swapped), (md, sets(&[1]), sets(&[1]), gamma));
    }
}

#[test]
fn most_useful_blocks() {
    for ways in WAYS {
        let w = most_useful_board(ways);
        assert_eq!(overhead(&w, 2, 1, FOUR), Ok(if ways > 1 { 1024 } else { 512 }));
    }
}

/// Sets of one block. With two caches the last task of the first board misses twice and has one useful block of code, so that S is 2 + (1 + 1); with
/// one it misses six times and has none, so that S is 6 + 1. Of the second board S is 2 + (1 + 1) + (1 + 1) with two caches and 3 + 1 + 1 with one.
#[test]
fn times_beside_one_cache() {
    let hits: [(u32, &[Step]); 2] = [(900, &[(50, 0)]), (2000, &[(0, READ), (0, READ), (0, READ)])];
    let lost: [(u32, &[Step]); 3] = [(500, &[(50, 0)]), (600, &[(51, 0)]), (900, &[(0, READ), (0, 0)])];
    let page = |memory: [u32; 4], tasks: &[(u32, &[Step])]| agree(&bytes(&board(memory, tasks)), FOUR);
    assert_eq!(page([3, 1, 1, 0], &hits), "ok 2 3\n1 1 10 900\n2 1 25 2000\n");
    assert_eq!(page([2, 1, 0, 0], &hits), "ok 2 3\n1 1 10 900\n2 1 40 2000\n");
    assert_eq!(page([3, 1, 1, 0], &lost), "ok 3 3\n1 1 10 500\n2 1 15 600\n3 1 35 900\n");
    assert_eq!(page([2, 1, 0, 0], &lost), "ok 3 3\n1 1 10 500\n2 1 15 600\n3 1 30 900\n");
}

/// A board with two caches at level 4.
fn drawn(r: &mut Rng, k: u32) -> Vec<u32> {
    let (bus, refresh) = (r.range(0, 4), r.range(0, 2));
    let mut s = shape(r, 4, 3, bus, refresh);
    s.tasks = s.tasks.min(12);
    with_ways(&tuned_board(r, s, k % 2 == 0), WAYS[k as usize % 5])
}

#[test]
fn drawn_boards() {
    let mut r = Rng(4040);
    for k in 0..400 {
        let w = drawn(&mut r, k);
        let b = check_board(&w, FOUR).unwrap();
        let m = agree_on_figures(&b);
        for i in 1..=b.n() {
            assert_eq!(m.fig[i - 1].md, b.traces(i).iter().map(|&tr| missed_by_distance(&b, tr)).max().unwrap());
        }
        agree(&bytes(&w), FOUR);
        agree_in_order(&w, &shuffled(&mut r, b.n()), FOUR);
    }
}

/// The board in one cache of 256 sets, for two of at most 128 each: code in the first half of the sets and data in the second; in each trace the blocks
/// of a set are numbered in the order of their first use.
fn in_halves(b: &Board) -> Vec<u32> {
    let mut w = with_one_cache(b.w);
    w[13] = 256;
    let (fetches, works) = (20 + 5 * b.n() + b.q(), 20 + 5 * b.n() + b.q() + b.g());
    for tr in (1..=b.n()).flat_map(|i| b.traces(i)) {
        let mut blocks: BTreeMap<u32, Vec<u32>> = BTreeMap::new();
        let mut moved = |set: u32, m: u32| {
            let of_set = blocks.entry(set).or_default();
            let k = of_set.iter().position(|&x| x == m).unwrap_or_else(|| {
                of_set.push(m);
                of_set.len() - 1
            });
            set + 256 * k as u32
        };
        for at in tr.start..tr.start + tr.len {
            w[fetches + at] = moved(b.fetch(at) % b.w[13], b.fetch(at));
            if b.kind(at) != Kind::Execute {
                let m = b.data(at);
                w[works + at] = (b.work(at) & 0xffff_0000) + 32_768 + moved(128 + m % b.w[14], m);
            }
        }
    }
    w
}

#[test]
fn one_cache_in_halves() {
    let mut r = Rng(128);
    let mut tried = 0;
    for k in 0..600 {
        let w = drawn(&mut r, k);
        if w[13].max(w[14]) > 128 {
            continue;
        }
        tried += 1;
        let b = check_board(&w, FOUR).unwrap();
        let halves = in_halves(&b);
        let (two, one) = (Model::new(b), Model::new(check_board(&halves, Rules { level: 3 }).unwrap()));
        for i in 1..=b.n() {
            let (f, g) = (two.fig[i - 1], one.fig[i - 1]);
            assert_eq!((f.pd, f.md), (g.pd, g.md));
            assert_eq!([f.ecb[0], f.ecb[1], f.ecb_data[0], f.ecb_data[1]], g.ecb);
            assert!((1..=b.n()).all(|j| two.gamma(i, j) == one.gamma(i, j)));
        }
        assert_eq!(page::page(&bytes(&w), FOUR), page::page(&bytes(&halves), Rules { level: 3 }));
    }
    assert!(tried > 300);
}

#[test]
fn one_cache_is_the_old_one() {
    let mut r = Rng(34);
    for k in 0..300 {
        let w = board_at(&mut r, 3, k);
        assert_eq!(agree(&bytes(&w), FOUR), agree(&bytes(&w), Rules { level: 3 }), "{w:?}");
        let [new, old] = [FOUR, Rules { level: 3 }].map(|rules| check_board(&w, rules).unwrap());
        for i in 1..=new.n() {
            assert_eq!(figure(&new, i), figure(&old, i));
            assert_eq!(figure(&new, i).ecb_data, [0; 4]);
        }
    }
}

#[test]
fn words_4_and_13_to_15() {
    let apart = board([3, 4, 5, 0], &[(1000, &[(0, READ)])]);
    let row = |set: &[(usize, u32)], level: u32| check_board(&with(&apart, set), Rules { level }).err().map(|e| (e.no, e.place));
    for x in (0..600).chain([32_768, 32_769, 1 << 16, 1 << 31, u32::MAX]) {
        let cache = (1..=256).contains(&x);
        assert_eq!(row(&[(13, x)], 4), if cache { None } else { Some((2, 13)) });
        assert_eq!(row(&[(14, x)], 4), if cache { None } else { Some((2, 14)) });
        assert_eq!(row(&[(4, 2), (14, x)], 4), if x == 0 { None } else { Some((2, 14)) });
        assert_eq!(row(&[(4, 1), (14, x)], 4), if x <= 32_768 { None } else { Some((2, 14)) });
        assert_eq!(row(&[(4, 0), (13, 0), (14, x)], 4), if x == 0 { None } else { Some((2, 14)) });
        assert_eq!(row(&[(15, x)], 4), if WAYS.contains(&x) { None } else { Some((2, 15)) });
        assert_eq!(row(&[(13, x), (14, x), (15, x)], 3), Some((2, 4)));
        if x > 3 {
            assert_eq!(row(&[(4, x), (13, 0), (14, 0)], 4), Some((2, 4)));
        }
    }
    // of several faults the first is named, and row 2 before the later ones
    for x in NO_SETS {
        assert_eq!(row(&[(12, 0), (13, x)], 4), Some((2, 12)));
        assert_eq!(row(&[(13, x), (14, x), (15, 3)], 4), Some((2, 13)));
        assert_eq!(row(&[(14, x), (15, 3), (16, 1)], 4), Some((2, 14)));
        assert_eq!(row(&[(14, x), (20, 0)], 4), Some((2, 14)));
        assert_eq!(check_board(&with(&apart, &[(14, x)])[..27], FOUR).err().map(|e| (e.no, e.place)), Some((2, 14)));
    }
    assert_eq!(row(&[(15, 8), (16, 1)], 4), Some((2, 16)));
    assert_eq!(row(&[(4, 4), (5, 5)], 4), Some((2, 4)));
    assert_eq!(row(&[(5, 5), (13, 0)], 4), Some((2, 5)));
}
