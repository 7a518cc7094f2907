//! Change 5: the six numbers and the reason by hand, on K1 and its kin, with ties, late and spent; the order of refusals, and the buffers; the page and its
//! argument; `literal` = `plain` = `fast`, and the six as the sum at the settled times.
mod common;
use common::*;
use oracle::board::*;
use oracle::changes::{make_up, MakeUp};
use oracle::generate::*;
use oracle::literal::*;
use oracle::page::{make_up_page, task_of};
use oracle::{fast, plain};

const FIVE: Rules = Rules { level: 5 };

/// The six numbers and the reason of task `task`.
fn made(w: &[u32], task: u64) -> ([u64; 6], u32) {
    match agree_made_up(w, task, FIVE) {
        MakeUp::Parts { parts, reason } => (parts, reason),
        other => panic!("{other:?}"),
    }
}

fn refused(w: &[u32], task: u64) -> (u32, u64) {
    match agree_made_up(w, task, FIVE) {
        MakeUp::Refused(r) => (r.no, r.place),
        other => panic!("{other:?}"),
    }
}

/// K1 has d = 5, PD 5 and 4, MD 3 and 2, and each task on a core of its own. At its times, 35 and 29, task 1 has S = 3, and of task 2 u = 35 + 29 − 10 and
/// W = 2; task 2 has S = 2, and of task 1 u = 29 + 35 − 15 and W = 3, of which its one slot lets through 2.
#[test]
fn k1_and_its_kin() {
    assert_eq!(made(&k1(), 1), ([5, 0, 15, 10, 5, 0], 3));
    assert_eq!(made(&k1(), 2), ([4, 0, 10, 10, 5, 0], 3));
    // K2, T of task 2 is 50, times 40 and 29: for task 1 u = 40 + 29 − 10 = 59, W = 2 + min(2, 2), of which 3 come through
    assert_eq!(made(&with(&k1(), &[(26, 50), (27, 50)]), 1), ([5, 0, 15, 15, 5, 0], 3));
    // K6, times 35 and 34: task 2 has all 3 accesses of task 1
    for bus in 0..3 {
        let w = with(&k1(), &[(5, bus), (6, 0)]);
        assert_eq!((made(&w, 1), made(&w, 2)), (([5, 0, 15, 10, 5, 0], 3), ([4, 0, 10, 15, 5, 0], 4)));
    }
    // K7, times 40 and 29: as many slots of the other core as S
    let k7 = with(&k1(), &[(5, 4)]);
    assert_eq!((made(&k7, 1), made(&k7, 2)), (([5, 0, 15, 15, 5, 0], 3), ([4, 0, 10, 10, 5, 0], 3)));
    // K8, times 49 and 35: three and two refreshes of 3 cycles; with eight put off, times 61 and 44: B, that is 7 and 5
    let k8 = with(&k7, &[(8, 2), (9, 20), (10, 1), (11, 3)]);
    assert_eq!((made(&k8, 1), made(&k8, 2)), (([5, 0, 15, 15, 5, 9], 3), ([4, 0, 10, 10, 5, 6], 3)));
    let off = with(&k8, &[(16, 8)]);
    assert_eq!((made(&off, 1), made(&off, 2)), (([5, 0, 15, 15, 5, 21], 6), ([4, 0, 10, 10, 5, 15], 6)));
}

/// Two tasks on one core, d = 1, the first with T = 10: within t the second meets c = ceil(t/10) releases of it. Work 2 and 20, one access each: the sum of
/// task 2 is 20 + 2c + (1 + c + 1), from 21 at 0 to 34, where c = 4. Work 7 and 1: 1 + 7c + (1 + c + 1), from 2 to 19, where c = 2.
#[test]
fn by_releases() {
    let two = |first: u32, second: u32, deadline: u32| board(&[[1, 10, 10, first, 1], [1, 100, deadline, second, 1]], &[(7, 1)]);
    assert_eq!(made(&two(2, 20, 100), 2), ([20, 8, 5, 0, 1, 0], 1));
    assert_eq!(made(&two(7, 1, 100), 2), ([1, 14, 3, 0, 1, 0], 2));
    assert_eq!(made(&two(7, 1, 100), 1), ([7, 0, 1, 0, 1, 0], 1));
    // late, settled at 31, 30 and 21, where c is 4, 3 and 3; the first task is on time
    for (deadline, parts) in [(30, [20, 8, 5, 0, 1, 0]), (29, [20, 6, 4, 0, 1, 0]), (20, [20, 6, 4, 0, 1, 0])] {
        let w = two(2, 20, deadline);
        assert_eq!(agree(&bytes(&w), FIVE).split(' ').take(2).collect::<Vec<_>>(), ["late", "2"]);
        assert_eq!((made(&w, 2), made(&w, 1)), ((parts, 1), ([2, 0, 1, 0, 1, 0], 1)));
    }
    // at its deadline, and one cycle late
    assert_eq!(made(&two(2, 20, 34), 2), ([20, 8, 5, 0, 1, 0], 1));
    assert_eq!(agree(&bytes(&two(2, 20, 34)), FIVE), "ok 2 4\n1 1 4 10\n2 1 34 34\n");
    assert_eq!(agree(&bytes(&two(2, 20, 33)), FIVE), "late 2 4\n");
    assert_eq!(made(&two(2, 20, 33), 2), ([20, 8, 5, 0, 1, 0], 1));
}

/// K4 is K1 with a deadline of 34 for task 1, one below its time, at which it is settled too. With 20 for task 2 as well, both are late, and settled at 35
/// and 21 by passes to 10 and 9, to 35 and 21, and one that changes nothing: for task 2 u = 21 + 35 − 15, for task 1 u = 35 + 21 − 10, and the counts stay.
#[test]
fn late() {
    let k4 = with(&k1(), &[(22, 34)]);
    assert_eq!((made(&k4, 1), made(&k4, 2)), (made(&k1(), 1), made(&k1(), 2)));
    let both = with(&k4, &[(27, 20)]);
    assert_eq!(agree(&bytes(&both), FIVE), "late 1 3\n");
    assert_eq!((made(&both, 1), made(&both, 2)), (([5, 0, 15, 10, 5, 0], 3), ([4, 0, 10, 10, 5, 0], 3)));
}

/// The first of equal numbers. Task 3 of each board is on core 1, below task 2 with its work and no access; task 1 is on core 2, with work enough for all
/// its accesses to count. No task is released twice.
#[test]
fn earliest_of_equals() {
    let of = |own: u32, higher: u32, accesses: u32, others: u32, refresh: u32| {
        let tasks = [[2, 90_000, 90_000, 4000, others], [1, 90_000, 90_000, higher, 0], [1, 90_000, 90_000, own, accesses]];
        let burst = [(8, 1), (9, 100_000), (10, 1), (11, refresh)];
        made(&board(&tasks, if refresh == 0 { &[] } else { &burst }), 3)
    };
    assert_eq!(of(15, 15, 3, 3, 15), ([15, 15, 15, 15, 5, 15], 1));
    assert_eq!(of(14, 15, 3, 3, 15), ([14, 15, 15, 15, 5, 15], 2));
    assert_eq!(of(14, 14, 3, 3, 15), ([14, 14, 15, 15, 5, 15], 3));
    assert_eq!(of(14, 14, 2, 3, 15), ([14, 14, 10, 15, 5, 15], 4));
    assert_eq!(of(14, 14, 2, 2, 15), ([14, 14, 10, 10, 5, 15], 6));
    assert_eq!(of(5, 5, 1, 1, 5), ([5, 5, 5, 5, 5, 5], 1));
    assert_eq!(of(4, 5, 0, 1, 5), ([4, 5, 0, 5, 5, 5], 2));
    assert_eq!(of(4, 4, 1, 1, 5), ([4, 4, 5, 5, 5, 5], 3));
    assert_eq!(of(4, 4, 0, 1, 5), ([4, 4, 0, 5, 5, 5], 4));
    assert_eq!(of(4, 4, 0, 0, 5), ([4, 4, 0, 0, 5, 5], 5));
    assert_eq!(of(4, 4, 0, 0, 4), ([4, 4, 0, 0, 5, 4], 5));
    assert_eq!(of(4, 4, 0, 0, 6), ([4, 4, 0, 0, 5, 6], 6));
    assert_eq!(of(15, 14, 2, 2, 15), ([15, 14, 10, 10, 5, 15], 1));
    assert_eq!(of(0, 0, 0, 0, 0), ([0, 0, 0, 0, 5, 0], 5));
}

#[test]
fn spent() {
    for (w, needed) in [(k1(), 4), (with(&k1(), &[(22, 34)]), 4)] {
        for task in [1, 2] {
            assert_eq!(agree_made_up(&with(&w, &[(12, needed - 1)]), task, FIVE), MakeUp::Spent);
            assert_eq!(made(&with(&w, &[(12, needed)]), task), made(&w, task));
            assert_eq!(made(&with(&w, &[(12, needed + 1)]), task), made(&w, task));
        }
    }
}

/// Rows 1 to 9, 10, 11, 12 and 13, each before the ones after it; a refusal writes nothing.
#[test]
fn refusals_in_order() {
    for task in [0, 3, u64::MAX, 1 << 32, (1 << 32) + 1] {
        assert_eq!(refused(&k1(), task), (10, task));
        assert_eq!(refused(&with(&k1(), &[(12, 1)]), task), (10, task));
        assert_eq!(refused(&with(&k1(), &[(22, 34)]), task), (10, task));
        assert_eq!(refused(&k1()[..19], task), (1, 19));
        assert_eq!(refused(&with(&k1(), &[(37, 3 << 28)]), task), (9, 37));
    }
    for call in [make_up, plain::make_up_tested, fast::make_up] {
        let no = |w: &[u32], task: u64, times: usize, scratch: usize, table: usize| {
            let (mut a, mut b, mut c) = (vec![5; times], vec![6; scratch], vec![Figure::default(); table]);
            let answer = call(w, &mut a, &mut b, &mut c, task, FIVE);
            let MakeUp::Refused(r) = answer else { panic!("{answer:?}") };
            assert!(a.iter().all(|&v| v == 5) && b.iter().all(|&v| v == 6) && c.iter().all(|&v| v == Figure::default()));
            (r.no, r.place)
        };
        assert_eq!(no(&with(&k1(), &[(37, 3 << 28)]), 0, 1, 11, 1), (9, 37));
        assert_eq!(no(&k1(), 0, 1, 11, 1), (10, 0));
        assert_eq!(no(&k1(), 1, 1, 11, 1), (11, 1));
        assert_eq!(no(&k1(), 1, 2, 11, 1), (12, 11));
        assert_eq!(no(&k1(), 1, 2, 12, 1), (13, 1));
    }
}

#[test]
fn the_page() {
    let page = |w: &[u32], argument: &str| make_up_page(&bytes(w), argument.as_bytes(), FIVE);
    let one = "own-work 5\nhigher-work 0\ncore-accesses 15\nother-accesses 10\nblocking-access 5\nrefreshes 0\nsum 35\ndeadline 100\nlargest-time 100\nreason 3 core-accesses\n";
    let two = "own-work 4\nhigher-work 0\ncore-accesses 10\nother-accesses 10\nblocking-access 5\nrefreshes 0\nsum 29\ndeadline 60\nlargest-time 60\nreason 3 core-accesses\n";
    assert_eq!((page(&k1(), "1").as_str(), page(&k1(), "0002").as_str()), (one, two));
    assert_eq!(page(&with(&k1(), &[(22, 34)]), "1"), one.replace("100", "34"));
    assert_eq!(page(&with(&k1(), &[(12, 3)]), "1"), "spent 3\n");
    for (argument, place) in [("", "0"), ("0", "0"), ("3", "3"), ("+1", "0"), ("99999999999999999999", "18446744073709551615")] {
        assert_eq!(page(&k1(), argument), format!("bad 10 {place}\n"));
        assert_eq!(page(&k1()[..19], argument), "bad 1 19\n");
        assert_eq!(make_up_page(&bytes(&k1())[..151], argument.as_bytes(), FIVE), "bad 15 151\n");
    }
}

#[test]
fn the_argument() {
    for (argument, task) in [
        (&b"1"[..], 1),
        (b"64", 64),
        (b"0064", 64),
        (b"4294967297", (1 << 32) + 1),
        (b"18446744073709551614", u64::MAX - 1),
        (b"18446744073709551615", u64::MAX),
        (b"18446744073709551616", u64::MAX),
        (b"18446744073709551617", u64::MAX),
        (b"340282366920938463463374607431768211457", u64::MAX),
        (b"000000000000000000000000000000000000000000000007", 7),
    ] {
        assert_eq!(task_of(argument), task);
    }
    for argument in [&b""[..], b"0", b"00", b"-1", b"+1", b" 1", b"1 ", b"1\n", b"1/", b"1:", b"x", b"0x1", b"1.", b"\xff", b"1\0"] {
        assert_eq!(task_of(argument), 0);
    }
    assert_eq!((task_of(&[b'9'; 300]), task_of(&[b'0'; 300])), (u64::MAX, 0));
}

/// On drawn boards, at level 5 and at those after it: the six add up to the sum at the settled times, and so to the time, or above D − J.
#[test]
fn drawn_boards() {
    let mut r = Rng(505);
    for level in 5..=14 {
        for k in 0..80 {
            let mut w = board_at(&mut r, level, k);
            if k % 8 == 7 {
                w[12] = r.range(1, 6);
            }
            let (rules, b) = (Rules { level }, check_board(&w, Rules { level }).unwrap());
            let settled = Model::new(b).settle(b.limit() as u64);
            for i in 1..=b.n() {
                match (&settled, agree_made_up(&w, i as u64, rules)) {
                    (None, made) => assert_eq!(made, MakeUp::Spent),
                    (Some((_, times)), MakeUp::Parts { parts, reason }) => {
                        let exact: Vec<u32> = times.iter().map(|&t| t as u32).collect();
                        let sum: u64 = parts.iter().sum();
                        assert_eq!(weigh(&w, &exact, i as u64, rules), Ok(sum));
                        assert_eq!(exact[i - 1] as u64, sum.min(b.cap(i) as u64));
                        let (before, after) = parts.split_at(reason as usize - 1);
                        assert!(before.iter().all(|&x| x < after[0]) && after.iter().all(|&x| x <= after[0]));
                    }
                    (_, other) => panic!("{other:?}"),
                }
            }
        }
    }
}
