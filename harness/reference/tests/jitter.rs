//! Change 7: releases by t + J_k and the reach t + R_k + J_k by hand, a task's own count and time without its J; late above D − J, row 14 above D − J + 1,
//! row 4 above D, each at its limits; the six numbers of a late task; J = 0 gives the old answers; `literal` = `plain` = `fast`.
mod common;
use common::*;
use oracle::board::*;
use oracle::changes::MakeUp;
use oracle::fast;
use oracle::generate::*;
use oracle::literal::*;
use oracle::page::make_up_page;

const SEVEN: Rules = Rules { level: 7 };

/// The board with these jitters, task 1's first.
fn jittered(w: &[u32], jitters: &[u32]) -> Vec<u32> {
    let set: Vec<(usize, u32)> = jitters.iter().enumerate().map(|(k, &j)| (24 + 5 * k, j)).collect();
    with(w, &set)
}

/// Weigh, by `literal` and `fast` alike.
fn sum(w: &[u32], times: &[u32], i: usize) -> u64 {
    let sum = weigh(w, times, i as u64, SEVEN).unwrap();
    assert_eq!(fast::weigh(&check_board(w, SEVEN).unwrap(), times, i), sum);
    sum
}

fn page(w: &[u32]) -> String {
    agree(&bytes(w), SEVEN)
}

/// The six numbers and the reason of task `task`.
fn made(w: &[u32], task: u64) -> ([u64; 6], u32) {
    match agree_made_up(w, task, SEVEN) {
        MakeUp::Parts { parts, reason } => (parts, reason),
        other => panic!("{other:?}"),
    }
}

fn row(w: &[u32]) -> Option<(u32, u64)> {
    check_board(w, SEVEN).err().map(|e| (e.no, e.place))
}

/// Two tasks on one core, d = 1, one access each: T = D = 10 and work 2; T = D = 100 and work 3.
fn one_core(first: u32, second: u32) -> Vec<u32> {
    jittered(&board(&[[1, 10, 10, 2, 1], [1, 100, 100, 3, 1]], &[(7, 1)]), &[first, second])
}

/// With c = ceil((t + J_1)/10) releases of task 1, the sum of task 2 is 3 + 2c + (ceil(t/100) + c + 1).
/// J_1 = 3: at 0, c is 1: 3 + 2 + 2 = 7. At 7, 7 + 3 = T and c is 1: 3 + 2 + 3 = 8. At 8 it is 2: 3 + 4 + 4 = 11. At 17, 17 + 3 = 2T: 11; at 18, c is 3: 14.
/// J_1 = 0: at 0, c is 0: 3 + 0 + 1 = 4. At 1 to 10 it is 1: 8. At 11 it is 2: 11.
/// J_1 = 1: at 0, c is 1: 7. At 9 it is 1: 8. At 10 it is 2: 11.
/// J_1 = 10 = T: at 0, c is 1: 7. At 1 it is 2: 11. At 11 it is 3: 14.
#[test]
fn releases_of_a_higher_task() {
    for (j, sums) in [
        (3, &[(0, 7), (1, 8), (7, 8), (8, 11), (17, 11), (18, 14)][..]),
        (0, &[(0, 4), (1, 8), (10, 8), (11, 11)]),
        (1, &[(0, 7), (9, 8), (10, 11), (19, 11), (20, 14)]),
        (10, &[(0, 7), (1, 11), (10, 11), (11, 14)]),
    ] {
        for &(t, wanted) in sums {
            for bus in [[0, 0], [1, 0], [2, 0], [3, 1]] {
                // the time of task 1 is in none of these sums
                let w = with(&one_core(j, 0), &[(5, bus[0]), (6, bus[1])]);
                assert_eq!((sum(&w, &[0, t], 2), sum(&w, &[1, t], 2)), (wanted, wanted), "J {j}, t {t}, bus {bus:?}");
            }
        }
    }
}

/// J_1 = 3: task 1 has 2 + 1 = 3 at 0 and 2 + 2 = 4 from then on, task 2 as above: (3, 7), (4, 8), (4, 11), and no change. J_1 = 0: (3, 4), (4, 8), no change.
#[test]
fn times_by_a_higher_task() {
    assert_eq!(page(&one_core(3, 0)), "ok 2 4\n1 1 4 10\n2 1 11 100\n");
    assert_eq!(page(&one_core(0, 0)), "ok 2 3\n1 1 4 10\n2 1 8 100\n");
    assert_eq!(made(&one_core(3, 0), 2), ([3, 4, 3, 0, 1, 0], 2));
    assert_eq!(made(&one_core(0, 0), 2), ([3, 2, 2, 0, 1, 0], 1));
    // J_1 = 6: (3, 7), (4, 11), since 7 + 6 is above T, and no change: at 4 = D − J_1 task 1 is not late
    assert_eq!(page(&one_core(6, 0)), "ok 2 3\n1 1 4 10\n2 1 11 100\n");
    // J_1 = 7: the same times, but 4 is the cap of task 1
    assert_eq!(page(&one_core(7, 0)), "late 1 3\n");
    // J of a lower task is in no sum of its core
    assert_eq!(sum(&one_core(0, 80), &[4, 0], 1), 4);
    assert_eq!(sum(&one_core(0, 80), &[0, 0], 1), 3);
}

/// A task's own count is ceil(t/T). Task 1 with T = D = 10 and J: 2 + 1 at 0, and up to its cap, 11 − J, 2 + 2, though t + J is 11 there.
/// Task 2 with T = D = 100, whatever its J: 4, 8 and 11 at 0, 10 and 11, and at its cap, 101 − J, as at that time: 3 + 2c + (1 + c + 1), c = ceil((101 − J)/10).
#[test]
fn own_count() {
    for j in 0..=10 {
        let w = one_core(j, 0);
        assert_eq!(sum(&w, &[0, 0], 1), 3);
        for t in 1..=11 - j.max(1) {
            assert_eq!(sum(&w, &[t, 0], 1), 4);
        }
    }
    // without J its cap is 11, within which it is released twice
    assert_eq!(sum(&one_core(0, 0), &[11, 0], 1), 5);
    for j in 1..=90 {
        let w = one_core(0, j);
        assert_eq!([0, 10, 11].map(|t| sum(&w, &[4, t], 2)), [4, 8, 11]);
        let c = (101 - j).div_ceil(10) as u64;
        assert_eq!(sum(&w, &[4, 101 - j], 2), 5 + 3 * c);
    }
}

/// Its own J changes nothing of a task but its bound. Task 2 above has time 11 where J_1 = 3, in four passes: late where D − J_2 is below. With D − J_2 = 10 it
/// is settled at its cap, 11. With J_2 = D its cap is 1: (3, 1), (4, 1), no change, and its six numbers are those at 1, 3 + 2 + 2 + 0 + 1 + 0.
#[test]
fn own_jitter_is_a_bound() {
    for j in 0..=89 {
        assert_eq!(page(&one_core(3, j)), "ok 2 4\n1 1 4 10\n2 1 11 100\n");
    }
    assert_eq!(page(&one_core(3, 90)), "late 2 4\n");
    assert_eq!(page(&one_core(3, 100)), "late 2 3\n");
    assert_eq!((made(&one_core(3, 89), 2), made(&one_core(3, 90), 2)), (([3, 4, 3, 0, 1, 0], 2), ([3, 4, 3, 0, 1, 0], 2)));
    assert_eq!(made(&one_core(3, 100), 2), ([3, 2, 2, 0, 1, 0], 1));
    // both caps 1: (1, 1), no change, and the first is named; at 1 its sum is 4
    assert_eq!(page(&one_core(10, 100)), "late 1 2\n");
    assert_eq!(made(&one_core(10, 100), 1), ([2, 0, 1, 0, 1, 0], 1));
}

/// One core, a cache of four sets, d = 1: task 1, T = 10 and J = 4, loads a block of set 0, task 2 blocks 0, 1 and 0, so that MD is 1 and 2 and γ(2, 1) is 1.
/// S of task 2 is 2c + 2 × ceil(t/100), c = ceil((t + 4)/10): 2 at 0, 4 at 6, where c is 1, 6 at 7.
#[test]
fn overhead_by_releases() {
    let mut w = vec![1, 2, 2, 4, 2, 2, 0, 1, 0, 0, 0, 0, 100, 4, 0, 0, 0, 0, 0, 0];
    w.extend([1, 10, 10, 1, 4, 1, 100, 100, 1, 0, 1, 3, 4, 0, 1, 0, 0, 0, 0, 0]);
    assert_eq!([0, 6, 7].map(|t| sum(&w, &[2, t], 2)), [3, 5, 7]);
}

/// K1 on a bus without slots: d = 5, MD 3 and 2, PD 5 and 4, T 100 and 60.
fn k6(bus: u32, jitters: &[u32]) -> Vec<u32> {
    jittered(&with(&k1(), &[(5, bus), (6, 0)]), jitters)
}

/// Task 2 with times R_1 and t has S = 2 and 4 + (2 + W + 1) × 5, and of task 1 u = max(0, t + R_1 + J_1 − 15). With t = R_1 = 5:
/// J_1 = 5: u = 0, W = 0, 19. J_1 = 6: u = 1, W = 1, 24; with J outside the max it would be 6. J_1 = 11: u = 6, W = 2, 29. J_1 = 16: u = 11, W = 3, 34.
/// Whole periods, t = 34 and R_1 = 21: J_1 = 60: u = 100, W = 3 + 0, 34; J_1 = 61: u = 101, W = 3 + 1, 39; J_1 = 71: u = 111, W = 3 + 3, 49.
/// The same for buses 0 and 1, where task 1 outranks task 2 by its number and by its core. At t = 0, S = 0: R_1 = 1 and J_1 = 15 give u = 1, W = 1, 4 + 2 × 5.
#[test]
fn reach_of_a_higher_task() {
    for bus in 0..3 {
        for (j, first, t, wanted) in [
            (0, 5, 5, 19),
            (5, 5, 5, 19),
            (6, 5, 5, 24),
            (10, 5, 5, 24),
            (11, 5, 5, 29),
            (16, 5, 5, 34),
            (95, 5, 5, 34),
            (60, 21, 34, 34),
            (61, 21, 34, 39),
            (71, 21, 34, 49),
            (0, 21, 34, 34),
            (14, 1, 0, 9),
            (15, 1, 0, 14),
            (100, 1, 0, 24),
        ] {
            // the J of task 2 itself is not in its sum
            for own in [0, 6, 60 - t] {
                assert_eq!(sum(&k6(bus, &[j, own]), &[first, t], 2), wanted, "bus {bus}, J {j}, times {first} {t}, own J {own}");
            }
        }
    }
}

/// Task 1 with times t and R_2 has S = 3 and 5 + (3 + W + 1) × 5, and of task 2 u = max(0, t + R_2 + J_2 − 10); on buses 0 and 1 it is the lower, and at most 3
/// of its accesses count. With t = R_2 = 5, u = J_2: W is 0 at 0, 1 at 1 to 5, 2 from 6 on. With t = 40 and R_2 = 5: J_2 = 25: u = 60, W = 2 + 0; 26: 2 + 1; 31: 2 + 2.
#[test]
fn reach_of_a_lower_task() {
    for bus in 0..3 {
        for (j, t, carried) in [(0, 5, 0), (1, 5, 1), (5, 5, 1), (6, 5, 2), (50, 5, 2), (25, 40, 2), (26, 40, 3), (31, 40, if bus == 2 { 4 } else { 3 })] {
            for own in [0, 1, 60] {
                assert_eq!(sum(&k6(bus, &[own, j]), &[t, 5], 1), 25 + 5 * carried, "bus {bus}, J {j}, t {t}, own J {own}");
            }
        }
    }
    // one slot: as many as S, that is 3
    assert_eq!(sum(&jittered(&k1(), &[0, 31]), &[40, 5], 1), 40);
    assert_eq!(sum(&jittered(&k1(), &[0, 26]), &[40, 5], 1), 40);
    assert_eq!(sum(&jittered(&k1(), &[0, 25]), &[40, 5], 1), 35);
}

/// K7, by TDMA: times 40 and 29 in three passes, whatever the jitter of the task on the other core, and late above D − J.
#[test]
fn slots_of_other_cores() {
    let k7 = with(&k1(), &[(5, 4)]);
    for jitters in [[0, 0], [1, 0], [60, 0], [0, 31], [60, 31], [25, 17]] {
        assert_eq!(page(&jittered(&k7, &jitters)), "ok 2 3\n1 1 40 100\n2 2 29 60\n");
    }
    assert_eq!(page(&jittered(&k7, &[61, 0])), "late 1 3\n");
    assert_eq!(page(&jittered(&k7, &[0, 32])), "late 2 3\n");
    // of a higher task on the core it counts: one_core on TDMA with two cores has B = 2S + 1, so that at 7 and J_1 = 3 the sum is 3 + 2 + 5, at 8 it is 3 + 4 + 7
    let same = with(&one_core(3, 0), &[(5, 4), (6, 1)]);
    assert_eq!([0, 7, 8].map(|t| sum(&same, &[4, t], 2)), [8, 10, 14]);
}

/// K1 with D_1 = 40. The passes lead to 10 and 9, then to 35 and 29: for task 2, u of task 1 is 9 + 10 + J_1 − 15, 9 where J_1 = 5 and 10 where it is 6, so that
/// two of its accesses come through at once, and the third pass changes nothing. At J_1 = 5 the time is D − J; at 6 task 1 is late, and its six numbers add up to
/// 35, above 34 and below D.
#[test]
fn late_above_d_less_j() {
    let w = |j: u32| jittered(&with(&k1(), &[(22, 40)]), &[j]);
    assert_eq!(page(&w(5)), "ok 2 3\n1 1 35 40\n2 2 29 60\n");
    assert_eq!(page(&w(6)), "late 1 3\n");
    assert_eq!(made(&w(6), 1), ([5, 0, 15, 10, 5, 0], 3));
    assert_eq!(made(&w(6), 2), ([4, 0, 10, 10, 5, 0], 3));
    let lines = "own-work 5\nhigher-work 0\ncore-accesses 15\nother-accesses 10\nblocking-access 5\nrefreshes 0\nsum 35\ndeadline 40\n";
    for (j, largest) in [(0, 40), (5, 35), (6, 34)] {
        assert_eq!(make_up_page(&bytes(&w(j)), b"1", SEVEN), format!("{lines}largest-time {largest}\nreason 3 core-accesses\n"));
    }
    // J = D leaves 0 as the largest time, and a cap of 1, at which the counts are those at 35
    assert_eq!(made(&w(40), 1).0[0..3], [5, 0, 15]);
    assert!(page(&w(40)).starts_with("late 1 "));
    assert!(make_up_page(&bytes(&w(40)), b"1", SEVEN).contains("\ndeadline 40\nlargest-time 0\nreason "));
}

/// The limit of passes that K1 needs, 4; with J_1 = 5 it needs 3.
#[test]
fn spent_by_passes() {
    for (j, limit, wanted) in [(0, 3, "spent 3\n"), (0, 4, "ok 2 4\n1 1 35 100\n2 2 29 60\n"), (5, 3, "ok 2 3\n1 1 35 100\n2 2 29 60\n"), (5, 2, "spent 2\n")] {
        assert_eq!(page(&jittered(&with(&k1(), &[(12, limit)]), &[j])), wanted);
    }
}

/// K1 has T = D, 100 and 60, and words 24 and 29 for J; with a D of 80, J from 81 to T and above is refused too.
#[test]
fn row_4() {
    for j in [0, 1, 99, 100] {
        assert_eq!(row(&jittered(&k1(), &[j])), None);
    }
    for j in [101, 102, 1 << 16, 1 << 31, u32::MAX] {
        assert_eq!(row(&jittered(&k1(), &[j])), Some((4, 24)));
        assert_eq!(row(&jittered(&k1(), &[0, j])), Some((4, 29)));
        assert_eq!(row(&jittered(&k1(), &[j, j])), Some((4, 24)));
    }
    assert_eq!((row(&jittered(&k1(), &[100, 60])), row(&jittered(&k1(), &[60, 61]))), (None, Some((4, 29))));
    let shorter = with(&k1(), &[(22, 80)]);
    assert_eq!([79, 80].map(|j| row(&jittered(&shorter, &[j]))), [None; 2]);
    assert_eq!([81, 99, 100, 101].map(|j| row(&jittered(&shorter, &[j]))), [Some((4, 24)); 4]);
    // before change 7 the word is spare
    assert_eq!(check_board(&jittered(&k1(), &[1]), Rules { level: 6 }).err(), Some(Refusal { no: 4, place: 24 }));
}

#[test]
fn row_4_among_the_others() {
    let bad = jittered(&k1(), &[101]);
    // rows 1 to 3, and the words of the task before it, come first
    assert_eq!(row(&bad[..19]), Some((1, 19)));
    for (at, x) in [(0, 9), (7, 0), (12, 0), (13, 1), (16, 1), (19, 1)] {
        assert_eq!(row(&with(&bad, &[(at, x)])), Some((2, at as u64)));
    }
    assert_eq!(row(&bad[..37]), Some((3, 38)));
    for (at, x) in [(20, 0), (20, 3), (21, 0), (21, MAX_PERIOD + 1), (22, 0), (22, 101), (23, 0), (23, 9)] {
        assert_eq!(row(&with(&bad, &[(at, x)])), Some((4, at as u64)));
    }
    // a deadline below J leaves the fault where it is; one from J on mends it, with a period of as much
    assert_eq!(row(&with(&bad, &[(22, 50)])), Some((4, 24)));
    assert_eq!(row(&with(&bad, &[(21, 101), (22, 101)])), None);
    // the words of the tasks after it, and rows 5 to 9, come later
    for (at, x) in [(25, 0), (26, 0), (27, 0), (28, 0), (29, 61), (23, 2), (30, 0), (30, 3), (32, 32_768), (35, u32::MAX)] {
        assert_eq!(row(&with(&bad, &[(at, x)])), Some((4, 24)));
    }
}

/// Caps of K1 with J_1 = 6 and J_2 = 60: 95 and 1.
#[test]
fn row_14() {
    let w = jittered(&k1(), &[6, 60]);
    let no = |times: &[u32], i: u64| weigh(&w, times, i, SEVEN).err().map(|e| (e.no, e.place));
    for (times, place) in [([96, 0], 0), ([101, 1], 0), ([0, 2], 1), ([95, 2], 1), ([96, 2], 0), ([0, 61], 1), ([u32::MAX, 0], 0)] {
        assert_eq!((no(&times, 1), no(&times, 2)), (Some((14, place)), Some((14, place))));
    }
    for times in [[95, 1], [94, 0], [0, 0], [0, 1]] {
        assert_eq!((no(&times, 1), no(&times, 2)), (None, None));
    }
    // rows 10 and 11 come first
    assert_eq!((no(&[96, 2], 0), no(&[96, 2], 3), no(&[96], 1)), (Some((10, 0)), Some((10, 3)), Some((11, 1))));
}

#[test]
fn no_jitter_is_the_old_answer() {
    let mut r = Rng(77);
    for k in 0..300 {
        let w = board_at(&mut r, 6, k);
        assert_eq!(page(&w), agree(&bytes(&w), Rules { level: 6 }), "{w:?}");
    }
}

#[test]
fn drawn_boards() {
    let mut r = Rng(707);
    for k in 0..300 {
        let mut w = board_at(&mut r, 7, k);
        page(&w);
        for _ in 0..3 {
            let list = shuffled(&mut r, w[1] as usize);
            agree_in_order(&w, &list, SEVEN);
            w[12] = r.range(1, 6);
        }
    }
}

/// A jitter more of another task lowers no sum, and one of the task itself moves none.
#[test]
fn one_more_lowers_no_sum() {
    let mut r = Rng(717);
    for k in 0..300 {
        let w = board_at(&mut r, 7, k);
        let b = check_board(&w, SEVEN).unwrap();
        let (i, k) = (r.range(1, b.n() as u32) as usize, r.range(1, b.n() as u32) as usize);
        if b.jitter(k) == b.deadline(k) {
            continue;
        }
        let more = with_word(&w, 19 + 5 * k, b.jitter(k) + r.range(1, b.deadline(k) - b.jitter(k)));
        let after = check_board(&more, SEVEN).unwrap();
        let times: Vec<u32> = (1..=b.n()).map(|h| r.range(0, after.cap(h).min(b.cap(h)))).collect();
        let (less, more) = (sum(&w, &times, i), sum(&more, &times, i));
        assert!(if i == k { less == more } else { less <= more }, "tasks {i} and {k}, times {times:?}: {w:?}");
    }
}
