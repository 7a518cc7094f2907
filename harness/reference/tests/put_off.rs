//! Change 3: K8 with refreshes put off, and the count at time 0, by hand; none put off = the old answers; `literal` = `plain` = `fast`, in order
//! too; what one refresh more adds to a sum; word 16.
mod common;
use common::*;
use oracle::board::*;
use oracle::fast;
use oracle::generate::*;
use oracle::literal::*;

const THREE: Rules = Rules { level: 3 };

/// K8 with p refreshes put off.
fn k8(p: u32) -> Vec<u32> {
    with(&k1(), &[(5, 4), (8, 2), (9, 20), (10, 1), (11, 3), (16, p)])
}

/// TDMA, two cores, one slot each, d = 5; Tr = 20, one row, dr = 3. Within one period of task 1 at t > 0, S = MD = 3 and
/// B = 3 + 1 × 1 × 3 + 1 = 7, so that its sum is 5 + 7 × 5 + 3 × min(7, ceil(t/20) + p). Of task 2, S = 2 and B = 5: 4 + 5 × 5 + 3 × min(5, ceil(t/20) + p).
/// At t = 0, S = 0 and B = 1: 5 + 5 + 3 × min(1, p) and 4 + 5 + 3 × min(1, p).
///
/// p = 0: 10, 40 + 3 × 1 = 43, 40 + 3 × 3 = 49, 49; 9, 29 + 3 × 1 = 32, 29 + 3 × 2 = 35, 35
/// p = 1: 13, 40 + 3 × 2 = 46, 40 + 3 × 4 = 52, 52; 12, 29 + 3 × 2 = 35, 29 + 3 × 3 = 38, 38
/// p = 2: 13, 40 + 3 × 3 = 49, 40 + 3 × 5 = 55, 55; 12, 29 + 3 × 3 = 38, 29 + 3 × 4 = 41, 29 + 3 × 5 = 44, 44
/// p = 3: 13, 40 + 3 × 4 = 52, 40 + 3 × 6 = 58, 58; 12, 29 + 3 × 4 = 41, 29 + 3 × 5 = 44 (B is 5), 44
/// p = 4: 13, 40 + 3 × 5 = 55, 40 + 3 × 7 = 61, 61 (B is 7); 12, 29 + 3 × 5 = 44, 44
/// p = 5: 13, 40 + 3 × 6 = 58, 40 + 3 × 7 = 61, 61; 12, 44, 44
/// p = 6 and more: 13, 40 + 3 × 7 = 61, 61; 12, 44, 44
const CHAINS: [(&[u32], &[u32]); 9] = [
    (&[0, 10, 43, 49], &[0, 9, 32, 35]),
    (&[0, 13, 46, 52], &[0, 12, 35, 38]),
    (&[0, 13, 49, 55], &[0, 12, 38, 41, 44]),
    (&[0, 13, 52, 58], &[0, 12, 41, 44]),
    (&[0, 13, 55, 61], &[0, 12, 44]),
    (&[0, 13, 58, 61], &[0, 12, 44]),
    (&[0, 13, 61], &[0, 12, 44]),
    (&[0, 13, 61], &[0, 12, 44]),
    (&[0, 13, 61], &[0, 12, 44]),
];

#[test]
fn k8_by_hand() {
    for (p, (one, two)) in CHAINS.iter().enumerate() {
        let w = k8(p as u32);
        // the pass that changes nothing is the one after the last that changes a time
        let passes = one.len().max(two.len());
        let (first, second) = (one[one.len() - 1], two[two.len() - 1]);
        let page = format!("ok 2 {passes}\n1 1 {first} 100\n2 2 {second} 60\n");
        assert_eq!(agree(&bytes(&w), THREE), page);
        for (i, chain) in [(1, one), (2, two)] {
            let b = check_board(&w, THREE).unwrap();
            for (k, &t) in chain.iter().enumerate() {
                let next = chain[(k + 1).min(chain.len() - 1)] as u64;
                let times = if i == 1 { [t, 7] } else { [7, t] };
                assert_eq!(weigh(&w, &times, i, THREE), Ok(next));
                assert_eq!(fast::weigh(&b, &times, i as usize), next);
            }
        }
    }
}

/// K8 on the FIFO bus. With t = 0 and R_1 = 100, task 2 has S = 0, u = 100 − 3 × 5 = 85 and W = min(3, 17) = 3, so that B = 4 and its sum is
/// 4 + 4 × 5 + 3 × min(4, p).
#[test]
fn at_time_0() {
    for p in 0..=MOST_PUT_OFF {
        let w = with(&k8(p), &[(5, 2), (6, 0)]);
        let sum = 24 + 3 * p.min(4) as u64;
        assert_eq!(weigh(&w, &[100, 0], 2, THREE), Ok(sum));
        assert_eq!(fast::weigh(&check_board(&w, THREE).unwrap(), &[100, 0], 2), sum);
    }
}

/// K8 with p = 1 has times 52 and 38 in 4 passes, with p = 2 times 55 and 44 in 5.
#[test]
fn at_deadline_and_limit() {
    let page = |p: u32, set: &[(usize, u32)]| agree(&bytes(&with(&k8(p), set)), THREE);
    assert_eq!(page(1, &[(22, 52), (27, 38)]), "ok 2 4\n1 1 52 52\n2 2 38 38\n");
    assert_eq!(page(1, &[(22, 51)]), "late 1 4\n");
    assert_eq!(page(1, &[(27, 37)]), "late 2 4\n");
    assert_eq!(page(2, &[(22, 52)]), "late 1 5\n");
    assert_eq!(page(1, &[(12, 4)]), "ok 2 4\n1 1 52 100\n2 2 38 60\n");
    assert_eq!(page(2, &[(12, 4)]), "spent 4\n");
    assert_eq!(page(6, &[(12, 3)]), "ok 2 3\n1 1 61 100\n2 2 44 60\n");
    assert_eq!(page(5, &[(12, 3)]), "spent 3\n");
}

#[test]
fn none_put_off_is_the_old_count() {
    let mut r = Rng(33);
    for k in 0..300 {
        let w = board_at(&mut r, 2, k);
        assert_eq!(agree(&bytes(&w), THREE), agree(&bytes(&w), Rules { level: 2 }), "{w:?}");
    }
}

/// A board with distributed refresh at level 3, with p > 0.
fn drawn(r: &mut Rng, k: u32) -> Vec<u32> {
    let (memory, bus) = (r.range(0, 2), r.range(0, 4));
    let mut s = shape(r, 3, memory, bus, 2);
    s.tasks = s.tasks.min(12);
    let w = if k % 3 == 2 { wild_board(r, s) } else { tuned_board(r, s, k % 3 == 0) };
    with_put_off(&w, 1 + k % MOST_PUT_OFF)
}

#[test]
fn drawn_boards() {
    let mut r = Rng(303);
    for k in 0..300 {
        let mut w = drawn(&mut r, k);
        agree(&bytes(&w), THREE);
        for _ in 0..3 {
            let list = shuffled(&mut r, w[1] as usize);
            agree_in_order(&w, &list, THREE);
            w[12] = r.range(1, 6);
        }
    }
}

/// A refresh more that is put off adds dr to a sum, until the count is B, and then nothing.
#[test]
fn one_more_adds_dr_up_to_b() {
    let mut r = Rng(404);
    for k in 0..200 {
        let w = drawn(&mut r, k);
        let b = check_board(&w, THREE).unwrap();
        let times: Vec<u32> = (1..=b.n()).map(|i| if r.chance(20) { 0 } else { r.range(0, b.cap(i)) }).collect();
        let i = r.range(1, b.n() as u32) as usize;
        let sum = |p: u32| {
            let v = with_put_off(&w, p);
            let sum = weigh(&v, &times, i as u64, THREE).unwrap();
            assert_eq!(fast::weigh(&check_board(&v, THREE).unwrap(), &times, i), sum);
            sum
        };
        let exact: Vec<Nat> = times.iter().map(|&t| t as Nat).collect();
        let count = Model::new(b).bus_count(&exact, i);
        let due = (exact[i - 1] * w[10] as Nat).div_ceil(w[9] as Nat);
        for p in 0..MOST_PUT_OFF {
            let more = if due + (p as Nat) < count { w[11] as u64 } else { 0 };
            assert_eq!(sum(p + 1), sum(p) + more, "p {p}, times {times:?}, task {i}: {w:?}");
        }
    }
}

#[test]
fn word_16() {
    let row = |w: &[u32], set: &[(usize, u32)], level: u32| check_board(&with(w, set), Rules { level }).err().map(|e| (e.no, e.place));
    let forms = [with(&k8(0), &[(8, 0), (9, 0), (10, 0), (11, 0)]), with(&k8(0), &[(8, 1)]), k8(0)];
    for x in (0..300).chain([1 << 16, 1 << 31, u32::MAX]) {
        for (form, w) in forms.iter().enumerate() {
            let most = if form == 2 { MOST_PUT_OFF } else { 0 };
            assert_eq!(row(w, &[(16, x)], 3), if x <= most { None } else { Some((2, 16)) });
            assert_eq!(row(w, &[(16, x)], 2), if x == 0 { None } else { Some((2, 16)) });
        }
        assert_eq!(row(&forms[2], &[(8, 3), (16, x)], 3), Some((2, 8)));
    }
    // the words before it are named first, those after it and the rows after 2 later
    let bad = with(&forms[2], &[(16, 9)]);
    for (at, x) in [(9, 0), (10, 0), (11, 256), (12, 0), (13, 1), (14, 1), (15, 1)] {
        assert_eq!(row(&bad, &[(at, x)], 3), Some((2, at as u64)));
    }
    for (at, x) in [(17, 1), (18, 1), (19, 1), (20, 0), (30, 0), (32, 32_768), (35, u32::MAX)] {
        assert_eq!(row(&bad, &[(at, x)], 3), Some((2, 16)));
    }
    assert_eq!(check_board(&bad[..37], THREE).err().map(|e| (e.no, e.place)), Some((2, 16)));
}
