//! Change 1: plain = fast = changes in any order, on generated boards of every level; K1 in both of its orders.
mod common;
use common::agree_in_order;
use oracle::board::*;
use oracle::generate::*;
use oracle::literal::Answer;

#[test]
fn all_levels() {
    let mut r = Rng(1616);
    for level in 0..=14 {
        for k in 0..60 {
            let mut w = board_at(&mut r, level, k);
            for _ in 0..3 {
                let list = shuffled(&mut r, w[1] as usize);
                agree_in_order(&w, &list, Rules { level });
                w[12] = r.range(1, 6);
            }
        }
    }
}

#[test]
fn many_passes() {
    let mut r = Rng(61);
    for _ in 0..20 {
        let w = many_passes_board(&mut r, 1, 10);
        let list = shuffled(&mut r, w[1] as usize);
        agree_in_order(&w, &list, Rules { level: 1 });
    }
}

#[test]
fn refused_lists() {
    let w = long_times_board(10, 3);
    for (list, place) in [
        (&[][..], 0),
        (&[1], 1),
        (&[1, 2, 2], 3),
        (&[0, 2], 0),
        (&[3, 2], 0),
        (&[2, 3], 1),
        (&[2, u32::MAX], 1),
        (&[2, 2], 1),
        (&[0, 0], 0),
    ] {
        assert_eq!(agree_in_order(&w, list, Rules { level: 1 }), Answer::Refused(Refusal { no: 16, place }));
    }
    assert_eq!(agree_in_order(&w[..19], &[], Rules { level: 1 }), Answer::Refused(Refusal { no: 1, place: 19 }));
}

/// Analyse needs four passes; each order has its own number, and may have times where Analyse is spent.
#[test]
fn k1_in_both_orders() {
    let mut w = k1();
    let rules = Rules { level: 1 };
    assert_eq!(agree_in_order(&w, &[1, 2], rules), Answer::Times { passes: 3 });
    assert_eq!(agree_in_order(&w, &[2, 1], rules), Answer::Times { passes: 4 });
    w[12] = 3;
    assert_eq!(quick(&w, 1), Answer::Spent);
    assert_eq!(agree_in_order(&w, &[1, 2], rules), Answer::Times { passes: 3 });
    assert_eq!(agree_in_order(&w, &[2, 1], rules), Answer::Spent);
}
