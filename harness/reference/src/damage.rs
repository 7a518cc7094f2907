//! Boards with faults: copies of a valid board with a byte too many or too few, and with words at and past the ends of their ranges.
use crate::board::{MAX_PERIOD, MOST_PUT_OFF};
use crate::generate::{last_memory, with_put_off, with_word, Rng};

/// The same board with this form of refresh, and words 9 to 11 that fit it.
fn with_refresh(w: &[u32], form: u32) -> Vec<u32> {
    let mut v = with_word(w, 8, form);
    for x in &mut v[9..12] {
        *x = if form == 0 { 0 } else { (*x).max(1) };
    }
    v
}

/// Word 16 at and past the ends of its range, with the forms of refresh that the board does not have.
fn put_off_in_other_forms(w: &[u32]) -> Vec<(String, Vec<u32>)> {
    let mut out = vec![];
    for form in (0..3).filter(|&form| form != w[8]) {
        for p in [0, 1, MOST_PUT_OFF, MOST_PUT_OFF + 1, u32::MAX] {
            out.push((format!("h8_{form}_h16_{p}"), with_put_off(&with_refresh(w, form), p)));
        }
    }
    out
}

/// Words 13 and 14 at and past the ends of their ranges, with every kind of memory and with one that there is not.
fn sets_in_every_memory(w: &[u32], level: u32) -> Vec<(String, Vec<u32>)> {
    let mut out = vec![];
    for memory in 0..=last_memory(level) + 1 {
        for code in [0, 1, 256, 257] {
            for data in [0, 1, 256, 257] {
                let mut v = w.to_vec();
                (v[4], v[13], v[14]) = (memory, code, data);
                out.push((format!("h4_{memory}_h13_{code}_h14_{data}"), v));
            }
        }
    }
    out
}

/// J one below the deadline, at and past the period, and the largest word; those around the deadline are there at every level.
fn jitters_at_ends(w: &[u32]) -> Vec<(String, Vec<u32>)> {
    let (n, mut out) = (w[1] as usize, vec![]);
    for t in [0, n / 2, n - 1] {
        let at = 20 + 5 * t;
        let (period, deadline) = (w[at + 1], w[at + 2]);
        for j in [deadline - 1, period, period + 1, u32::MAX] {
            out.push((format!("t{t}_4_{j}"), with_word(w, at + 4, j)));
        }
    }
    out
}

/// Damaged copies of a valid board: (name, bytes).
pub fn damaged(r: &mut Rng, w: &[u32], level: u32) -> Vec<(String, Vec<u8>)> {
    let mut out: Vec<(String, Vec<u8>)> = vec![];
    let bytes = |w: &[u32]| w.iter().flat_map(|x| x.to_le_bytes()).collect::<Vec<u8>>();
    let mut put = |name: String, v: &[u32]| out.push((name, bytes(v)));
    let (n, q, g) = (w[1] as usize, w[2] as usize, w[3] as usize);
    let set = |at: usize, x: u32| with_word(w, at, x);
    // header: values at and beyond each limit; before change 2 a word 15 of 6 is refused as others are
    let ways: &[u32] = if level >= 2 { &[0, 1, 2, 3, 4, 5, 6, 7, 8, 9, 16] } else { &[0, 1, 2, 3, 4, 5, 7, 8, 9, 16] };
    let limits: [&[u32]; 20] = [
        &[0, 1, 8, 9],
        &[0, 1, 64, 65],
        &[0, 1, 512, 513],
        &[0, 1, 8192, 8193],
        &[0, 2, 3, 4],
        &[0, 4, 5],
        &[0, 1, 8, 9],
        &[0, 1, 255, 256],
        &[0, 1, 2, 3],
        &[0, 1, 268_435_455, 268_435_456],
        &[0, 1, 65_535, 65_536],
        &[0, 255, 256],
        &[0, 1, u32::MAX],
        &[0, 1, 256, 257, 32_768, 32_769],
        &[0, 1, 256, 257, 32_768, 32_769],
        ways,
        &[0, 1, 8, 9],
        &[0, 1, 0x8888_8888, 0x1111_1111, 0x9, 0x11, 0x10],
        &[0, 1],
        &[0, 1],
    ];
    for (i, l) in limits.iter().enumerate() {
        for &x in l.iter().chain(&[u32::MAX]) {
            if w[i] != x {
                put(format!("h{i}_{x}"), &set(i, x));
            }
        }
    }
    if level >= 3 {
        for (name, v) in put_off_in_other_forms(w) {
            put(name, &v);
        }
    }
    if level >= 4 {
        for (name, v) in sets_in_every_memory(w, level) {
            put(name, &v);
        }
    }
    if level >= 7 {
        for (name, v) in jitters_at_ends(w) {
            put(name, &v);
        }
    }
    // length
    put("short0".into(), &[]);
    put("short19".into(), &w[..19]);
    put("short20".into(), &w[..20]);
    put("short1".into(), &w[..w.len() - 1]);
    let mut v = w.to_vec();
    v.push(0);
    put("long1".into(), &v);
    v.resize(16_384, 0);
    put("long16384".into(), &v);
    // task words
    for t in [0, n / 2, n - 1] {
        let at = 20 + 5 * t;
        let (tt, d) = (w[at + 1], w[at + 2]);
        for (f, x) in [
            (0, 0),
            (0, w[0] + 1),
            (0, w[0]),
            (1, 0),
            (1, MAX_PERIOD),
            (1, MAX_PERIOD + 1),
            (1, d.saturating_sub(1)),
            (2, 0),
            (2, tt),
            (2, tt + 1),
            (3, 0),
            (3, 8),
            (3, 9),
            (3, if w[at + 3] == 8 { 7 } else { w[at + 3] + 1 }),
            (4, 1),
            (4, d),
            (4, d + 1),
        ] {
            put(format!("t{t}_{f}_{x}"), &set(at + f, x));
        }
    }
    let lengths = 20 + 5 * n;
    for j in [0, q - 1] {
        let at = lengths + j;
        for x in [0, 1024, 1025, w[at] + 1, u32::MAX] {
            put(format!("l{j}_{x}"), &set(at, x));
        }
    }
    let fetches = lengths + q;
    for j in [0, g - 1] {
        for x in [32_767, 32_768, u32::MAX] {
            put(format!("f{j}_{x}"), &set(fetches + j, x));
        }
        for x in [0u32, 1, 32_767, 32_768, 65_535, 1 << 28, (1 << 28) + 32_767, (1 << 28) + 32_768, (2 << 28) + 32_767, (2 << 28) + 65_535, 2 << 28, 3 << 28, (3 << 28) + 32_768, u32::MAX, 0x0fff_0000, 0x0fff_ffff, 0x1fff_ffff, 0x2fff_ffff] {
            put(format!("w{j}_{x}"), &set(fetches + g + j, x));
        }
    }
    // several faults at once: the first row, and within a row the first index, wins
    for k in 0..12 {
        let mut v = w.to_vec();
        for _ in 0..r.range(2, 4) {
            let at = match r.range(0, 5) {
                0 => r.range(0, 19) as usize,
                1 => r.range(20, 20 + 5 * n as u32 - 1) as usize,
                2 => lengths + r.range(0, q as u32 - 1) as usize,
                3 => fetches + r.range(0, g as u32 - 1) as usize,
                _ => fetches + g + r.range(0, g as u32 - 1) as usize,
            };
            v[at] = r.pick(&[0, u32::MAX, 32_768, 9, 65_536, 1 << 31]);
        }
        if r.chance(20) {
            v.pop();
        }
        put(format!("many{k}"), &v);
    }
    // bytes
    let b = bytes(w);
    for cut in 1..4 {
        out.push((format!("cut{cut}"), b[..b.len() - cut].to_vec()));
    }
    for size in [1usize, 65_535, 65_536, 65_537, 65_538, 65_540, 70_000] {
        let mut v = b.clone();
        v.resize(size, 0);
        out.push((format!("size{size}"), v));
    }
    out
}
