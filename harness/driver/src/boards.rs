//! Boards for the commands: random ones of every kind, extreme ones, damaged ones.
use crate::RULES;
use oracle::board::{MAX_PERIOD, MOST_PUT_OFF};
use oracle::generate::*;

pub fn bytes_of(words: &[u32]) -> Vec<u8> {
    words.iter().flat_map(|w| w.to_le_bytes()).collect()
}

/// The words of a whole number of words.
pub fn words_of(bytes: &[u8]) -> Option<Vec<u32>> {
    if bytes.len() % 4 != 0 {
        return None;
    }
    Some(bytes.chunks_exact(4).map(|c| u32::from_le_bytes([c[0], c[1], c[2], c[3]])).collect())
}

/// A board that climbs, with the refreshes of the largest boards, eight of them put off.
pub fn climbing_put_off(bus: u32) -> Vec<u32> {
    let mut w = climbing_board(64, 8, 20_000, bus, 1_000_000);
    w[8..12].copy_from_slice(&REFRESH_OF_LARGEST);
    with_put_off(&w, MOST_PUT_OFF)
}

/// A random board; the number picks bus, memory and refresh form in turn.
pub fn random(r: &mut Rng, number: usize) -> Vec<u32> {
    let (bus, memory, refresh) = (number as u32 % 5, number as u32 / 5 % 4, number as u32 / 20 % 3);
    let mut s = shape(r, RULES.level, memory, bus, refresh);
    if s.tasks > 24 && !r.chance(10) {
        s.tasks = 1 + s.tasks % 24;
    }
    let mut w = match number / 60 % 4 {
        0 | 1 => tuned_board(r, s, true),
        2 => tuned_board(r, s, false),
        _ => wild_board(r, s),
    };
    // mostly a limit of its own size, so that spent boards and boards at their limit occur
    if r.chance(40) {
        w[12] = r.range(1, 12);
    }
    w
}

/// The board with a number of ways that it cannot have.
pub fn without_ways(r: &mut Rng, w: &[u32]) -> Vec<u32> {
    with_ways(w, if w[4] >= 2 { r.pick(&NO_WAYS) } else { r.pick(&WAYS[1..]) })
}

/// The board in two caches, one of which has a number of sets that it cannot have; or with data sets and one cache, or none.
pub fn without_sets(r: &mut Rng, w: &[u32]) -> Vec<u32> {
    let memory = r.pick(&[0, 2, 3, 3]);
    let [mut code, mut data] = [(); 2].map(|_| r.pick(&[1, 2, 255, 256]));
    match memory {
        0 => (code, data) = r.pick(&[(1, 0), (0, 1), (256, 256)]),
        2 => {}
        _ if r.chance(50) => code = r.pick(&NO_SETS),
        _ => data = r.pick(&NO_SETS),
    }
    let mut v = w.to_vec();
    (v[4], v[13], v[14]) = (memory, code, data);
    v
}

/// The board with a number of refreshes put off that it cannot have.
pub fn without_putting_off(r: &mut Rng, w: &[u32]) -> Vec<u32> {
    let p = if w[8] == 2 { r.pick(&[MOST_PUT_OFF + 1, 16, u32::MAX]) } else { r.range(1, MOST_PUT_OFF) };
    with_put_off(w, p)
}

/// The board with a jitter above the deadline of a task.
pub fn above_deadline(r: &mut Rng, w: &[u32]) -> Vec<u32> {
    let at = 20 + 5 * r.range(0, w[1] - 1) as usize;
    let (period, above) = (w[at + 1], w[at + 2] + 1);
    with_word(w, at + 4, r.pick(&[above, period.max(above), period + 1, u32::MAX]))
}

/// One trace a task, long ones over many blocks, in one cache and in two, of few and of many sets, all of them of so many ways.
pub fn long_traces(seed: u64, ways: u32) -> [Vec<u32>; 6] {
    [(2, 16, 0), (2, 256, 0), (3, 16, 16), (3, 16, 256), (3, 256, 16), (3, 256, 256)].map(|(memory, code, data)| {
        let mut w = trace_heavy_board(seed, 8, 2, memory, ways, 100);
        (w[13], w[14]) = (code, data);
        w
    })
}

/// Numbers of sets at the ends of their range, and on both sides of a word of 64 bits.
const SETS_AT_ENDS: [u32; 6] = [1, 2, 64, 65, 255, 256];

/// Boards at the ends of every range.
pub fn extreme(r: &mut Rng) -> Vec<u32> {
    let cores = r.pick(&[1u32, 2, 8]);
    let n = r.pick(&[1u32, 2, 8, 9, 16, 64]);
    let (bus, memory, refresh) = (r.range(0, 4), r.range(0, 3), r.range(0, 2));
    let most = ((16_384 - 20 - 6 * n) / 2 / n).min(1024);
    let len = if r.chance(5) { most } else { r.range(1, most.min(30)) };
    let mut w = vec![0u32; 20];
    (w[0], w[1], w[2], w[3], w[4], w[5]) = (cores, n, n, n * len, memory, bus);
    w[6] = if bus >= 3 { r.pick(&[1, 8]) } else { 0 };
    w[7] = r.pick(&[1, 255]);
    w[8] = refresh;
    if refresh != 0 {
        (w[9], w[10], w[11]) = (r.pick(&[1, MAX_PERIOD]), r.pick(&[1, 65_535]), r.pick(&[0, 255]));
    }
    if refresh == 2 {
        w[16] = r.pick(&[0, 1, MOST_PUT_OFF]);
    }
    w[12] = r.pick(&[1, 2, 5, 40]);
    match memory {
        0 => {}
        1 => (w[13], w[14]) = r.pick(&[(0, 0), (32_768, 32_768), (32_767, 32_767)]),
        _ => (w[13], w[15]) = (r.pick(&SETS_AT_ENDS), r.pick(&WAYS)),
    }
    if memory == 3 {
        w[14] = r.pick(&SETS_AT_ENDS);
    }
    for _ in 0..n {
        let t = r.pick(&[1, 2, MAX_PERIOD - 1, MAX_PERIOD]);
        let d = if r.chance(70) { t } else { r.range(1, t) };
        let core = if r.chance(60) { r.pick(&[1, cores]) } else { r.range(1, cores) };
        let j = if r.chance(60) { 0 } else { r.pick(&[1, d / 2, d - 1, d]) };
        w.extend([core, t, d, 1, j]);
    }
    w.extend(vec![len; n as usize]);
    let span = r.pick(&[1u32, 300, 32_767]);
    for _ in 0..n * len {
        w.push(r.range(0, span));
    }
    for _ in 0..n * len {
        let kind = r.range(0, 2);
        let block = if kind == 0 { 0 } else { 32_768 + r.range(0, span) };
        w.push((kind << 28) | (r.pick(&[0, 1, 4095]) << 16) | block);
    }
    w
}
