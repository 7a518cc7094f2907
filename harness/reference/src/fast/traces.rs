//! Figures and overheads, in one walk over the traces for each.
use super::{Reciprocal, CORES, N};
use crate::board::Board;
use crate::literal::Figure;

/// Figures and flags of the traces.  flag bits of instruction `at`:
/// 1 fetch hits, 2 the fetched block's next fetch or read hits, 4 and 8 the same for a read.
pub struct Tables {
    flags: Vec<u8>, // one allocation a call, none in passes
    pub gamma: [u16; N * N],
}

/// Figures and the gamma table ([i * 64 + j], tasks from 0).
pub fn tables(b: &Board, table: &mut [Figure]) -> Tables {
    let mut t = Tables { flags: vec![0; b.g()], gamma: [0; N * N] };
    figures_and_flags(b, table, &mut t.flags);
    overheads(b, table, &t.flags, &mut t.gamma);
    t
}

/// Cache state of one trace: per set the held blocks, newest first.
struct Lines {
    block: [u32; 2 * 256 * 8],
    at: [u32; 2 * 256 * 8], // instruction of the last fetch or read, and which in bit 31
    used: [u8; 512],
}

#[inline(always)]
fn touch(l: &mut Lines, ways: usize, set: usize, block: u32, tag: u32) -> Option<u32> {
    let base = set * ways;
    let used = l.used[set] as usize;
    let mut at = 0;
    while at < used && l.block[base + at] != block {
        at += 1;
    }
    let hit = at < used;
    let before = if hit { l.at[base + at] } else { 0 };
    let end = if hit {
        at
    } else if used < ways {
        l.used[set] += 1;
        used
    } else {
        ways - 1
    };
    let mut k = end;
    while k > 0 {
        l.block[base + k] = l.block[base + k - 1];
        l.at[base + k] = l.at[base + k - 1];
        k -= 1;
    }
    l.block[base] = block;
    l.at[base] = tag;
    if hit {
        Some(before)
    } else {
        None
    }
}

/// Set of every block without a division: c and the reciprocal.
#[derive(Clone, Copy)]
struct Sets {
    c: u32,
    r: Reciprocal,
}
impl Sets {
    fn new(c: u32) -> Sets {
        Sets { c, r: Reciprocal::new(c.max(1)) }
    }
    #[inline(always)]
    fn of(&self, m: u32) -> usize {
        (m - self.r.floor(m) * self.c) as usize
    }
}

/// Fills table and flags.
fn figures_and_flags(b: &Board, table: &mut [Figure], flags: &mut [u8]) {
    let w = b.w;
    let (n, q, g) = (b.n(), b.q(), b.g());
    let fetches = &w[20 + 5 * n + q..20 + 5 * n + q + g];
    let works = &w[20 + 5 * n + q + g..];
    let memory = b.memory();
    let ways = b.ways();
    let code = Sets::new(w[13]);
    let data = if memory == 3 { Sets::new(w[14]) } else { code };
    let shift = if memory == 3 { 256 } else { 0 };
    let mut lines = Lines { block: [0; 4096], at: [0; 4096], used: [0; 512] };
    let mut trace = 20 + 5 * n;
    let mut start = 0;
    for i in 0..n {
        let t = &w[20 + 5 * i..25 + 5 * i];
        let mut f = Figure { core: t[0], period: t[1], deadline: t[2], ..Default::default() };
        for _ in 0..t[3] {
            let len = w[trace] as usize;
            trace += 1;
            let mut pd = 0;
            let mut md = 0;
            let fs = &fetches[start..start + len];
            let ws = &works[start..start + len];
            match memory {
                0 => {
                    for &x in ws {
                        pd += x >> 16 & 0xfff;
                        md += 1 + (x >> 28 != 0) as u32;
                    }
                }
                1 => {
                    for (&m, &x) in fs.iter().zip(ws) {
                        pd += x >> 16 & 0xfff;
                        md += (m >= w[13]) as u32;
                        let kind = x >> 28;
                        md += (kind == 2 || (kind == 1 && (x & 0xffff) >= 32_768 + w[14])) as u32;
                    }
                }
                _ => {
                    lines.used = [0; 512];
                    let fl = &mut flags[start..start + len];
                    for p in 0..len {
                        let (m, x) = (fs[p], ws[p]);
                        pd += x >> 16 & 0xfff;
                        let s = code.of(m);
                        f.ecb[s >> 6] |= 1 << (s & 63);
                        let mut bits = 0;
                        match touch(&mut lines, ways, s, m, p as u32) {
                            Some(at) => {
                                bits |= 1;
                                fl[(at & 0xffff) as usize] |= 2;
                            }
                            None => md += 1,
                        }
                        let kind = x >> 28;
                        if kind != 0 {
                            let m = x & 0xffff;
                            let s = data.of(m);
                            let ecb = if shift == 0 { &mut f.ecb } else { &mut f.ecb_data };
                            ecb[s >> 6] |= 1 << (s & 63);
                            if kind == 2 {
                                md += 1;
                            } else {
                                match touch(&mut lines, ways, shift + s, m, p as u32) {
                                    Some(at) => {
                                        bits |= 4;
                                        fl[(at & 0xffff) as usize] |= 8;
                                    }
                                    None => md += 1,
                                }
                            }
                        }
                        // A block's own last access is never in this instruction, so plain or is right.
                        fl[p] |= bits;
                    }
                }
            }
            f.pd = f.pd.max(pd);
            f.md = f.md.max(md);
            start += len;
        }
        table[i] = f;
    }
}

/// gamma(i, j) at [i * N + j], tasks from 0.
fn overheads(b: &Board, table: &[Figure], flags: &[u8], gamma: &mut [u16; N * N]) {
    gamma.fill(0);
    if b.memory() < 2 {
        return;
    }
    let w = b.w;
    let (n, q, g) = (b.n(), b.q(), b.g());
    let fetches = &w[20 + 5 * n + q..20 + 5 * n + q + g];
    let works = &w[20 + 5 * n + q + g..];
    let code = Sets::new(w[13]);
    let split = b.memory() == 3;
    let data = if split { Sets::new(w[14]) } else { code };
    let shift = if split { 256 } else { 0 };
    // first[core][set]: position on the core of the first task with the set in its ECB
    let mut first = [[255u8; 512]; CORES];
    let mut on_core = [[0u8; N]; CORES];
    let mut many = [0usize; CORES];
    let mut trace = 20 + 5 * n;
    let mut start = 0;
    for k in 0..n {
        let x = table[k].core as usize - 1;
        let pos = many[x];
        let end_trace = trace + w[20 + 5 * k + 3] as usize;
        let mut best = [0u16; N];
        while trace < end_trace {
            let len = w[trace] as usize;
            trace += 1;
            if pos > 0 {
                sweep(
                    &fetches[start..start + len],
                    &works[start..start + len],
                    &flags[start..start + len],
                    code,
                    data,
                    shift,
                    &first[x],
                    &mut best[..pos],
                );
            }
            start += len;
        }
        for p in 0..pos {
            gamma[k * N + on_core[x][p] as usize] = best[p];
        }
        for c in 0..4 {
            let mut e = table[k].ecb[c];
            while e != 0 {
                let s = c * 64 + e.trailing_zeros() as usize;
                first[x][s] = first[x][s].min(pos as u8);
                e &= e - 1;
            }
            let mut e = table[k].ecb_data[c];
            while e != 0 {
                let s = 256 + c * 64 + e.trailing_zeros() as usize;
                first[x][s] = first[x][s].min(pos as u8);
                e &= e - 1;
            }
        }
        on_core[x][pos] = k as u8;
        many[x] = pos + 1;
    }
    // largest over j < k <= i
    for i in 1..n {
        for j in 0..n {
            let above = gamma[(i - 1) * N + j];
            let here = &mut gamma[i * N + j];
            *here = (*here).max(above);
        }
    }
}

/// best[j] = the most useful blocks at a point whose set is in the union up to position j.
fn sweep(fs: &[u32], ws: &[u32], fl: &[u8], code: Sets, data: Sets, shift: usize, first: &[u8; 512], best: &mut [u16]) {
    let pos = best.len();
    let mut part = [0i16; N]; // useful blocks whose set joined the union at this position
    let mut total = 0i16;
    for p in 0..fs.len() {
        let flag = fl[p];
        let mut grew = false;
        // 1 hits, 2 next hits: the block's state changes where they differ
        let fetch = (flag >> 1 & 1) as i16 - (flag & 1) as i16;
        if fetch != 0 {
            let at = first[code.of(fs[p])] as usize;
            if at < pos {
                part[at] += fetch;
                total += fetch;
                grew |= fetch > 0;
            }
        }
        let read = (flag >> 3 & 1) as i16 - (flag >> 2 & 1) as i16;
        if read != 0 {
            let at = first[shift + data.of(ws[p] & 0xffff)] as usize;
            if at < pos {
                part[at] += read;
                total += read;
                grew |= read > 0;
            }
        }
        if grew {
            let mut sum = 0i16;
            for j in 0..pos {
                if best[j] as i16 >= total {
                    break;
                }
                sum += part[j];
                if sum as u16 > best[j] {
                    best[j] = sum as u16;
                }
            }
        }
    }
}
