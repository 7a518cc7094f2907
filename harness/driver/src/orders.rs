//! Lists of task numbers for the commands: orders of the n tasks of a board, and lists that are none.
use oracle::generate::*;

pub fn ascending(n: usize) -> Vec<u32> {
    (1..=n as u32).collect()
}

pub fn descending(n: usize) -> Vec<u32> {
    (1..=n as u32).rev().collect()
}

/// The tasks core by core, those of a core ascending; a damaged board may not have all of their words.
pub fn core_by_core(w: &[u32], n: usize) -> Vec<u32> {
    let mut list = ascending(n);
    list.sort_by_key(|&i| w.get(15 + 5 * i as usize));
    list
}

/// An order of the tasks, mostly a random one.
pub fn right(r: &mut Rng, w: &[u32], n: usize) -> Vec<u32> {
    match r.range(0, 9) {
        0 => ascending(n),
        1 => descending(n),
        2 => core_by_core(w, n),
        _ => shuffled(r, n),
    }
}

/// Mostly an order of the tasks; at times with a fault, or with several.
pub fn any(r: &mut Rng, w: &[u32], n: usize) -> Vec<u32> {
    let mut list = right(r, w, n);
    for _ in 0..r.pick(&[0, 0, 0, 0, 0, 1, 1, 1, 2, 3]) {
        damage(r, &mut list, n as u32);
    }
    list
}

/// Makes a list one too short or too long or empty, or puts a number that is no task's, or another one of the list, at a place.
fn damage(r: &mut Rng, list: &mut Vec<u32>, n: u32) {
    match r.range(0, 7) {
        0 => {
            list.pop();
        }
        1 => list.push(r.range(1, n + 1)),
        2 => list.clear(),
        3..=5 if !list.is_empty() => {
            let at = place(r, list);
            list[at] = r.pick(&[0, n + 1, u32::MAX]);
        }
        _ if list.len() > 1 => {
            let (at, step) = (place(r, list), r.range(1, list.len() as u32 - 1) as usize);
            list[at] = list[(at + step) % list.len()];
        }
        _ => {}
    }
}

fn place(r: &mut Rng, list: &[u32]) -> usize {
    r.range(0, list.len() as u32 - 1) as usize
}
