//! Arguments for the program `makeup`: mostly the number of a task of the board, at times one that is no task's, or no number.
use oracle::generate::Rng;

/// Numbers around 2^32 and 2^64, some of which are a task's where they are taken modulo these.
const LARGE: [&str; 7] = [
    "4294967296", "4294967297", "18446744073709551614", "18446744073709551615", "18446744073709551616", "18446744073709551617",
    "340282366920938463463374607431768211457",
];

/// The arguments of one run for a board of n tasks, of which the program takes the first.
pub fn any(r: &mut Rng, n: usize) -> Vec<Vec<u8>> {
    if r.chance(3) {
        return vec![];
    }
    let mut given = vec![first(r, n)];
    if r.chance(5) {
        given.push(b"1".to_vec());
    }
    given
}

fn first(r: &mut Rng, n: usize) -> Vec<u8> {
    let task = r.range(1, n.max(1) as u32).to_string();
    let text = match r.range(0, 29) {
        0 => String::new(),
        1 => "0".to_string(),
        2 => (n + 1).to_string(),
        3 => r.pick(&LARGE).to_string(),
        4 => (0..30).map(|_| r.pick(&['0', '1', '5', '9'])).collect(),
        5 => "0".repeat(r.range(1, 40) as usize) + &task,
        6 => r.pick(&["+", "-", " ", "0x", "\t", "x"]).to_string() + &task,
        7 => task + r.pick(&[" ", "\n", ".", "e0", "x", "/", ":", "\u{b2}"]),
        8 => r.pick(&["x", "one", "/", ":", "\u{661}", "0-", "--"]).to_string(),
        9 => return [task.as_bytes(), &[r.range(128, 255) as u8]].concat(),
        _ => task,
    };
    text.into_bytes()
}
