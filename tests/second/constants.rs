//! Constants: bit limit, targets taken apart, the wanted set, refusals 1 to 3.

/// Refusal number and place.
pub type Refusal = (u32, u32);

pub const MAX_TARGETS: usize = 16;

/// The one bound of document 01: the greatest shift, and the exponent of G.
pub fn limit(b: u32) -> u32 {
    b + 1
}

/// G.
pub fn ceiling(b: u32) -> u32 {
    1 << limit(b)
}

pub fn bits_in_range(b: u32) -> bool {
    (2..=16).contains(&b)
}

#[derive(Clone, Copy, PartialEq, Debug)]
pub struct Apart {
    pub sign: i32,
    pub shift: u32,
    pub odd: u32,
}

/// Halves in 64 bits, since -2147483648 has no negative in 32.
pub fn take_apart(t: i32) -> Apart {
    if t == 0 {
        return Apart { sign: 0, shift: 0, odd: 0 };
    }
    let sign = if t < 0 { -1 } else { 1 };
    let mut rest = t as i64 * sign as i64;
    let mut shift = 0;
    while rest % 2 == 0 {
        rest /= 2;
        shift += 1;
    }
    Apart { sign, shift, odd: rest as u32 }
}

/// The call on one constant: sign, shift and odd part, for which three words must be lent.
pub fn parts(t: i32, buffer_words: usize) -> Result<Vec<i64>, Refusal> {
    if buffer_words < 3 {
        return Err((4, 0));
    }
    let Apart { sign, shift, odd } = take_apart(t);
    Ok(vec![sign as i64, shift as i64, odd as i64])
}

pub fn admit(b: u32, targets: &[i32]) -> Result<(), Refusal> {
    if !bits_in_range(b) {
        return Err((1, 0));
    }
    if targets.is_empty() || targets.len() > MAX_TARGETS {
        return Err((2, 0));
    }
    for (i, &t) in targets.iter().enumerate() {
        if take_apart(t).odd as u64 >= 1u64 << b {
            return Err((3, i as u32 + 1));
        }
    }
    Ok(())
}

/// The distinct odd parts greater than 1, ascending.
pub fn wanted(targets: &[i32]) -> Vec<u32> {
    let mut odds: Vec<u32> = targets.iter().map(|&t| take_apart(t).odd).filter(|&o| o > 1).collect();
    odds.sort();
    odds.dedup();
    odds
}
