//! Distance, by trying every operation forwards.

use crate::constants::{bits_in_range, ceiling, Refusal};
use crate::operation::{operate, shapes};

pub const MAX_READY: usize = 129;
pub const BEYOND: u32 = 3;

/// Which values below G one valid operation on the list reaches.
pub fn reached(b: u32, ready: &[u32]) -> Vec<bool> {
    let mut hit = vec![false; ceiling(b) as usize];
    let shapes = shapes(b);
    for &u in ready {
        for &v in ready {
            for &(l1, l2, s) in &shapes {
                if let Some(outcome) = operate(b, u, v, l1, l2, s) {
                    hit[outcome.value as usize] = true;
                }
            }
        }
    }
    hit
}

/// Whether one operation of u and v, in this order, gives the target.
pub fn gives(b: u32, shapes: &[(u32, u32, u32)], u: u32, v: u32, target: u32) -> bool {
    let value = |&(l1, l2, s): &(u32, u32, u32)| operate(b, u, v, l1, l2, s).map(|o| o.value);
    shapes.iter().any(|shape| value(shape) == Some(target))
}

/// Whether an operation that involves `extra` makes the target, on the list with it added.
pub fn serves(b: u32, ready: &[u32], extra: u32, target: u32) -> bool {
    let shapes = shapes(b);
    let either = |w: u32| {
        gives(b, &shapes, extra, w, target) || gives(b, &shapes, w, extra, target)
    };
    either(extra) || ready.iter().any(|&w| either(w))
}

/// The smallest reached value that serves; values are odd.
pub fn smallest_server(b: u32, ready: &[u32], hit: &[bool], target: u32) -> Option<u32> {
    (1..ceiling(b)).step_by(2).find(|&s| hit[s as usize] && serves(b, ready, s, target))
}

/// The distance of admitted arguments.
fn measure(b: u32, ready: &[u32], target: u32) -> u32 {
    if ready.contains(&target) {
        return 0;
    }
    let hit = reached(b, ready);
    if hit[target as usize] {
        return 1;
    }
    match smallest_server(b, ready, &hit, target) {
        Some(_) => 2,
        None => BEYOND,
    }
}

pub fn distance(b: u32, ready: &[u32], target: u32) -> Result<u32, Refusal> {
    if !bits_in_range(b) {
        return Err((1, 0));
    }
    if ready.is_empty() || ready.len() > MAX_READY {
        return Err((10, 0));
    }
    for (i, &value) in ready.iter().enumerate() {
        if value % 2 == 0 || value >= ceiling(b) {
            return Err((10, i as u32 + 1));
        }
    }
    if target % 2 == 0 || target as u64 >= 1u64 << b {
        return Err((11, 0));
    }
    Ok(measure(b, ready, target))
}
