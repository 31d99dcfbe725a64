//! When memory is a sound table, as docs/SOUNDNESS.md says.

use reference::text::is_id;

pub const ROOM: usize = 8192;
pub const DOMAIN: usize = 8;
pub const HEAD: usize = 40;
pub const ORDER: usize = 64;
pub const RING: usize = 128;
pub const ENTRY: usize = 32;

/// The bytes that a table takes.
pub fn size(devices: usize, depth: usize) -> usize {
    ROOM * (devices + depth + 1)
}

pub fn is_sound(memory: &[u8]) -> bool {
    if memory.len() < ROOM {
        return false;
    }
    let [mark, devices, depth, next, steps, domain] = [0, 1, 2, 3, 4, 5].map(|at| usize::from(memory[at]));
    mark == 72
        && (1..=64).contains(&devices)
        && depth <= 64
        && memory.len() >= size(devices, depth)
        && (next < depth || next == 0)
        && steps <= depth
        && (1..=32).contains(&domain)
        && is_id(&memory[DOMAIN..DOMAIN + domain])
        && usize::from(memory[HEAD]) <= devices
        && is_order(&memory[ORDER..ORDER + devices])
}

/// Each slot below the count, no two equal.
fn is_order(order: &[u8]) -> bool {
    let mut sorted: Vec<usize> = order.iter().map(|&slot| usize::from(slot)).collect();
    sorted.sort_unstable();
    sorted.iter().enumerate().all(|(place, &slot)| place == slot)
}
