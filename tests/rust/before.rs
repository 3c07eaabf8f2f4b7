// What the buffers of Repair hold before a call, with guard entries around them: nothing that a call would write, and a
// different value at each place.
#![allow(dead_code)]

// So many entries on either side.
pub const GUARD: usize = 2;

pub fn list_before(room: usize) -> Vec<u8> {
    (0..room + 2 * GUARD).map(|i| 2 + (i % 254) as u8).collect()
}

pub fn bytes_before(room: usize) -> Vec<u8> {
    (0..room + 2 * GUARD).map(|i| 1 + (i % 255) as u8).collect()
}

pub fn words_before(room: usize) -> Vec<u32> {
    (0..room + 2 * GUARD).map(|i| 0xA5A50001 + 2 * i as u32).collect()
}
