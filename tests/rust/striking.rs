// Striking on plain values (Specification, "Repairs"): which states a list reaches, and the list without the steps out
// of the others. It has nothing of the library.
#![allow(dead_code)]

// From and to.
type Step = (usize, usize);

// Where the kept steps out of s end. The state is kept where there is one.
fn next(steps: &[Step], list: &[u8], s: usize) -> Vec<usize> {
    (0..steps.len()).filter(|&j| list[j] == 1 && steps[j].0 == s).map(|j| steps[j].1).collect()
}

fn visit(steps: &[Step], list: &[u8], s: usize, seen: &mut [bool]) {
    if !seen[s] {
        seen[s] = true;
        for t in next(steps, list, s) {
            visit(steps, list, t, seen);
        }
    }
}

// Which states can be got to from a kept initial state by kept steps. Zero steps count: a kept initial state is
// reached.
fn reached(initial: &[bool], steps: &[Step], list: &[u8]) -> Vec<bool> {
    let mut seen = vec![false; initial.len()];
    for s in 0..initial.len() {
        if initial[s] && !next(steps, list, s).is_empty() {
            visit(steps, list, s, &mut seen);
        }
    }
    seen
}

// The list with every step struck whose from state is not reached.
pub fn strike(initial: &[bool], steps: &[Step], list: &[u8]) -> Vec<u8> {
    let reached = reached(initial, steps, list);
    (0..steps.len()).map(|j| if reached[steps[j].0] { list[j] } else { 0 }).collect()
}

// The same for the packed bytes of an accepted table.
pub fn strike_packed(table: &[u8], list: &[u8]) -> Vec<u8> {
    let (n, e) = (table[0] as usize, table[1] as usize);
    let initial: Vec<bool> = (0..n).map(|s| table[4 + 3 * s] == 1).collect();
    let steps: Vec<Step> =
        table[4 + 3 * n..4 + 3 * n + 3 * e].chunks(3).map(|step| (step[0] as usize, step[1] as usize)).collect();
    strike(&initial, &steps, list)
}
