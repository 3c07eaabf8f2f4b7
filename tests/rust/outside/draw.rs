// Draws tables that are accepted, from the smallest to the largest, and lists for them.
use crate::clauses;
use crate::draft::Draft;
use crate::random::Random;
use crate::rules;
use crate::table::Table;

// States, steps (at most), nodes, propositions.
fn size(random: &mut Random) -> [usize; 4] {
    match random.below(32) {
        0..=12 => [random.between(1, 3), random.between(0, 9), random.between(1, 8), random.between(0, 2)],
        13..=23 => [random.between(2, 6), random.between(3, 10), random.between(3, 14), random.between(0, 3)],
        24..=29 => [random.between(4, 16), random.between(8, 48), random.between(4, 20), random.between(0, 5)],
        30 => [random.between(16, 32), random.between(32, 128), random.between(8, 32), random.between(0, 16)],
        _ => [
            random.pick(&[1, 2, 31, 32]), random.pick(&[0, 1, 127, 128]), random.pick(&[1, 2, 31, 32]),
            random.pick(&[0, 1, 15, 16]),
        ],
    }
}

pub fn table(random: &mut Random) -> Draft {
    let size = size(random);
    table_of(random, size)
}

fn table_of(random: &mut Random, [n, e, f, p]: [usize; 4]) -> Draft {
    let steps = steps(random, n, e);
    let steps = priced(random, &steps);
    let states = states(random, n, p);
    let nodes = rules::rule(random, f, p);
    Draft { counts: [n as u8, steps.len() as u8, f as u8, p as u8], states, steps, nodes }
}

// A small table, if one comes soon, whose search has to go back for more than the struck tries behind its only find; or
// one with a repair that undercuts the first in rank.
pub fn hard(random: &mut Random) -> Draft {
    let by_price = random.once_in(2);
    for _ in 0..60 {
        let size = [random.between(2, 6), random.between(4, 14), random.between(4, 16), random.between(1, 3)];
        let draft = table_of(random, size);
        let answer = clauses::repair(&draft.pack(), 200);
        let back = answer.choices > 2 * draft.steps.len() as u64 || (answer.number == 14 && answer.choices > 0);
        if (by_price && undercut(&draft, &answer)) || (!by_price && back) {
            return draft;
        }
    }
    table(random)
}

// Whether the answer is not the repair that ranks first, which is the cheapest where all prices are 0.
fn undercut(draft: &Draft, answer: &clauses::Answer) -> bool {
    let mut free = draft.clone();
    free.steps.iter_mut().for_each(|step| step.2 = 0);
    answer.number == 0 && clauses::repair(&free.pack(), 200).list != answer.list
}

fn states(random: &mut Random, n: usize, p: usize) -> Vec<(u8, u16)> {
    let mask = ((1u32 << p) - 1) as u16;
    let (sparse, dense) = (random.once_in(4), random.once_in(4));
    let one_in = random.pick(&[1, 2, 3, 8]);
    let mut states: Vec<(u8, u16)> = vec![];
    for _ in 0..n {
        let mut label = random.next() as u16;
        if sparse {
            label &= random.next() as u16;
        }
        if dense {
            label |= random.next() as u16;
        }
        states.push((random.once_in(one_in) as u8, label & mask));
    }
    let first = random.below(n);
    states[first].0 = 1;
    states
}

// Different steps in any order: any, one at least out of each state, loops first, or out of some states only.
fn steps(random: &mut Random, n: usize, e: usize) -> Vec<(u8, u8)> {
    let mut all: Vec<(u8, u8)> = (0..n * n).map(|k| ((k / n) as u8, (k % n) as u8)).collect();
    random.shuffle(&mut all);
    match random.below(6) {
        0 => {}
        1 => all.sort_by_key(|&(from, to)| from != to),
        2 => {
            let last = random.below(n) as u8;
            all.retain(|&(from, _)| from <= last);
        }
        _ => {
            let mut out = vec![false; n];
            all.sort_by_key(|&(from, _)| std::mem::replace(&mut out[from as usize], true));
        }
    }
    all.truncate(e);
    random.shuffle(&mut all);
    all
}

// A price for each step. Often there are few different ones, so that lists cost the same, or the sums are as large as
// can be.
fn priced(random: &mut Random, steps: &[(u8, u8)]) -> Vec<(u8, u8, u8)> {
    let (low, high) = random.pick(&[
        (0, 0), (0, 1), (0, 3), (0, 3), (1, 1), (1, 3), (1, 9), (0, 255), (0, 255), (250, 255), (255, 255),
    ]);
    let free = random.once_in(6);
    steps
        .iter()
        .map(|&(from, to)| (from, to, if free && random.once_in(2) { 0 } else { random.between(low, high) as u8 }))
        .collect()
}

// A list of any steps, many or few.
pub fn list(random: &mut Random, e: usize) -> Vec<u8> {
    let struck = random.pick(&[2, 4, 16, 1000]);
    let turn = random.once_in(6);
    (0..e).map(|_| (random.once_in(struck) == turn) as u8).collect()
}

// Strikes what ends in a state that is not kept, until nothing does.
pub fn prune(table: &Table, list: &mut [u8]) {
    loop {
        let leaves = |s: usize| (0..list.len()).any(|j| list[j] == 1 && table.steps[j].0 == s);
        let Some(bad) = (0..list.len()).find(|&j| list[j] == 1 && !leaves(table.steps[j].1)) else {
            return;
        };
        list[bad] = 0;
    }
}
