// Draws the nodes of a rule.
use crate::random::Random;

// The kinds over one node.
const SINGLE: [usize; 7] = [3, 6, 7, 12, 13, 14, 15];

struct Rule(Vec<[u8; 3]>);

impl Rule {
    fn add(&mut self, kind: usize, a: usize, b: usize) -> usize {
        self.0.push([kind as u8, a as u8, b as u8]);
        self.0.len() - 1
    }

    fn leaf(&mut self, random: &mut Random, p: usize) -> usize {
        match random.below(8) {
            0 => self.add(0, 0, 0),
            1 => self.add(1, 0, 0),
            _ if p == 0 => self.add(random.below(2), 0, 0),
            _ => self.add(2, random.below(p), 0),
        }
    }

    // A lower node, often a late one.
    fn child(&self, random: &mut Random) -> usize {
        let below = self.0.len();
        if random.once_in(2) { below - 1 - random.below(below.min(3)) } else { random.below(below) }
    }

    // A node of this kind over lower nodes, at times twice over the same.
    fn over(&mut self, random: &mut Random, kind: usize) -> usize {
        let a = self.child(random);
        let b = if random.once_in(8) { a } else { self.child(random) };
        self.add(kind, a, if SINGLE.contains(&kind) { 0 } else { b })
    }
}

// f nodes; p propositions. The last one is the root, whatever it is.
pub fn rule(random: &mut Random, f: usize, p: usize) -> Vec<[u8; 3]> {
    let mut rule = Rule(vec![]);
    let kinds: &[usize] = match random.below(14) {
        0..=2 => &[3, 4, 5, 6, 7, 8, 9, 10, 11, 12, 13, 14, 15],
        3 => &[3, 4, 5, 6, 7, 8, 9],
        4 => &[3, 8, 9, 10, 11, 12, 13, 14, 15],
        5 => &[8, 9, 10, 11],
        6 => &[3, 10, 11],
        7 => &[3, 4, 5, 12, 13, 14, 15],
        8 => &[3, 4, 5, 5, 6, 7],
        _ => &[],
    };
    if kinds.is_empty() {
        demands(random, &mut rule, f, p);
    } else {
        // with one leaf and only kinds 8 to 11 the net is the largest
        let one = random.once_in(4);
        let leaves = if one { 1 } else { 1 + random.below(1 + f / 2) };
        while rule.0.len() < f {
            if rule.0.len() < leaves || (!one && random.once_in(8)) {
                rule.leaf(random, p);
            } else {
                let kind = random.pick(kinds);
                rule.over(random, kind);
            }
        }
    }
    rule.0.truncate(f);
    rule.0
}

// Demands as a user would write them, joined by and. Where f cuts them short, the root is a part of one.
fn demands(random: &mut Random, rule: &mut Rule, f: usize, p: usize) {
    let no = rule.add(0, 0, 0);
    let first = rule.0.len();
    for _ in 0..p.clamp(1, 4) {
        rule.leaf(random, p);
    }
    let leaves = rule.0.len() - first;
    let mut root = None;
    while rule.0.len() < f {
        let (a, b) = (first + random.below(leaves), first + random.below(leaves));
        let demand = demand(random, rule, no, a, b);
        root = Some(match root {
            None => demand,
            Some(other) => rule.add(random.pick(&[4, 4, 4, 5]), other, demand),
        });
    }
}

// Always, on all paths or on some: by its own kind, or as a release by false.
fn always(random: &mut Random, rule: &mut Rule, no: usize, a: usize) -> usize {
    let kind = random.pick(&[8, 8, 9]);
    if random.once_in(2) { rule.add(kind, no, a) } else { rule.add(kind + 6, a, 0) }
}

fn demand(random: &mut Random, rule: &mut Rule, no: usize, a: usize, b: usize) -> usize {
    match random.below(12) {
        0 | 1 => rule.add(random.between(8, 9), a, b),
        2 | 3 => rule.add(random.between(10, 11), a, b),
        4 => rule.add(random.between(6, 7), a, 0),
        5 => rule.add(random.between(12, 15), a, 0),
        // again and again, within reach, at last for ever
        6 => {
            let inner = rule.add(random.between(12, 15), a, 0);
            rule.add(random.between(12, 15), inner, 0)
        }
        // always, no endless stretch of a
        7 => {
            let stretch = if random.once_in(2) { rule.add(9, no, a) } else { rule.add(15, a, 0) };
            let never = rule.add(3, stretch, 0);
            always(random, rule, no, never)
        }
        // a until b by a release, on all or on some paths
        8 => {
            let (not_a, not_b) = (rule.add(3, a, 0), rule.add(3, b, 0));
            let never = rule.add(random.between(8, 9), not_a, not_b);
            rule.add(3, never, 0)
        }
        // always: after a, then
        which => {
            let not_a = rule.add(3, a, 0);
            let then = match which {
                9 => rule.add(random.between(6, 7), random.pick(&[b, not_a]), 0),
                10 => rule.add(random.between(12, 13), b, 0),
                _ => always(random, rule, no, b),
            };
            let either = rule.add(5, not_a, then);
            always(random, rule, no, either)
        }
    }
}
