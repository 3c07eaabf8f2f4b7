// Measures Repair on drawn tables against the plain search over explicit clauses, in one run. Times are of whole calls:
// the plain search also builds its clauses, and both strike what they find. The two must agree on every table; how fast
// they are decides nothing here.
mod clauses;
mod fitter;
mod sequence;
mod striking;

use sequence::Random;
use std::hint::black_box;
use std::time::Instant;

// The nodes of a rule, and a way to add one more.
struct Rule(Vec<u8>);

impl Rule {
    fn len(&self) -> u64 {
        self.0.len() as u64 / 3
    }

    fn add(&mut self, kind: u64, a: u64, b: u64) -> u64 {
        self.0.extend([kind as u8, a as u8, b as u8]);
        self.len() - 1
    }

    // Node 0 is false, then the propositions.
    fn leaves(props: u64) -> Self {
        let mut rule = Rule(vec![]);
        rule.add(0, 0, 0);
        for p in 0..props {
            rule.add(2, p, 0);
        }
        rule
    }
}

// Nodes of the kinds from the first to the last, over any lower nodes.
fn nodes_of(random: &mut Random, kinds: (u64, u64), nodes: u64, props: u64) -> Rule {
    let mut rule = Rule::leaves(props);
    while rule.len() < nodes {
        let (kind, a, b) = (random.between(kinds), random.below(rule.len()), random.below(rule.len()));
        rule.add(kind, a, if [3, 6, 7, 12, 13, 14, 15].contains(&kind) { 0 } else { b });
    }
    rule
}

// All kinds but until, eventually and always.
fn any_kinds(random: &mut Random, nodes: u64, props: u64) -> Rule {
    nodes_of(random, (3, 9), nodes, props)
}

fn releases(random: &mut Random, nodes: u64, props: u64) -> Rule {
    nodes_of(random, (8, 9), nodes, props)
}

fn all_kinds(random: &mut Random, nodes: u64, props: u64) -> Rule {
    nodes_of(random, (3, 15), nodes, props)
}

fn fixed_points(random: &mut Random, nodes: u64, props: u64) -> Rule {
    nodes_of(random, (8, 15), nodes, props)
}

// One usual demand on propositions a and b, in four nodes. Node 0 is false, so 8 0 x is "always x on all paths".
fn usual(rule: &mut Rule, which: u64, a: u64, b: u64) -> u64 {
    let not_a = rule.add(3, a, 0);
    if which == 0 {
        // on all paths, a until b
        let not_b = rule.add(3, b, 0);
        let never = rule.add(9, not_a, not_b);
        return rule.add(3, never, 0);
    }
    let inner = match which {
        // a stays within reach; a comes again and again
        1 | 2 => {
            let never = rule.add(7 + which, 0, not_a);
            rule.add(3, never, 0)
        }
        // after a, b can follow; after a, not a follows; from a on, b can go on for ever
        _ => {
            let then = match which {
                3 => rule.add(7, b, 0),
                4 => rule.add(6, not_a, 0),
                _ => rule.add(9, 0, b),
            };
            rule.add(5, not_a, then)
        }
    };
    rule.add(8, 0, inner)
}

// One usual demand with until, eventually and always, in four nodes at most.
fn short(rule: &mut Rule, which: u64, a: u64, b: u64) -> u64 {
    let inner = match which {
        // a until b, on all paths or on some
        0 | 1 => return rule.add(10 + which, a, b),
        // a comes again and again; a stays within reach
        2 | 3 => rule.add(10 + which, a, 0),
        // after a, b can follow; after a, b comes; from a on, b can go on for ever; from a on, a until b
        _ => {
            let not_a = rule.add(3, a, 0);
            let then = match which {
                4 => rule.add(7, b, 0),
                5 => rule.add(12, b, 0),
                6 => rule.add(15, b, 0),
                _ => rule.add(10, a, b),
            };
            rule.add(5, not_a, then)
        }
    };
    rule.add(14, inner, 0)
}

// Several demands of these sorts at once, each over the and of those before it.
fn demands(
    random: &mut Random, sorts: u64, demand: fn(&mut Rule, u64, u64, u64) -> u64, nodes: u64, props: u64,
) -> Rule {
    let mut rule = Rule::leaves(props);
    let mut root = None;
    while rule.len() + 4 + root.is_some() as u64 <= nodes {
        let (which, a, b) = (random.below(sorts), 1 + random.below(props), 1 + random.below(props));
        let new = demand(&mut rule, which, a, b);
        root = Some(root.map_or(new, |other| rule.add(4, other, new)));
    }
    let mut root = root.unwrap_or(0);
    while rule.len() < nodes {
        root = rule.add(4, root, root);
    }
    rule
}

fn usual_demands(random: &mut Random, nodes: u64, props: u64) -> Rule {
    demands(random, 6, usual, nodes, props)
}

fn short_demands(random: &mut Random, nodes: u64, props: u64) -> Rule {
    demands(random, 8, short, nodes, props)
}

// From how many to how many.
struct Size {
    states: (u64, u64),
    steps: (u64, u64),
    nodes: (u64, u64),
    props: u64,
}

const SMALL: Size = Size { states: (2, 6), steps: (4, 16), nodes: (8, 14), props: 2 };
const TO_MIDDLE: Size = Size { states: (2, 16), steps: (4, 50), nodes: (8, 24), props: 3 };
const MIDDLE: Size = Size { states: (10, 16), steps: (30, 50), nodes: (14, 24), props: 3 };
const SPARSE: Size = Size { states: (32, 32), steps: (40, 70), nodes: (32, 32), props: 3 };
const LARGE: Size = Size { states: (32, 32), steps: (128, 128), nodes: (32, 32), props: 3 };

// Different steps in any order, one at least out of each state.
fn steps(random: &mut Random, n: u64, e: u64) -> Vec<[u8; 2]> {
    let mut steps: Vec<[u8; 2]> = vec![];
    while (steps.len() as u64) < e {
        let from = if (steps.len() as u64) < n { steps.len() as u64 } else { random.below(n) };
        let step = [from as u8, random.below(n) as u8];
        if !steps.contains(&step) {
            steps.push(step);
        }
    }
    for i in (1..steps.len()).rev() {
        steps.swap(i, random.below(i as u64 + 1) as usize);
    }
    steps
}

// The steps with a price for each. It has a sequence of its own. The seed says which of three sorts the prices are of:
// all the same, so that the fewest steps are struck; a few different ones; or any.
fn priced(seed: u64, steps: Vec<[u8; 2]>) -> Vec<u8> {
    let mut random = Random::new(!seed);
    let range = [(1, 1), (1, 9), (0, 255)][seed as usize / 3 % 3];
    steps.iter().flat_map(|&[from, to]| [from, to, random.between(range) as u8]).collect()
}

// Draws a rule of so many nodes over so many propositions.
type Draw = fn(&mut Random, u64, u64) -> Rule;

const BASE: [Draw; 3] = [any_kinds, usual_demands, releases];
const ALL: [Draw; 3] = [all_kinds, short_demands, fixed_points];

// The table of a seed; the seed also says which of the three sorts of rule it has.
fn table(size: &Size, rules: [Draw; 3], seed: u64) -> Vec<u8> {
    let mut random = Random::new(seed);
    let n = random.between(size.states);
    let e = random.between(size.steps).min(n * n);
    let f = random.between(size.nodes);
    let initial = 1 + random.below(n.min(4));
    let mut t = vec![n as u8, e as u8, f as u8, size.props as u8];
    for s in 0..n {
        t.extend([(s < initial) as u8, random.below(1 << size.props) as u8, 0]);
    }
    t.extend(priced(seed, steps(&mut random, n, e)));
    let rule = rules[seed as usize % 3](&mut random, f, size.props);
    t.extend(rule.0);
    t
}

fn small(seed: u64) -> Vec<u8> {
    table(&SMALL, BASE, seed)
}

fn middle(seed: u64) -> Vec<u8> {
    table(&MIDDLE, BASE, seed)
}

fn sparse(seed: u64) -> Vec<u8> {
    table(&SPARSE, BASE, seed)
}

fn large(seed: u64) -> Vec<u8> {
    table(&LARGE, BASE, seed)
}

fn all_to_middle(seed: u64) -> Vec<u8> {
    table(&TO_MIDDLE, ALL, seed)
}

fn all_large(seed: u64) -> Vec<u8> {
    table(&LARGE, ALL, seed)
}

// The largest net there is: one proposition, and releases in all other nodes.
fn largest(seed: u64) -> Vec<u8> {
    let mut random = Random::new(seed);
    let mut t = vec![32, 128, 32, 1];
    for s in 0..32 {
        t.extend([(s < 4) as u8, (s == 0 || random.below(2) == 1) as u8, 0]);
    }
    t.extend(priced(seed, steps(&mut random, 32, 128)));
    t.extend([2, 0, 0]);
    for i in 1..32 {
        t.extend([8 + random.below(2) as u8, random.below(i) as u8, random.below(i) as u8]);
    }
    t
}

const LARGEST: usize = 223392;

struct Lent {
    list: Vec<u8>,
    bytes: Vec<u8>,
    words: Vec<u32>,
}

fn library(lent: &mut Lent, table: &[u8], cap: u64) -> clauses::Answer {
    let (mut choices, mut price, mut settled) = (0, 0, 0);
    let Lent { list, bytes, words } = lent;
    let number = fitter::repair(table, cap, list, bytes, words, &mut choices, &mut price, &mut settled);
    let written = if number == 0 { table[1] as usize } else { 0 };
    clauses::Answer { number, choices, price, settled, list: lent.list[..written].to_vec() }
}

fn plain(table: &[u8], cap: u64) -> clauses::Answer {
    let answer = clauses::repair(table, cap);
    let list = if answer.number == 0 { striking::strike_packed(table, &answer.list) } else { vec![] };
    clauses::Answer { list, ..answer }
}

// The shortest of three runs, in microseconds, and the answer. A long run is not repeated.
fn timed(mut run: impl FnMut() -> clauses::Answer) -> (f64, clauses::Answer) {
    let mut best = f64::MAX;
    for k in 0.. {
        let start = Instant::now();
        let answer = run();
        let time = start.elapsed().as_secs_f64() * 1e6;
        best = best.min(time);
        if k == 2 || time > 30000.0 {
            return (best, answer);
        }
    }
    unreachable!()
}

// Tables of one size, by their seeds. The seeds of a group were taken in their order, for the number of choices that
// their tables make.
struct Group {
    name: &'static str,
    table: fn(u64) -> Vec<u8>,
    seeds: Vec<u64>,
    cap: u64,
}

fn group(name: &'static str, table: fn(u64) -> Vec<u8>, seeds: &[u64], cap: u64) -> Group {
    Group { name, table, seeds: seeds.to_vec(), cap }
}

#[rustfmt::skip]
fn groups() -> Vec<Group> {
    vec![
        group("small", small, &(0..200).collect::<Vec<_>>(), u64::MAX),
        group("middle, no choices", middle, &[
            2, 7, 8, 14, 17, 20, 21, 24, 25, 26, 29, 31, 32, 34, 35, 40, 41, 52, 57, 63, 66, 67, 72, 82, 87, 90,
            91, 96, 109, 111,
        ], u64::MAX),
        group("middle, tens", middle, &[
            0, 5, 11, 12, 15, 23, 30, 33, 36, 37, 38, 42, 45, 46, 47, 54, 60, 65, 68, 69, 75, 80, 84, 95, 101,
            102, 105, 106, 107, 110,
        ], u64::MAX),
        group("middle, hundreds", middle, &[
            1, 3, 19, 27, 28, 43, 44, 51, 53, 56, 58, 73, 79, 81, 86, 103, 128, 131, 136, 140, 147, 154, 157, 161, 169,
        ], u64::MAX),
        group("middle, thousands", middle, &[
            83, 85, 93, 99, 119, 121, 142, 145, 163, 212, 220, 229, 247, 271, 273, 292, 308, 338,
        ], u64::MAX),
        group("middle, spent", middle, &[4, 6, 9, 10, 13, 16, 18, 22, 39], 5000),
        group("large, no choices", large, &[0, 2, 4, 5, 10, 17, 25, 26, 31, 33, 42, 69], u64::MAX),
        group("large, few steps, tens", sparse, &[6, 9, 11, 20, 23, 27, 30, 33, 35, 39, 42, 45, 51, 56, 57], u64::MAX),
        group("large, few fixed points, hundreds", large, &[3, 9, 12, 15, 18, 21, 24, 30, 36, 39, 43, 45], u64::MAX),
        group("large, fixed points, hundreds", large, &[8, 11, 23, 41, 56, 80], u64::MAX),
        group("largest net, hundreds", largest, &[0, 1, 2, 3], u64::MAX),
        group("large, spent", large, &[1, 6, 7, 13, 14, 16, 19, 20, 22], 2000),
        group("all kinds, small to middle", all_to_middle, &[
            0, 1, 3, 7, 8, 9, 10, 12, 13, 16, 17, 20, 22, 25, 27, 28, 29, 31, 36, 38, 39, 40, 42, 43, 46, 49,
            53, 56, 57, 59, 64, 68, 69, 70, 71, 72, 75, 76, 77, 82, 83, 84, 85, 89, 90, 91, 92, 93, 94, 95, 97,
            100, 101, 102, 103, 105, 106, 110, 112, 114,
        ], u64::MAX),
        group("all kinds, large", all_large, &[
            5, 8, 9, 12, 15, 20, 21, 24, 26, 30, 36, 39, 42, 44, 45, 51, 54, 56,
        ], u64::MAX),
    ]
}

// The least and the greatest of some numbers.
fn range(numbers: &[u64]) -> String {
    let (least, greatest) = (numbers.iter().min().unwrap(), numbers.iter().max().unwrap());
    if least == greatest { least.to_string() } else { format!("{least} to {greatest}") }
}

// Runs both on every table of a group and prints its line; false where they differ.
fn measure(group: &Group, lent: &mut Lent) -> bool {
    let (mut variables, mut choices) = (vec![], vec![]);
    let (mut ours, mut theirs, mut worst) = (0.0, 0.0, 0.0f64);
    let mut same = true;
    for &seed in &group.seeds {
        let table = (group.table)(seed);
        let (time, answer) = timed(|| library(lent, black_box(&table), group.cap));
        let (plain_time, plain_answer) = timed(|| plain(black_box(&table), group.cap));
        if answer != plain_answer {
            println!("{}, seed {}: the library {:?}, the plain search {:?}", group.name, seed, answer, plain_answer);
            same = false;
        }
        variables.push(clauses::net(&table).variables as u64);
        choices.push(answer.choices);
        ours += time;
        theirs += plain_time;
        worst = worst.max(time / plain_time);
    }
    let tables = group.seeds.len() as f64;
    println!(
        "{:36}{:>6}{:>18}{:>14}{:>12.1}{:>12.1}{:>8.2}{:>8.2}",
        group.name, group.seeds.len(), range(&variables), range(&choices), ours / tables, theirs / tables,
        ours / theirs, worst
    );
    same
}

// The longest time of a call that makes one closure only.
fn one_closure(lent: &mut Lent, tables: impl Iterator<Item = Vec<u8>>) -> f64 {
    tables.map(|t| timed(|| library(lent, black_box(&t), 0)).0).fold(0.0, f64::max)
}

fn main() {
    let mut lent = Lent { list: vec![0; 128], bytes: vec![0; LARGEST], words: vec![0; LARGEST] };
    println!("repair: microseconds a call; ratio of the sums; greatest ratio of one table");
    println!(
        "{:36}{:>6}{:>18}{:>14}{:>12}{:>12}{:>8}{:>8}",
        "group", "tables", "variables", "choices", "library", "plain", "ratio", "worst"
    );
    let mut same = true;
    for group in groups() {
        same &= measure(&group, &mut lent);
    }
    let first = one_closure(&mut lent, (0..4).map(largest));
    let slowest = one_closure(&mut lent, (0..90).map(large));
    println!(
        "one closure (cap 0): {LARGEST} variables, {first:.0} us; the slowest of 90 large tables, {slowest:.0} us"
    );
    std::process::exit(if same { 0 } else { 1 });
}
