// Repair's search a second time, in the plain way: the net as explicit clauses (Specification, "Net"), and the search
// over them (Specification, "Closure" and "Search") with a counter for each clause and a trail to undo. The list that
// it finds is the one before striking. Written from the specification; it has nothing of the library.
#![allow(dead_code)]

// A literal is twice its variable's number, and one more where it is the opposite. Steps are the first variables.
type Literal = usize;

// Clauses one after the other: clause c is `literals[starts[c]..starts[c + 1]]`.
pub struct Net {
    pub steps: usize,
    pub variables: usize,
    // what it costs to strike each step
    prices: Vec<u32>,
    starts: Vec<u32>,
    literals: Vec<u32>,
}

// Where each step ends, and which steps leave each state.
struct Steps {
    ends: Vec<usize>,
    out: Vec<Vec<usize>>,
}

impl Net {
    fn clause(&mut self, literals: impl Iterator<Item = Literal>) {
        self.literals.extend(literals.map(|l| l as u32));
        self.starts.push(self.literals.len() as u32);
    }

    // An AND gate, or with `all` false an OR gate, which is the same with every literal turned.
    fn gate(&mut self, all: bool, inputs: &[Literal]) -> Literal {
        let turn = !all as usize;
        let g = 2 * self.variables;
        self.variables += 1;
        for l in inputs {
            self.clause([g ^ 1 ^ turn, l ^ turn].into_iter());
        }
        self.clause([g ^ turn].into_iter().chain(inputs.iter().map(|l| l ^ 1 ^ turn)));
        g
    }

    // A gate for each step, then for each state one over the steps out of it: what kind 6 (or 7) says of the row x.
    fn next(&mut self, every: bool, steps: &Steps, x: &[Literal]) -> Vec<Literal> {
        let gates: Vec<Literal> =
            steps.ends.iter().enumerate().map(|(j, &t)| self.gate(!every, &[2 * j ^ every as usize, x[t]])).collect();
        steps.out.iter().map(|out| self.gate(every, &out.iter().map(|&j| gates[j]).collect::<Vec<_>>())).collect()
    }

    // For each state a gate over what the two rows have there.
    fn join(&mut self, all: bool, x: &[Literal], y: &[Literal]) -> Vec<Literal> {
        x.iter().zip(y).map(|(&l, &m)| self.gate(all, &[l, m])).collect()
    }

    // Levels 0 to n of kinds 8 to 15, the even ones over every step. Level 0 has b alone, or a where there is no b.
    // Each later level is an AND of that and the rest for release and always, an OR for until and eventually.
    fn levels(&mut self, kind: u8, steps: &Steps, a: &[Literal], b: &[Literal]) -> Vec<Literal> {
        let (two, all) = (kind < 12, [8, 9, 14, 15].contains(&kind));
        let alone = if two { b } else { a };
        let mut level: Vec<Literal> = alone.iter().map(|&x| self.gate(true, &[x])).collect();
        for _ in 0..alone.len() {
            let next = self.next(kind % 2 == 0, steps, &level);
            let rest = if two { self.join(!all, a, &next) } else { next };
            level = self.join(all, alone, &rest);
        }
        level
    }
}

// The net of an accepted table.
pub fn net(table: &[u8]) -> Net {
    let (n, e) = (table[0] as usize, table[1] as usize);
    let (states, rest) = table[4..].split_at(3 * n);
    let (steps, nodes) = rest.split_at(3 * e);
    let initial: Vec<usize> = (0..n).filter(|s| states[3 * s] == 1).collect();
    let label = |s: usize, p: u8| (states[3 * s + 1] as u32 + 256 * states[3 * s + 2] as u32) >> p & 1 == 1;
    let prices = (0..e).map(|j| steps[3 * j + 2] as u32).collect();
    let ends = (0..e).map(|j| steps[3 * j + 1] as usize).collect();
    let out = (0..n).map(|s| (0..e).filter(|j| steps[3 * j] as usize == s).collect()).collect();
    let steps = Steps { ends, out };

    let mut net = Net { steps: e, variables: e, prices, starts: vec![0], literals: vec![] };
    let kept: Vec<Literal> =
        steps.out.iter().map(|out| net.gate(false, &out.iter().map(|j| 2 * j).collect::<Vec<_>>())).collect();
    let mut x: Vec<Vec<Literal>> = vec![];
    for node in nodes.chunks(3) {
        let (kind, a, b) = (node[0], node[1] as usize, node[2] as usize);
        let row = match kind {
            0 | 1 => (0..n).map(|_| net.gate(kind == 1, &[])).collect(),
            2 => (0..n).map(|s| net.gate(label(s, node[1]), &[])).collect(),
            3 => (0..n).map(|s| net.gate(true, &[x[a][s] ^ 1])).collect(),
            // a literal counts once in a clause
            4 | 5 if a == b => (0..n).map(|s| net.gate(kind == 4, &[x[a][s]])).collect(),
            4 | 5 => (0..n).map(|s| net.gate(kind == 4, &[x[a][s], x[b][s]])).collect(),
            6 | 7 => net.next(kind == 6, &steps, &x[a]),
            // kinds 12 to 15 have b = 0, and no use for it
            _ => net.levels(kind, &steps, &x[a], &x[b]),
        };
        x.push(row);
    }
    for j in 0..e {
        net.clause([2 * j ^ 1, kept[steps.ends[j]]].into_iter());
    }
    net.clause(initial.iter().map(|&s| kept[s]));
    for &s in &initial {
        net.clause([kept[s] ^ 1, x[x.len() - 1][s]].into_iter());
    }
    net
}

struct Search<'a> {
    net: &'a Net,
    // the clauses of literal l are `holders[firsts[l]..firsts[l + 1]]`
    firsts: Vec<u32>,
    holders: Vec<u32>,
    // how many literals of each clause are not contradicted by the first `done` of the trail
    left: Vec<u32>,
    holds: Vec<bool>,
    trail: Vec<Literal>,
    done: usize,
    // of the steps that the trail has as struck
    price: u32,
    cap: u64,
    choices: u64,
    // the cheapest find so far, with its price
    cheapest: Option<(u32, Vec<u8>)>,
}

impl<'a> Search<'a> {
    fn new(net: &'a Net, cap: u64) -> Self {
        let clauses = net.starts.len() - 1;
        let mut firsts = vec![0u32; 2 * net.variables + 1];
        for &l in &net.literals {
            firsts[l as usize] += 1;
        }
        let mut sum = 0;
        for x in firsts.iter_mut() {
            sum += *x;
            *x = sum;
        }
        let mut holders = vec![0u32; net.literals.len()];
        for c in (0..clauses).rev() {
            for &l in &net.literals[net.starts[c] as usize..net.starts[c + 1] as usize] {
                firsts[l as usize] -= 1;
                holders[firsts[l as usize] as usize] = c as u32;
            }
        }
        let left = net.starts.windows(2).map(|w| w[1] - w[0]).collect();
        let holds = vec![false; 2 * net.variables];
        Search { net, firsts, holders, left, holds, trail: vec![], done: 0, price: 0, cap, choices: 0, cheapest: None }
    }

    // What a literal costs: its price where it strikes a step.
    fn cost(&self, l: Literal) -> u32 {
        if l % 2 == 1 && l / 2 < self.net.steps { self.net.prices[l / 2] } else { 0 }
    }

    fn add(&mut self, l: Literal) {
        self.holds[l] = true;
        self.trail.push(l);
        self.price += self.cost(l);
    }

    // Adds the one literal left of a clause; false where all are contradicted.
    fn unit(&mut self, c: usize) -> bool {
        let literals = &self.net.literals[self.net.starts[c] as usize..self.net.starts[c + 1] as usize];
        match literals.iter().find(|&&l| !self.holds[l as usize ^ 1]) {
            Some(&l) if !self.holds[l as usize] => self.add(l as usize),
            Some(_) => {}
            None => return false,
        }
        true
    }

    // The closure of what the trail has; false where it fails.
    fn close(&mut self) -> bool {
        let mut good = true;
        while good && self.done < self.trail.len() {
            let gone = self.trail[self.done] ^ 1;
            self.done += 1;
            for k in self.firsts[gone]..self.firsts[gone + 1] {
                let c = self.holders[k as usize] as usize;
                self.left[c] -= 1;
                good &= self.left[c] > 1 || self.unit(c);
            }
        }
        good
    }

    // The closure of nothing: what the clauses of one literal lead to; false where it fails.
    fn close_nothing(&mut self) -> bool {
        let units: Vec<usize> = (0..self.left.len()).filter(|&c| self.left[c] == 1).collect();
        units.iter().all(|&c| self.unit(c)) && self.close()
    }

    // How many steps the trail has, kept or struck.
    fn settled(&self) -> u32 {
        self.trail.iter().filter(|&&l| l / 2 < self.net.steps).count() as u32
    }

    // Forgets all but the first `mark` of the trail.
    fn undo(&mut self, mark: usize) {
        while self.trail.len() > mark {
            let l = self.trail.pop().unwrap();
            self.holds[l] = false;
            self.price -= self.cost(l);
            if self.trail.len() < self.done {
                for k in self.firsts[l ^ 1]..self.firsts[(l ^ 1) + 1] {
                    self.left[self.holders[k as usize] as usize] += 1;
                }
            }
        }
        self.done = self.done.min(mark);
    }

    // Tries everything from here on and keeps the cheapest find; false where the choices are spent before. The steps
    // before `from` are settled. What costs as much as a find fails, so of finds at one price the first stays.
    fn search(&mut self, from: usize) -> bool {
        if !self.close() || self.cheapest.as_ref().is_some_and(|(price, _)| self.price >= *price) {
            return true;
        }
        let Some(step) = (from..self.net.steps).find(|&j| !self.holds[2 * j] && !self.holds[2 * j + 1]) else {
            self.cheapest = Some((self.price, (0..self.net.steps).map(|j| self.holds[2 * j] as u8).collect()));
            return true;
        };
        let mark = self.trail.len();
        for l in [2 * step, 2 * step + 1] {
            if self.choices == self.cap {
                return false;
            }
            self.choices += 1;
            self.undo(mark);
            self.add(l);
            if !self.search(step + 1) {
                return false;
            }
        }
        true
    }
}

#[derive(Debug, PartialEq)]
pub struct Answer {
    pub number: u32,
    pub choices: u64,
    pub price: u32,
    // how many steps are settled before the first choice, 0 where the closure of nothing fails
    pub settled: u32,
    pub list: Vec<u8>,
}

// 0, the list and its price; or 14 or 15, with no list and the price 0.
pub fn search(net: &Net, cap: u64) -> Answer {
    let mut search = Search::new(net, cap);
    let fails = !search.close_nothing();
    let settled = if fails { 0 } else { search.settled() };
    let ended = fails || search.search(0);
    let (number, (price, list)) = match search.cheapest {
        _ if !ended => (15, (0, vec![])),
        Some(find) => (0, find),
        None => (14, (0, vec![])),
    };
    Answer { number, choices: search.choices, price, settled, list }
}

pub fn repair(table: &[u8], cap: u64) -> Answer {
    search(&net(table), cap)
}

// A literal as a number: the variable's, from 1 on, with a minus sign where it is the opposite.
fn signed(l: Literal) -> i64 {
    let v = l as i64 / 2 + 1;
    if l % 2 == 0 { v } else { -v }
}

// The clauses in their order.
pub fn clauses(net: &Net) -> Vec<Vec<i64>> {
    let bounds = net.starts.windows(2).map(|w| w[0] as usize..w[1] as usize);
    bounds.map(|part| net.literals[part].iter().map(|&l| signed(l as usize)).collect()).collect()
}

// The literals of steps in the closure of some; none where it fails.
pub fn closure(net: &Net, chosen: &[i64]) -> Option<Vec<i64>> {
    let mut search = Search::new(net, 0);
    for &l in chosen {
        search.add(2 * (l.unsigned_abs() as usize - 1) + (l < 0) as usize);
    }
    let closed = search.close_nothing();
    let steps = search.trail.iter().filter(|&&l| l / 2 < net.steps);
    closed.then(|| steps.map(|&l| signed(l)).collect())
}
