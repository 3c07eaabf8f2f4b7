// The closure of nothing, word for word: the clauses of the net written out (Specification, "Net"), and the smallest
// set of literals that they ask for (Specification, "Closure"), by going over all of them until none asks for more. It
// has no counters, and nothing of the plain search.
use crate::table::{Node, Table};

// A variable, and whether it is said as it is.
type Literal = (usize, bool);

fn not((variable, said): Literal) -> Literal {
    (variable, !said)
}

// Steps are the first variables.
fn step(j: usize) -> Literal {
    (j, true)
}

struct Clauses {
    variables: usize,
    clauses: Vec<Vec<Literal>>,
}

impl Clauses {
    fn gate(&mut self) -> Literal {
        self.variables += 1;
        (self.variables - 1, true)
    }

    fn and(&mut self, inputs: &[Literal]) -> Literal {
        let g = self.gate();
        self.clauses.extend(inputs.iter().map(|&l| vec![not(g), l]));
        self.clauses.push([g].into_iter().chain(inputs.iter().map(|&l| not(l))).collect());
        g
    }

    fn or(&mut self, inputs: &[Literal]) -> Literal {
        let g = self.gate();
        self.clauses.extend(inputs.iter().map(|&l| vec![g, not(l)]));
        self.clauses.push([not(g)].into_iter().chain(inputs.iter().copied()).collect());
        g
    }

    // Kind 6 at s over the row x, or kind 7.
    fn next(&mut self, table: &Table, every: bool, x: &[Literal], s: usize) -> Literal {
        let mut gates = vec![];
        for (j, &(from, to)) in table.steps.iter().enumerate() {
            if from == s {
                gates.push(if every { self.or(&[not(step(j)), x[to]]) } else { self.and(&[step(j), x[to]]) });
            }
        }
        if every { self.and(&gates) } else { self.or(&gates) }
    }

    // A level at one state, over the one before it.
    fn level(&mut self, kind: u8, a: Literal, b: Literal, next: Literal) -> Literal {
        match kind {
            8 | 9 => {
                let g = self.or(&[a, next]);
                self.and(&[b, g])
            }
            10 | 11 => {
                let g = self.and(&[a, next]);
                self.or(&[b, g])
            }
            12 | 13 => self.or(&[a, next]),
            _ => self.and(&[a, next]),
        }
    }

    // What a node has at each state; `x` has the rows of the nodes before it.
    fn row(&mut self, table: &Table, node: &Node, x: &[Vec<Literal>]) -> Vec<Literal> {
        let states = 0..table.initial.len();
        // only asked of kinds whose children are nodes
        let (a, b) = (|s: usize| x[node.a][s], |s: usize| x[node.b][s]);
        match node.kind {
            0 => states.map(|_| self.or(&[])).collect(),
            1 => states.map(|_| self.and(&[])).collect(),
            2 => {
                states.map(|s| if table.labels[s] >> node.a & 1 == 1 { self.and(&[]) } else { self.or(&[]) }).collect()
            }
            3 => states.map(|s| self.and(&[not(a(s))])).collect(),
            4 => states.map(|s| self.and(&[a(s), b(s)])).collect(),
            5 => states.map(|s| self.or(&[a(s), b(s)])).collect(),
            6 | 7 => states.map(|s| self.next(table, node.kind == 6, &x[node.a], s)).collect(),
            kind => {
                let mut level: Vec<Literal> =
                    states.clone().map(|s| self.and(&[if kind < 12 { b(s) } else { a(s) }])).collect();
                for _ in states.clone() {
                    let next: Vec<Literal> =
                        states.clone().map(|s| self.next(table, kind % 2 == 0, &level, s)).collect();
                    level = states.clone().map(|s| self.level(kind, a(s), b(s), next[s])).collect();
                }
                level
            }
        }
    }
}

fn clauses(table: &Table) -> Clauses {
    let states = 0..table.initial.len();
    let steps = || table.steps.iter().enumerate();
    let mut all = Clauses { variables: table.steps.len(), clauses: vec![] };
    let kept: Vec<Literal> = states
        .clone()
        .map(|s| all.or(&steps().filter(|(_, x)| x.0 == s).map(|(j, _)| step(j)).collect::<Vec<_>>()))
        .collect();
    let mut x: Vec<Vec<Literal>> = vec![];
    for node in &table.nodes {
        let row = all.row(table, node, &x);
        x.push(row);
    }
    all.clauses.extend(steps().map(|(j, &(_, to))| vec![not(step(j)), kept[to]]));
    let initial: Vec<usize> = states.filter(|&s| table.initial[s]).collect();
    all.clauses.push(initial.iter().map(|&s| kept[s]).collect());
    all.clauses.extend(initial.iter().map(|&s| vec![not(kept[s]), x[x.len() - 1][s]]));
    all
}

// Which literals are in.
struct Set {
    said: Vec<bool>,
    turned: Vec<bool>,
}

impl Set {
    fn has(&self, (variable, said): Literal) -> bool {
        if said { self.said[variable] } else { self.turned[variable] }
    }

    fn settles(&self, variable: usize) -> bool {
        self.said[variable] || self.turned[variable]
    }

    fn fails(&self) -> bool {
        (0..self.said.len()).any(|variable| self.said[variable] && self.turned[variable])
    }

    // Puts in what the clause asks for: a literal, where all those are contradicted that differ from it. Whether it is
    // new.
    fn grow(&mut self, clause: &[Literal]) -> bool {
        let mut grown = false;
        for &l in clause {
            if !self.has(l) && clause.iter().all(|&m| m == l || self.has(not(m))) {
                let (variable, said) = l;
                if said { self.said[variable] = true } else { self.turned[variable] = true }
                grown = true;
            }
        }
        grown
    }
}

// How many steps the closure of nothing settles, and 0 where it fails.
pub fn settled(table: &Table) -> u32 {
    let all = clauses(table);
    let mut set = Set { said: vec![false; all.variables], turned: vec![false; all.variables] };
    // from the first clause to the last and back: what is known of a gate goes both ways, and the order makes no
    // difference to the set
    loop {
        let mut grown = all.clauses.iter().filter(|clause| set.grow(clause)).count() > 0;
        grown |= all.clauses.iter().rev().filter(|clause| set.grow(clause)).count() > 0;
        if !grown {
            break;
        }
    }
    if set.fails() { 0 } else { (0..table.steps.len()).filter(|&j| set.settles(j)).count() as u32 }
}
