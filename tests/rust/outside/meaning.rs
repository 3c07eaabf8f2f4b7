// What holds where, over infinite paths, by searching the graph of the kept steps. There are no levels here.
use crate::table::{Node, Table};

// Which states are meant.
type States<'a> = &'a dyn Fn(usize) -> bool;

pub struct Graph {
    // for each state, where the kept steps out of it end
    next: Vec<Vec<usize>>,
}

impl Graph {
    pub fn new(table: &Table, kept: &[bool]) -> Self {
        let mut next = vec![vec![]; table.initial.len()];
        for (j, &(from, to)) in table.steps.iter().enumerate() {
            if kept[j] {
                next[from].push(to);
            }
        }
        Graph { next }
    }

    pub fn keeps(&self, s: usize) -> bool {
        !self.next[s].is_empty()
    }

    pub fn total(&self) -> bool {
        self.next.iter().flatten().all(|&t| self.keeps(t))
    }

    // Whether a path from s comes to a goal, and no state before it is a stop. In a total list every path goes on for
    // ever.
    fn comes(&self, s: usize, goal: States, stop: States) -> bool {
        self.comes_on(s, goal, stop, &mut vec![false; self.next.len()])
    }

    fn comes_on(&self, s: usize, goal: States, stop: States, seen: &mut [bool]) -> bool {
        if goal(s) {
            return true;
        }
        if stop(s) || seen[s] {
            return false;
        }
        seen[s] = true;
        self.next[s].iter().any(|&t| self.comes_on(t, goal, stop, seen))
    }

    // Whether a path from s stays inside until it is at an end too, or for ever.
    fn lasts(&self, s: usize, inside: States, end: States) -> bool {
        let none = vec![false; self.next.len()];
        self.lasts_on(s, inside, end, &mut none.clone(), &mut none.clone())
    }

    // The path stays for ever where it comes back to a state that it is on.
    fn lasts_on(&self, s: usize, inside: States, end: States, on: &mut [bool], seen: &mut [bool]) -> bool {
        if !inside(s) {
            return false;
        }
        if end(s) || on[s] {
            return true;
        }
        if seen[s] {
            return false;
        }
        seen[s] = true;
        on[s] = true;
        let found = self.next[s].iter().any(|&t| self.lasts_on(t, inside, end, on, seen));
        on[s] = false;
        found
    }

    fn holds(&self, table: &Table, node: &Node, sets: &[Vec<bool>], s: usize) -> bool {
        // only asked of kinds whose children are nodes
        let (a, b) = (|t: usize| sets[node.a][t], |t: usize| sets[node.b][t]);
        let (not_a, not_b) = (|t: usize| !a(t), |t: usize| !b(t));
        let never = |_: usize| false;
        match node.kind {
            0 => false,
            1 => true,
            2 => table.labels[s] >> node.a & 1 == 1,
            3 => !a(s),
            4 => a(s) && b(s),
            5 => a(s) || b(s),
            6 => self.next[s].iter().all(|&t| a(t)),
            7 => self.next[s].iter().any(|&t| a(t)),
            // release: no path loses b before a was there; one keeps b until a is there too, or for ever
            8 => !self.comes(s, &not_b, &a),
            9 => self.lasts(s, &b, &a),
            // until: no path goes without b for ever, or to where a fails too; one comes to b, and a does not fail
            // before
            10 => !self.lasts(s, &not_b, &not_a),
            11 => self.comes(s, &b, &not_a),
            // eventually: no path goes without a for ever; one comes to a
            12 => !self.lasts(s, &not_a, &never),
            13 => self.comes(s, &a, &never),
            // always: no path loses a; one keeps a for ever
            14 => !self.comes(s, &not_a, &never),
            _ => self.lasts(s, &a, &never),
        }
    }

    // For each node the kept states at which it holds. The list is total, so no path leaves the kept states.
    pub fn sets(&self, table: &Table) -> Vec<Vec<bool>> {
        let mut sets: Vec<Vec<bool>> = vec![];
        for node in &table.nodes {
            let set = (0..self.next.len()).map(|s| self.keeps(s) && self.holds(table, node, &sets, s)).collect();
            sets.push(set);
        }
        sets
    }

    // The kept initial states.
    fn starts(&self, table: &Table) -> Vec<usize> {
        (0..self.next.len()).filter(|&s| table.initial[s] && self.keeps(s)).collect()
    }

    // Whether a path from a start comes to each kept state. It has come to the start that it is from.
    fn reaches_all(&self, starts: &[usize]) -> bool {
        let comes_to = |s: usize| starts.iter().any(|&start| self.comes(start, &|t| t == s, &|_| false));
        (0..self.next.len()).all(|s| !self.keeps(s) || comes_to(s))
    }

    fn root_holds(&self, table: &Table, starts: &[usize]) -> bool {
        let sets = self.sets(table);
        let root = &sets[sets.len() - 1];
        starts.iter().all(|&s| root[s])
    }
}

// 0 where the list is a repair in the narrower sense, else 11, 12, 16 or 13, tested in this order.
pub fn judge(table: &Table, kept: &[bool]) -> u32 {
    let graph = Graph::new(table, kept);
    if !graph.total() {
        return 11;
    }
    let starts = graph.starts(table);
    if starts.is_empty() {
        return 12;
    }
    if !graph.reaches_all(&starts) {
        return 16;
    }
    if graph.root_holds(table, &starts) { 0 } else { 13 }
}

pub fn narrow_repair(table: &Table, kept: &[bool]) -> bool {
    judge(table, kept) == 0
}

// Whether the list is a repair in the wider sense: its kept states need not be reached.
pub fn repair(table: &Table, kept: &[bool]) -> bool {
    let graph = Graph::new(table, kept);
    let starts = graph.starts(table);
    graph.total() && !starts.is_empty() && graph.root_holds(table, &starts)
}

// What a list costs: the prices of the steps that it strikes.
pub fn price(table: &Table, kept: &[bool]) -> u32 {
    table.prices.iter().zip(kept).filter(|(_, &kept)| !kept).map(|(price, _)| price).sum()
}

// Every list there is, from the first in rank to the last.
fn lists(table: &Table) -> impl Iterator<Item = Vec<bool>> {
    let e = table.steps.len();
    (0..1usize << e).rev().map(move |number| (0..e).map(|j| number >> (e - 1 - j) & 1 == 1).collect())
}

// Of all repairs in one of these senses the cheapest, and of equal prices the one that ranks first, by trying every
// list in this order.
pub fn cheapest(table: &Table, is_repair: fn(&Table, &[bool]) -> bool) -> Option<Vec<u8>> {
    let mut lists: Vec<Vec<bool>> = lists(table).collect();
    // sorting keeps the order of rank where prices are equal
    lists.sort_by_cached_key(|kept| price(table, kept));
    let found = lists.into_iter().find(|kept| is_repair(table, kept))?;
    Some(found.iter().map(|&k| k as u8).collect())
}

// How many steps all repairs in the wider sense keep, or all strike. Without a repair these are all steps.
pub fn alike(table: &Table) -> usize {
    let repairs: Vec<Vec<bool>> = lists(table).filter(|kept| repair(table, kept)).collect();
    (0..table.steps.len()).filter(|&j| repairs.windows(2).all(|two| two[0][j] == two[1][j])).count()
}
