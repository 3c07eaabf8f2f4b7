// A packed table taken apart, with the tests 2 to 8 in their order, and the test of a list, 9.

pub struct Node {
    pub kind: u8,
    pub a: usize,
    pub b: usize,
}

pub struct Table {
    pub initial: Vec<bool>,
    pub labels: Vec<u16>,
    pub steps: Vec<(usize, usize)>,
    pub prices: Vec<u32>,
    pub nodes: Vec<Node>,
}

// The table, or the number of its refusal.
pub fn accept(bytes: &[u8]) -> Result<Table, u32> {
    if bytes.len() < 4 {
        return Err(2);
    }
    let [n, e, f, p] = [0, 1, 2, 3].map(|i| bytes[i] as usize);
    if !(1..=32).contains(&n) || e > 128 || !(1..=32).contains(&f) || p > 16 {
        return Err(3);
    }
    if bytes.len() != 4 + 3 * n + 3 * e + 3 * f {
        return Err(2);
    }
    let states: Vec<&[u8]> = bytes[4..4 + 3 * n].chunks(3).collect();
    let steps: Vec<&[u8]> = bytes[4 + 3 * n..4 + 3 * n + 3 * e].chunks(3).collect();
    let nodes: Vec<&[u8]> = bytes[4 + 3 * n + 3 * e..].chunks(3).collect();

    let label = |state: &[u8]| u16::from_le_bytes([state[1], state[2]]);
    if states.iter().any(|state| state[0] > 1 || u32::from(label(state)) >= 1 << p) {
        return Err(4);
    }
    if states.iter().all(|state| state[0] == 0) {
        return Err(5);
    }
    if steps.iter().any(|step| step[0] as usize >= n || step[1] as usize >= n) {
        return Err(6);
    }
    if (0..e).any(|j| steps[..j].iter().any(|step| step[..2] == steps[j][..2])) {
        return Err(7);
    }
    if nodes.iter().enumerate().any(|(i, node)| !node_fits(node, i, p)) {
        return Err(8);
    }
    Ok(Table {
        initial: states.iter().map(|state| state[0] == 1).collect(),
        labels: states.iter().map(|state| label(state)).collect(),
        steps: steps.iter().map(|step| (step[0] as usize, step[1] as usize)).collect(),
        prices: steps.iter().map(|step| step[2].into()).collect(),
        nodes: nodes.iter().map(|node| Node { kind: node[0], a: node[1] as usize, b: node[2] as usize }).collect(),
    })
}

// Node i: its children are lower, its proposition is below p, and what it does not use is 0.
fn node_fits(node: &[u8], i: usize, p: usize) -> bool {
    let (a, b) = (node[1] as usize, node[2] as usize);
    match node[0] {
        0 | 1 => a == 0 && b == 0,
        2 => a < p && b == 0,
        3 | 6 | 7 | 12..=15 => a < i && b == 0,
        4 | 5 | 8..=11 => a < i && b < i,
        _ => false,
    }
}

// Which steps a list keeps, or 9.
pub fn accept_list(table: &Table, list: &[u8]) -> Result<Vec<bool>, u32> {
    if list.len() != table.steps.len() || list.iter().any(|&x| x > 1) {
        return Err(9);
    }
    Ok(list.iter().map(|&x| x == 1).collect())
}

// V.
pub fn variables(table: &Table) -> usize {
    let (n, e) = (table.initial.len(), table.steps.len());
    let of_node = |node: &Node| match node.kind {
        0..=5 => n,
        6 | 7 => e + n,
        8..=11 => n + n * (e + 3 * n),
        _ => n + n * (e + 2 * n),
    };
    e + n + table.nodes.iter().map(of_node).sum::<usize>()
}
