// A table before it is packed or written as a sheet. It need not be a good one.

#[derive(Clone)]
pub struct Draft {
    pub counts: [u8; 4],
    pub states: Vec<(u8, u16)>,
    // from, to, price
    pub steps: Vec<(u8, u8, u8)>,
    pub nodes: Vec<[u8; 3]>,
}

impl Draft {
    pub fn pack(&self) -> Vec<u8> {
        let mut bytes = self.counts.to_vec();
        for &(initial, label) in &self.states {
            bytes.extend([initial, label as u8, (label >> 8) as u8]);
        }
        for &(from, to, price) in &self.steps {
            bytes.extend([from, to, price]);
        }
        bytes.extend(self.nodes.concat());
        bytes
    }

    pub fn sheet(&self) -> String {
        let [n, e, f, p] = self.counts;
        let mut text = format!("states edges nodes props\n{n} {e} {f} {p}\ninitial label\n");
        for (initial, label) in &self.states {
            text += &format!("{initial} {label}\n");
        }
        text += "from to price\n";
        for (from, to, price) in &self.steps {
            text += &format!("{from} {to} {price}\n");
        }
        text += "kind a b\n";
        for [kind, a, b] in &self.nodes {
            text += &format!("{kind} {a} {b}\n");
        }
        text
    }
}
