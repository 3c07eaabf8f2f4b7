// Damages drafts, bytes and lists.
use crate::draft::Draft;
use crate::random::Random;

// One to three wrongs in the records or counts of a draft.
pub fn draft(random: &mut Random, draft: &mut Draft) {
    for _ in 0..random.pick(&[1, 1, 1, 2, 2, 3]) {
        match random.below(4) {
            0 => state(random, draft),
            1 => step(random, draft),
            2 => node(random, draft),
            _ => counts(random, draft),
        }
    }
}

fn state(random: &mut Random, draft: &mut Draft) {
    if draft.states.is_empty() {
        return;
    }
    let s = random.below(draft.states.len());
    let p = draft.counts[3] as u32;
    match random.below(3) {
        0 => draft.states[s].0 = random.pick(&[2, 3, 128, 255]),
        1 => draft.states[s].1 |= 1u16.checked_shl(p).unwrap_or(0) << random.pick(&[0, 0, 1, 7]),
        _ => draft.states.iter_mut().for_each(|state| state.0 = 0),
    }
}

fn step(random: &mut Random, draft: &mut Draft) {
    if draft.steps.is_empty() {
        return;
    }
    let j = random.below(draft.steps.len());
    let over = draft.counts[0].saturating_add(random.pick(&[0, 0, 1, 40, 255]));
    match random.below(6) {
        0 => draft.steps[j].0 = over,
        1 => draft.steps[j].1 = over,
        // any price is good
        2 => draft.steps[j].2 = random.byte(),
        3 => draft.steps[j] = random.pick(&draft.steps.clone()),
        // given twice, whatever the prices are
        _ => {
            let (from, to, price) = random.pick(&draft.steps.clone());
            draft.steps[j] = (from, to, price ^ random.pick(&[1, 2, 128, 255]));
        }
    }
}

fn node(random: &mut Random, draft: &mut Draft) {
    if draft.nodes.is_empty() {
        return;
    }
    let i = random.below(draft.nodes.len());
    let p = draft.counts[3];
    let node = &mut draft.nodes[i];
    match random.below(6) {
        0 => node[0] = random.below(16) as u8,
        1 => node[0] = random.pick(&[16, 16, 16, 17, 31, 144, 255]),
        2 => node[random.between(1, 2)] = (i as u8).wrapping_add(random.pick(&[0, 0, 1, 32, 255])),
        3 => *node = [2, p.wrapping_add(random.pick(&[0, 0, 1, 255])), 0],
        // one child, and a second that would be lower too
        4 => {
            *node = [
                random.pick(&[3, 6, 7, 12, 13, 14, 15]),
                random.below(i.max(1)) as u8,
                random.between(1, i.max(2) - 1) as u8,
            ]
        }
        _ => node[random.between(1, 2)] ^= 1 << random.below(8),
    }
}

// A count that its records do not follow, or one that they follow, in range or out of it.
fn counts(random: &mut Random, draft: &mut Draft) {
    let k = random.below(4);
    if random.once_in(4) {
        draft.counts[k] = draft.counts[k].wrapping_add(random.pick(&[1, 255]));
        return;
    }
    let edges: [&[u8]; 4] = [&[0, 1, 32, 33, 255], &[0, 128, 129, 255], &[0, 1, 32, 33, 255], &[0, 16, 17, 255]];
    let near = draft.counts[k].wrapping_add(random.pick(&[1, 255]));
    let count = if random.once_in(2) { near } else { random.pick(edges[k]) };
    draft.counts[k] = count;
    match k {
        0 => resize(random, &mut draft.states, count, |r| (r.byte() & 1, 0)),
        1 => resize(random, &mut draft.steps, count, |r| (r.byte() & 31, r.byte() & 31, r.byte())),
        2 => resize(random, &mut draft.nodes, count, |r| [r.byte() & 1, 0, 0]),
        _ => {}
    }
}

fn resize<T>(random: &mut Random, records: &mut Vec<T>, count: u8, draw: fn(&mut Random) -> T) {
    records.resize_with(count as usize, || draw(random));
}

// Bytes changed, cut off or put on.
pub fn bytes(random: &mut Random, bytes: &mut Vec<u8>) {
    match random.below(4) {
        0 => bytes.truncate(random.below(bytes.len() + 1)),
        1 => bytes.truncate(bytes.len().saturating_sub(random.between(1, 3))),
        2 => {
            for _ in 0..random.pick(&[1, 1, 2, 3, 100, 1000]) {
                bytes.push(random.byte());
            }
        }
        _ => {
            for _ in 0..random.pick(&[1, 1, 2, 5]) {
                if !bytes.is_empty() {
                    let (i, up) = (random.below(bytes.len()), random.pick(&[1, 255]));
                    bytes[i] = if random.once_in(2) { random.byte() } else { bytes[i].wrapping_add(up) };
                }
            }
        }
    }
}

// A list that is too long, too short or has another byte.
pub fn list(random: &mut Random, list: &mut Vec<u8>) {
    match random.below(4) {
        0 => list.push(random.pick(&[0, 1, 1, 2])),
        1 => list.truncate(random.below(list.len() + 1)),
        2 => list.extend(vec![1; random.pick(&[2, 128, 256, 65536])]),
        _ if list.is_empty() => list.push(1),
        _ => {
            let j = random.below(list.len());
            list[j] = random.pick(&[2, 3, 48, 49, 128, 254, 255]);
        }
    }
}
