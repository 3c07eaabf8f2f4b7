// Measures Judge on largest tables against the same algorithm in plain Rust, in one run: with releases alone, then with
// all fixed points.
mod fitter;
mod sequence;

use sequence::Random;

// The same algorithm, not proved: 0 or the number of the refusal.
mod plain {
    fn check_table(t: &[u8]) -> u32 {
        if t.len() < 4 {
            return 2;
        }
        let (n, e, f, p) = (t[0] as usize, t[1] as usize, t[2] as usize, t[3] as usize);
        if n < 1 || n > 32 || e > 128 || f < 1 || f > 32 || p > 16 {
            return 3;
        }
        if t.len() != 4 + 3 * n + 3 * e + 3 * f {
            return 2;
        }
        let (states, rest) = t[4..].split_at(3 * n);
        let (steps, nodes) = rest.split_at(3 * e);
        let mut initial = false;
        for s in states.chunks(3) {
            if s[0] > 1 || (s[1] as usize + 256 * s[2] as usize) >> p != 0 {
                return 4;
            }
            initial |= s[0] == 1;
        }
        if !initial {
            return 5;
        }
        let mut given = [0u32; 32];
        let mut repeated = false;
        for x in steps.chunks(3) {
            if x[0] as usize >= n || x[1] as usize >= n {
                return 6;
            }
            repeated |= given[x[0] as usize] >> x[1] & 1 == 1;
            given[x[0] as usize] |= 1 << x[1];
        }
        if repeated {
            return 7;
        }
        for (i, x) in nodes.chunks(3).enumerate() {
            let (a, b) = (x[1] as usize, x[2] as usize);
            let fits = match x[0] {
                0 | 1 => a == 0 && b == 0,
                2 => a < p && b == 0,
                3 | 6 | 7 | 12..=15 => a < i && b == 0,
                4 | 5 | 8..=11 => a < i && b < i,
                _ => false,
            };
            if !fits {
                return 8;
            }
        }
        0
    }

    fn next(every: bool, rows: &[u32; 32], n: usize, set: u32) -> u32 {
        let mut states = 0;
        for s in 0..n {
            let yes = if every { rows[s] != 0 && rows[s] & !set == 0 } else { rows[s] & set != 0 };
            states |= (yes as u32) << s;
        }
        states
    }

    // Levels from this one on: each is made of the next states of the one before.
    fn levels(every: bool, rows: &[u32; 32], n: usize, first: u32, above: impl Fn(u32) -> u32) -> u32 {
        let mut level = first;
        for _ in 0..n {
            let above = above(next(every, rows, n, level));
            if above == level {
                break;
            }
            level = above;
        }
        level
    }

    // From the starts, by the rows of next states: `left` has those whose row is not yet added.
    fn reached(rows: &[u32; 32], starts: u32) -> u32 {
        let (mut reached, mut left) = (starts, starts);
        while left != 0 {
            let s = left.trailing_zeros() as usize;
            let new = rows[s] & !reached;
            reached |= new;
            left = left & !(1 << s) | new;
        }
        reached
    }

    pub fn judge(t: &[u8], list: &[u8]) -> u32 {
        let refused = check_table(t);
        if refused != 0 {
            return refused;
        }
        let (n, e, f) = (t[0] as usize, t[1] as usize, t[2] as usize);
        if list.len() != e || list.iter().any(|&b| b > 1) {
            return 9;
        }
        let (states, rest) = t[4..].split_at(3 * n);
        let (steps, nodes) = rest.split_at(3 * e);
        let mut rows = [0u32; 32];
        for (x, &b) in steps.chunks(3).zip(list) {
            if b == 1 {
                rows[x[0] as usize] |= 1 << x[1];
            }
        }
        let kept = (0..n).filter(|&s| rows[s] != 0).fold(0u32, |k, s| k | 1 << s);
        if rows.iter().any(|r| r & !kept != 0) {
            return 11;
        }
        let mut sets = [0u32; 32];
        for (i, x) in nodes.chunks(3).enumerate() {
            let (a, b) = (x[1] as usize, x[2] as usize);
            let every = x[0] % 2 == 0;
            sets[i] = match x[0] {
                1 => kept,
                2 => {
                    kept & (0..n)
                        .filter(|&s| (states[3 * s + 1] as u32 + 256 * states[3 * s + 2] as u32) >> a & 1 == 1)
                        .fold(0, |k, s| k | 1 << s)
                }
                3 => kept & !sets[a],
                4 => sets[a] & sets[b],
                5 => sets[a] | sets[b],
                6 | 7 => next(every, &rows, n, sets[a]),
                8 | 9 => levels(every, &rows, n, sets[b], |next| sets[b] & (sets[a] | next)),
                10 | 11 => levels(every, &rows, n, sets[b], |next| sets[b] | sets[a] & next),
                12 | 13 => levels(every, &rows, n, sets[a], |next| sets[a] | next),
                14 | 15 => levels(every, &rows, n, sets[a], |next| sets[a] & next),
                _ => 0,
            };
        }
        let starts = kept & (0..n).filter(|&s| states[3 * s] == 1).fold(0, |k, s| k | 1 << s);
        if starts == 0 {
            return 12;
        }
        if kept & !reached(&rows, starts) != 0 {
            return 16;
        }
        if starts & !sets[f - 1] != 0 {
            return 13;
        }
        0
    }
}

// 32 states, 128 steps, 32 nodes: four steps out of each state, and fixed-point nodes where they can stand, of so many
// kinds from 8 on.
fn largest(random: &mut Random, kinds: u64) -> (Vec<u8>, Vec<u8>) {
    let mut t = vec![32, 128, 32, 16];
    for s in 0..32 {
        t.extend([(s == 0) as u8, random.below(256) as u8, random.below(256) as u8]);
    }
    for s in 0..32u8 {
        let first = random.below(32) as u8;
        for k in 0..4 {
            t.extend([s, (first + 7 * k) % 32, 8 * s + k]);
        }
    }
    for i in 0..32u64 {
        if i < 4 {
            t.extend([2, random.below(16) as u8, 0]);
        } else {
            let (kind, a, b) = (8 + random.below(kinds) as u8, random.below(i) as u8, random.below(i) as u8);
            t.extend([kind, a, if kind < 12 { b } else { 0 }]);
        }
    }
    (t, vec![1; 128])
}

fn measure(name: &str, kinds: u64) {
    let mut random = Random(1);
    let inputs: Vec<(Vec<u8>, Vec<u8>)> = (0..200).map(|_| largest(&mut random, kinds)).collect();
    for (t, l) in &inputs {
        assert_eq!(fitter::judge(t, l), plain::judge(t, l), "judges differ");
    }
    let mut best = [f64::MAX; 2];
    for _ in 0..7 {
        for (k, judge) in [fitter::judge as fn(&[u8], &[u8]) -> u32, plain::judge].iter().enumerate() {
            let start = std::time::Instant::now();
            let mut sum = 0;
            for _ in 0..20 {
                for (t, l) in &inputs {
                    sum += std::hint::black_box(judge(std::hint::black_box(t), std::hint::black_box(l)));
                }
            }
            std::hint::black_box(sum);
            best[k] = best[k].min(start.elapsed().as_secs_f64() / (20.0 * inputs.len() as f64) * 1e6);
        }
    }
    println!("judge, {name}: {:.2} us a call; plain Rust {:.2} us; ratio {:.2}", best[0], best[1], best[0] / best[1]);
}

fn main() {
    measure("largest tables", 2);
    measure("largest tables, all fixed points", 8);
}
