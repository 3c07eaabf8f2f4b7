// Damages the text of a sheet.
use crate::random::Random;

const WORDS: [&str; 24] = [
    "255", "256", "257", "260", "300", "999", "1000", "65535", "65536", "65791", "131072", "4294967296",
    "18446744073709551616", "00", "01", "007", "-0", "+1", "", " ", "1e1", "0x1", "a", "3 3",
];

pub fn text(random: &mut Random, text: &mut Vec<u8>) {
    for _ in 0..random.pick(&[1, 1, 1, 2]) {
        match random.below(9) {
            0 => byte(random, text),
            1 | 2 => value(random, text),
            3 => ends(random, text),
            4 | 5 => line(random, text),
            6 => last_word(random, text),
            _ => within(random, text),
        }
    }
}

// One byte changed, put in or taken out, anywhere.
fn byte(random: &mut Random, text: &mut Vec<u8>) {
    let new = if random.once_in(2) { random.byte() } else { random.pick(b"0123456789 \n\r\t") };
    let i = random.below(text.len() + 1);
    match random.below(3) {
        0 => text.insert(i, new),
        1 if i < text.len() => text[i] = new,
        _ if i < text.len() => _ = text.remove(i),
        _ => text.push(new),
    }
}

// Changes one run of bytes other than spaces and byte 10.
fn value(random: &mut Random, text: &mut Vec<u8>) {
    let i = random.below(text.len() + 1);
    let gap = |c: &u8| *c == b' ' || *c == 10;
    let from = text[..i].iter().rposition(gap).map_or(0, |k| k + 1);
    let to = text[i..].iter().position(gap).map_or(text.len(), |k| i + k);
    let word = if random.once_in(3) { random.below(300).to_string() } else { random.pick(&WORDS).to_string() };
    text.splice(from..to, word.into_bytes());
}

// What comes before the first line or after the last.
fn ends(random: &mut Random, text: &mut Vec<u8>) {
    match random.below(6) {
        0 => _ = text.pop(),
        1 => text.push(10),
        2 => text.push(random.pick(b" \r\0019")),
        3 => text.truncate(random.below(text.len() + 1)),
        4 => text.insert(0, random.pick(b" \n\r\xEF")),
        _ => text.extend(vec![random.pick(b"0 1\n\0"); random.pick(&[2, 600, 5000])]),
    }
}

// A line taken out, written twice, or moved.
fn line(random: &mut Random, text: &mut Vec<u8>) {
    let mut lines: Vec<Vec<u8>> = text.split_inclusive(|&c| c == 10).map(|line| line.to_vec()).collect();
    if lines.is_empty() {
        return;
    }
    let (i, j) = (random.below(lines.len()), random.below(lines.len()));
    match random.below(3) {
        0 => _ = lines.remove(i),
        1 => lines.insert(i, lines[j].clone()),
        _ => lines.swap(i, j),
    }
    *text = lines.concat();
}

// The last word of a line taken out, with the space before it: a line of the steps, or the line of their names, without
// the price.
fn last_word(random: &mut Random, text: &mut Vec<u8>) {
    let ends: Vec<usize> = (0..text.len()).filter(|&i| text[i] == 10).collect();
    if ends.is_empty() {
        return;
    }
    let end = random.pick(&ends);
    let from = text[..end].iter().rposition(|&c| c == b' ' || c == 10).unwrap_or(0);
    text.drain(from..end);
}

// Something before, after or between the words of a line.
fn within(random: &mut Random, text: &mut Vec<u8>) {
    let places: Vec<usize> = (0..text.len()).filter(|&i| text[i] == b' ' || text[i] == 10).collect();
    if places.is_empty() {
        return;
    }
    let i = random.pick(&places) + random.below(2);
    let put: &[u8] = random.pick(&[b" ".as_slice(), b"\n", b"\r", b"\t", b"0", b" 0", b"0 "]);
    text.splice(i..i, put.iter().copied());
}
