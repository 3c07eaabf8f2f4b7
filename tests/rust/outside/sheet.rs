// Reading a sheet: the form of the text by its lines, then the table's tests.
use crate::table;

const NAMES: [&[u8]; 4] = [b"states edges nodes props", b"initial label", b"from to price", b"kind a b"];

// The packed table, or 1, or 3 to 8.
pub fn read(text: &[u8]) -> Result<Vec<u8>, u32> {
    let bytes = packed(text).ok_or(1u32)?;
    match table::accept(&bytes) {
        Ok(_) => Ok(bytes),
        Err(number) => Err(number),
    }
}

// All values as bytes, where the text is of sheet form. The counts are as written, 0 to 255.
fn packed(text: &[u8]) -> Option<Vec<u8>> {
    let mut lines: Vec<&[u8]> = text.split(|&c| c == 10).collect();
    // byte 10 is after every line, so nothing follows the last one
    if lines.pop() != Some(&[]) || lines.len() < 2 {
        return None;
    }
    let counts = values(lines[1], &[255; 4])?;
    let (n, e, f) = (counts[0], counts[1], counts[2]);
    if lines.len() != 5 + n + e + f {
        return None;
    }
    let heads = [0, 2, 3 + n, 4 + n + e];
    if (0..4).any(|k| lines[heads[k]] != NAMES[k]) {
        return None;
    }
    let mut bytes: Vec<u8> = counts.iter().map(|&x| x as u8).collect();
    for line in &lines[3..3 + n] {
        let state = values(line, &[255, 65535])?;
        bytes.extend([state[0] as u8, (state[1] % 256) as u8, (state[1] / 256) as u8]);
    }
    for line in lines[4 + n..4 + n + e].iter().chain(&lines[5 + n + e..]) {
        bytes.extend(values(line, &[255; 3])?.iter().map(|&x| x as u8));
    }
    Some(bytes)
}

// As many values as there are limits, one space between.
fn values(line: &[u8], limits: &[usize]) -> Option<Vec<usize>> {
    let words: Vec<&[u8]> = line.split(|&c| c == b' ').collect();
    if words.len() != limits.len() {
        return None;
    }
    words.iter().zip(limits).map(|(word, &limit)| value(word, limit)).collect()
}

// A number up to the limit, written as it would be printed.
fn value(word: &[u8], limit: usize) -> Option<usize> {
    let number: usize = std::str::from_utf8(word).ok()?.parse().ok()?;
    (number <= limit && number.to_string().as_bytes() == word).then_some(number)
}
