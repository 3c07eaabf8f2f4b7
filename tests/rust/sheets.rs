// Runs every line of a file of sheets through Read, and compares the number, the length and every byte of the buffer,
// with guard bytes around it. Arguments: the file, and how many lines it has behind the names.
//
// A line: the text; Read's number; and what the program prints, which `fit_sheets` looks at.
mod fitter;
mod vectors;

const GUARD: u8 = 0xA5;

// The length of the longest table.
const LONGEST: usize = 580;

// The packed table of a text of sheet form, read the plain way: every line of values in its order.
fn packed(text: &[u8]) -> Vec<u8> {
    let text = std::str::from_utf8(text).unwrap();
    let mut bytes = Vec::new();
    let mut names = "";
    for line in text.lines() {
        if line.starts_with(|c: char| c.is_ascii_digit()) {
            for (k, value) in line.split(' ').enumerate() {
                let value: u32 = value.parse().unwrap();
                bytes.push((value % 256) as u8);
                if names == "initial label" && k == 1 {
                    bytes.push((value / 256) as u8);
                }
            }
        } else {
            names = line;
        }
    }
    bytes
}

// Read with this much room: the answer, and every byte of the buffer and of its guards.
fn agrees(text: &[u8], room: usize, wanted: u32, bytes: &[u8]) -> bool {
    let mut buffer = vec![GUARD; room + 4];
    let mut length = u64::MAX;
    let got = fitter::read(text, &mut buffer[2..2 + room], &mut length);
    let written = if wanted == 0 { bytes } else { &[] };
    got == wanted
        && length == if wanted == 0 { bytes.len() as u64 } else { u64::MAX }
        && (0..buffer.len()).all(|i| buffer[i] == if i >= 2 && i < 2 + written.len() { written[i - 2] } else { GUARD })
}

// With as much room as needed, with more and with less; and the text a byte short, and one line long.
fn sheet_agrees(text: &[u8]) -> bool {
    let bytes = packed(text);
    let cut = &text[..text.len() - 1];
    let more = [text, b"\n"].concat();
    agrees(text, bytes.len(), 0, &bytes)
        && agrees(text, bytes.len() + 9, 0, &bytes)
        && agrees(text, bytes.len() - 1, 10, &bytes)
        && agrees(text, 0, 10, &bytes)
        && agrees(cut, LONGEST, 1, &bytes)
        && agrees(&more, LONGEST, 1, &bytes)
}

fn line_agrees(columns: &[String]) -> bool {
    let [text, number, _] = columns else { return false };
    let (text, number) = (vectors::bytes(text), vectors::number(number));
    if number == 0 {
        sheet_agrees(&text)
    } else {
        agrees(&text, LONGEST, number, &[]) && agrees(&text, 0, number, &[])
    }
}

fn main() {
    vectors::run("sheets", line_agrees)
}
