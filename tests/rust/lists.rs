// Runs every line of a file of lists through Judge, Label and Holding, and compares all buffers, with guard entries
// around them. Arguments: the file, and how many lines it has behind the names.
//
// A line: the table; the list; Judge's number; Label's number and its words; Holding's number, how many states it
// gives, and the states. What a refused call does not give is `-`.
mod fitter;
mod vectors;

const GUARD: u32 = 0xA5A5A5A5;

// Label with as many entries as needed, with more, and with one too few.
fn label_agrees(table: &[u8], list: &[u8], number: u32, words: &[u32]) -> bool {
    let rooms = if number == 0 { vec![words.len(), words.len() + 3, words.len() - 1] } else { vec![32] };
    rooms.iter().enumerate().all(|(k, &room)| {
        let wanted = if k == 2 { 10 } else { number };
        let mut buffer = vec![GUARD; room + 4];
        let got = fitter::label(table, list, &mut buffer[2..2 + room]);
        let written = if wanted == 0 { words.len() } else { 0 };
        got == wanted
            && (0..buffer.len()).all(|i| buffer[i] == if i >= 2 && i < 2 + written { words[i - 2] } else { GUARD })
    })
}

// The first bytes are the states; the rest stays.
fn holding_agrees(table: &[u8], list: &[u8], number: u32, states: &[u8]) -> bool {
    let n = if table.is_empty() { 0 } else { table[0] as usize };
    let rooms = if number == 0 { vec![n, n + 3, n - 1] } else { vec![32] };
    rooms.iter().enumerate().all(|(k, &room)| {
        let wanted = if k == 2 { 10 } else { number };
        let mut buffer = vec![0xA5u8; room + 4];
        let mut count = GUARD;
        let got = fitter::holding(table, list, &mut buffer[2..2 + room], &mut count);
        let written = if wanted == 0 { states.len() } else { 0 };
        got == wanted
            && count == if wanted == 0 { states.len() as u32 } else { GUARD }
            && (0..buffer.len()).all(|i| buffer[i] == if i >= 2 && i < 2 + written { states[i - 2] } else { 0xA5 })
    })
}

fn line_agrees(columns: &[String]) -> bool {
    let [table, list, judge, label, words, holding, count, states] = columns else { return false };
    let (table, list, states) = (vectors::bytes(table), vectors::bytes(list), vectors::bytes(states));
    let (judge, label, holding) = (vectors::number(judge), vectors::number(label), vectors::number(holding));
    fitter::judge(&table, &list) == judge
        && label_agrees(&table, &list, label, &vectors::numbers(words))
        && holding_agrees(&table, &list, holding, &states)
        && (holding != 0 || vectors::number(count) as usize == states.len())
}

fn main() {
    vectors::run("lists", line_agrees)
}
