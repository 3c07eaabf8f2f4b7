// Runs every line of a file of parcels through the call that repairs several tables under one allowance, and compares
// the number, the answers, how many tables there are, the allowance left and every entry of the four buffers, with
// guard entries around them. Where a parcel is accepted, each answer and each list must be what Repair gives for the
// table alone with the allowance then left. Arguments: the file, and how many lines it has behind the names.
//
// A line: the parcel; the cap; how many entries of the buffers for lists, bytes and words are lent, with eight for
// answers; the number of the refusal, or 0; for each table found, none or spent, the choices, the price and the settled
// steps, with colons between; the allowance left; the buffer for lists afterwards, which was full of UNWRITTEN before.
// The last three are `-` where the call refuses.
mod before;
mod clauses;
mod fitter;
mod vectors;

use before::{bytes_before, list_before, words_before, GUARD};
use fitter::Answer;

// What no list has.
const UNWRITTEN: u8 = 0xEE;

// How many entries of each buffer are lent.
#[derive(Clone, Copy)]
struct Room {
    lists: usize,
    bytes: usize,
    words: usize,
    answers: usize,
}

// No entry of any buffer.
const NOTHING: Room = Room { lists: 0, bytes: 0, words: 0, answers: 0 };

struct Vector {
    parcel: Vec<u8>,
    cap: u64,
    room: Room,
    number: u32,
    answers: Vec<Answer>,
    left: u64,
    lists: Vec<u8>,
}

fn answer(text: &str) -> Option<Answer> {
    let [answer, choices, price, settled] = text.split(':').collect::<Vec<_>>()[..] else { return None };
    let number = match answer {
        "found" => 0,
        "none" => 14,
        "spent" => 15,
        _ => return None,
    };
    Some(Answer { choices: choices.parse().ok()?, number, price: price.parse().ok()?, settled: settled.parse().ok()? })
}

fn vector(columns: &[String]) -> Option<Vector> {
    let [parcel, cap, lists, bytes, words, number, answers, left, after] = columns else { return None };
    let number = vectors::number(number);
    let room = |column: &String| column.parse().ok();
    Some(Vector {
        parcel: vectors::bytes(parcel),
        cap: cap.parse().ok()?,
        room: Room { lists: room(lists)?, bytes: room(bytes)?, words: room(words)?, answers: 8 },
        number,
        answers: if number == 0 { answers.split(',').map(answer).collect::<Option<_>>()? } else { vec![] },
        left: if number == 0 { left.parse().ok()? } else { 0 },
        lists: vectors::bytes(after),
    })
}

// The tables of an accepted parcel.
fn tables(parcel: &[u8]) -> Vec<&[u8]> {
    let (mut tables, mut rest) = (vec![], parcel);
    while !rest.is_empty() {
        let records = rest[..3].iter().map(|&count| count as usize).sum::<usize>();
        let (table, behind) = rest.split_at(4 + 3 * records);
        tables.push(table);
        rest = behind;
    }
    tables
}

// The summed steps, the largest V of any table, and a place for each answer.
fn needed(tables: &[&[u8]]) -> Room {
    let largest = tables.iter().map(|table| clauses::net(table).variables).max().unwrap_or(0);
    let lists = tables.iter().map(|table| table[1] as usize).sum();
    Room { lists, bytes: largest, words: largest, answers: tables.len() }
}

// A different one at each place, and none that a call would write.
fn answers_before(room: usize) -> Vec<Answer> {
    let answer = |i: usize| {
        let k = i as u32;
        Answer { choices: u64::MAX - 7 - i as u64, number: 0xA5A5 + k, price: u32::MAX - k, settled: 1000 + k }
    };
    (0..room + 2 * GUARD).map(answer).collect()
}

// One call, with this much room: the number, what is stored, and all of the buffers and their guards. `zeros` entries
// of the work buffers are 0 where the parcel is accepted.
fn agrees(v: &Vector, room: Room, zeros: usize, wanted: u32) -> bool {
    let (mut lists, mut bytes) = (list_before(room.lists), bytes_before(room.bytes));
    let (mut words, mut answers) = (words_before(room.words), answers_before(room.answers));
    let (mut lists_after, mut bytes_after) = (lists.clone(), bytes.clone());
    let (mut words_after, mut answers_after) = (words.clone(), answers.clone());
    let (mut tables, mut left) = (u32::MAX - 7, u64::MAX - 7);
    let mut stored = (tables, left);
    if wanted == 0 {
        bytes_after[GUARD..GUARD + zeros].fill(0);
        words_after[GUARD..GUARD + zeros].fill(0);
        answers_after[GUARD..GUARD + v.answers.len()].copy_from_slice(&v.answers);
        for (entry, &written) in lists_after[GUARD..GUARD + room.lists].iter_mut().zip(&v.lists) {
            if written != UNWRITTEN {
                *entry = written;
            }
        }
        stored = (v.answers.len() as u32, v.left);
    }
    let got = fitter::parcel(
        &v.parcel,
        v.cap,
        &mut lists[GUARD..GUARD + room.lists],
        &mut bytes[GUARD..GUARD + room.bytes],
        &mut words[GUARD..GUARD + room.words],
        &mut answers[GUARD..GUARD + room.answers],
        &mut tables,
        &mut left,
    );
    got == wanted
        && (tables, left) == stored
        && lists == lists_after
        && bytes == bytes_after
        && words == words_after
        && answers == answers_after
}

// Repair alone, table after table, with the allowance then left: the same answers, lists and allowance left.
fn alone_agrees(v: &Vector, tables: &[&[u8]], room: Room) -> bool {
    let (mut bytes, mut words) = (vec![0; room.bytes], vec![0; room.words]);
    let (mut left, mut lists) = (v.cap, vec![]);
    let mut answers = vec![];
    for table in tables {
        let mut list = vec![UNWRITTEN; table[1] as usize];
        let mut answer = Answer { choices: 0, number: 0, price: 0, settled: 0 };
        let Answer { choices, price, settled, .. } = &mut answer;
        answer.number = fitter::repair(table, left, &mut list, &mut bytes, &mut words, choices, price, settled);
        left -= answer.choices;
        lists.extend(list);
        answers.push(answer);
    }
    // nothing lies past the last list
    lists.resize(v.room.lists, UNWRITTEN);
    answers == v.answers && left == v.left && lists == v.lists
}

// The choices and what is left are the cap, all together.
fn adds_up(v: &Vector) -> bool {
    v.answers.iter().map(|answer| u128::from(answer.choices)).sum::<u128>() + u128::from(v.left) == u128::from(v.cap)
}

// With as much room as the line says, as needed and more; with one entry too few of each buffer; and with nothing.
fn accepted_agrees(v: &Vector) -> bool {
    let tables = tables(&v.parcel);
    let needed = needed(&tables);
    let more =
        Room { lists: needed.lists + 3, bytes: needed.bytes + 5, words: needed.words + 4, answers: needed.answers + 2 };
    adds_up(v)
        && alone_agrees(v, &tables, needed)
        && [v.room, needed, more].iter().all(|&room| agrees(v, room, needed.bytes, 0))
        && (needed.lists == 0 || agrees(v, Room { lists: needed.lists - 1, ..more }, 0, 10))
        && agrees(v, Room { bytes: needed.bytes - 1, ..more }, 0, 10)
        && agrees(v, Room { words: needed.words - 1, ..more }, 0, 10)
        && agrees(v, Room { answers: needed.answers - 1, ..more }, 0, 10)
        && agrees(v, NOTHING, 0, 10)
}

// With as much room as the line says, and with nothing: a number other than 10 comes whatever is lent.
fn refused_agrees(v: &Vector) -> bool {
    agrees(v, v.room, 0, v.number) && agrees(v, NOTHING, 0, v.number)
}

fn line_agrees(columns: &[String]) -> bool {
    vector(columns).is_some_and(|v| if v.number == 0 { accepted_agrees(&v) } else { refused_agrees(&v) })
}

fn main() {
    vectors::run("parcels", line_agrees)
}
