// Runs every line of a file of tables through Repair, and compares the number, the choices, the price, the settled
// steps and every entry of the three buffers, with guard entries around them. Where a table is accepted, the plain
// search over explicit clauses must agree on the list before striking and on what is stored, and the judge must accept
// the list that is written. Arguments: the file, and how many lines it has behind the names.
//
// A line: the table; the number of its refusal, or 0; how many variables its net has; the cap; the answer at this cap
// (found, none, spent or refused); the choices made; the list that is written, and the list before striking; the price;
// the settled steps. What is not given is `-`: both lists where none is found, and all numbers of a refused table.
mod before;
mod clauses;
mod fitter;
mod striking;
mod vectors;

use before::{bytes_before, list_before, words_before, GUARD};

struct Vector {
    table: Vec<u8>,
    number: u32,
    variables: usize,
    cap: u64,
    choices: u64,
    price: u32,
    settled: u32,
    list: Vec<u8>,
    before: Vec<u8>,
}

// The number that C gets for an answer.
fn number_of(refusal: &str, answer: &str) -> u32 {
    match answer {
        "found" => 0,
        "none" => 14,
        "spent" => 15,
        _ => refusal.parse().expect("a refusal"),
    }
}

// Whether a table is accepted, by the number of its answer.
fn is_accepted(number: u32) -> bool {
    [0, 14, 15].contains(&number)
}

fn vector(columns: &[String]) -> Option<Vector> {
    let [table, refusal, variables, cap, answer, choices, list, before, price, settled] = columns else { return None };
    Some(Vector {
        table: vectors::bytes(table),
        number: number_of(refusal, answer),
        variables: variables.parse().unwrap_or(0),
        cap: cap.parse().unwrap_or(0),
        choices: choices.parse().unwrap_or(0),
        price: price.parse().unwrap_or(0),
        settled: settled.parse().unwrap_or(0),
        list: vectors::bytes(list),
        before: vectors::bytes(before),
    })
}

// How many entries of each buffer are lent.
#[derive(Clone, Copy)]
struct Room {
    list: usize,
    bytes: usize,
    words: usize,
}

// One call, with this much room: the number, the choices, the price, the settled steps, and all of the buffers and
// their guards.
fn agrees(v: &Vector, cap: u64, room: Room, wanted: u32) -> bool {
    let (mut list, mut bytes, mut words) = (list_before(room.list), bytes_before(room.bytes), words_before(room.words));
    let (mut list_after, mut bytes_after, mut words_after) = (list.clone(), bytes.clone(), words.clone());
    let (mut choices, mut price, mut settled) = (u64::MAX - 7, u32::MAX - 7, u32::MAX - 8);
    let mut stored = (choices, price, settled);
    if is_accepted(wanted) {
        bytes_after[GUARD..GUARD + v.variables].fill(0);
        words_after[GUARD..GUARD + v.variables].fill(0);
        stored = (v.choices, v.price, v.settled);
    }
    if wanted == 0 {
        list_after[GUARD..GUARD + v.list.len()].copy_from_slice(&v.list);
    }
    let got = fitter::repair(
        &v.table,
        cap,
        &mut list[GUARD..GUARD + room.list],
        &mut bytes[GUARD..GUARD + room.bytes],
        &mut words[GUARD..GUARD + room.words],
        &mut choices,
        &mut price,
        &mut settled,
    );
    got == wanted
        && (choices, price, settled) == stored
        && list == list_after
        && bytes == bytes_after
        && words == words_after
}

// With as much room as needed, with more, and with one entry too few of each buffer.
fn accepted_agrees(v: &Vector) -> bool {
    let needed = Room { list: v.table[1] as usize, bytes: v.variables, words: v.variables };
    let more = Room { list: needed.list + 3, bytes: needed.bytes + 5, words: needed.words + 4 };
    agrees(v, v.cap, needed, v.number)
        && agrees(v, v.cap, more, v.number)
        && (needed.list == 0 || agrees(v, v.cap, Room { list: needed.list - 1, ..more }, 10))
        && agrees(v, v.cap, Room { bytes: needed.bytes - 1, ..more }, 10)
        && agrees(v, v.cap, Room { words: needed.words - 1, ..more }, 10)
        && agrees(v, v.cap, Room { list: 0, bytes: 0, words: 0 }, 10)
}

// A refused table is refused whatever is lent.
fn refused_agrees(v: &Vector) -> bool {
    let none = Room { list: 0, bytes: 0, words: 0 };
    let some = Room { list: 128, bytes: 1000, words: 1000 };
    [0, u64::MAX].iter().all(|&cap| agrees(v, cap, none, v.number) && agrees(v, cap, some, v.number))
}

// The judge accepts what is written.
fn judge_agrees(v: &Vector) -> bool {
    v.number != 0 || fitter::judge(&v.table, &v.list) == 0
}

// The written list is the one before striking, struck.
fn striking_agrees(v: &Vector) -> bool {
    if v.number == 0 { striking::strike_packed(&v.table, &v.before) == v.list } else { v.list.is_empty() }
}

fn plain_agrees(v: &Vector) -> bool {
    let net = clauses::net(&v.table);
    let wanted = clauses::Answer {
        number: v.number,
        choices: v.choices,
        price: v.price,
        settled: v.settled,
        list: v.before.clone(),
    };
    net.variables == v.variables && clauses::search(&net, v.cap) == wanted
}

fn vector_agrees(v: &Vector) -> bool {
    if is_accepted(v.number) {
        accepted_agrees(v) && judge_agrees(v) && striking_agrees(v) && plain_agrees(v)
    } else {
        refused_agrees(v)
    }
}

fn main() {
    vectors::run("repairs", |columns| vector(columns).is_some_and(|v| vector_agrees(&v)))
}
