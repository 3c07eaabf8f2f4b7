// Makes all six calls from several threads at once, each on tables and texts of its own, and compares with the answers
// of one thread. Arguments: a file of tables, a file of sheets, and how many tables there are.
//
// Of a line of the tables it takes the table, how many variables its net has, and the cap, and of a line of the sheets
// the text. A parcel has the table of a line and that of the next. What they answer is not looked at here.
mod fitter;
mod vectors;

use fitter::Answer;
use std::sync::Barrier;

const THREADS: usize = 8;
const ROUNDS: usize = 20;

// A search of more choices than this would take too long here.
const MOST_CHOICES: u64 = 100;

struct Case {
    table: Vec<u8>,
    list: Vec<u8>,
    variables: usize,
    cap: u64,
    text: Vec<u8>,
    parcel: Vec<u8>,
    // how many entries its lists and its work buffers have
    lists: usize,
    largest: usize,
}

// What the six calls answer, with all of their buffers.
#[derive(PartialEq)]
struct Answers {
    judge: u32,
    label: (u32, Vec<u32>),
    holding: (u32, Vec<u8>, u32),
    repair: (u32, Vec<u8>, Vec<u8>, Vec<u32>, u64, u32, u32),
    read: (u32, Vec<u8>, u64),
    parcel: (u32, Vec<u8>, Vec<u8>, Vec<u32>, Vec<Answer>, u32, u64),
}

fn label(c: &Case) -> (u32, Vec<u32>) {
    let mut out = vec![7; 32];
    (fitter::label(&c.table, &c.list, &mut out), out)
}

fn holding(c: &Case) -> (u32, Vec<u8>, u32) {
    let (mut out, mut count) = (vec![7; 32], 7);
    (fitter::holding(&c.table, &c.list, &mut out, &mut count), out, count)
}

fn repair(c: &Case) -> (u32, Vec<u8>, Vec<u8>, Vec<u32>, u64, u32, u32) {
    let (mut list, mut bytes, mut words) = (vec![7; c.list.len()], vec![7; c.variables], vec![7; c.variables]);
    let (mut choices, mut price, mut settled) = (7, 7, 7);
    let number =
        fitter::repair(&c.table, c.cap, &mut list, &mut bytes, &mut words, &mut choices, &mut price, &mut settled);
    (number, list, bytes, words, choices, price, settled)
}

fn read(c: &Case) -> (u32, Vec<u8>, u64) {
    let (mut out, mut length) = (vec![7; 580], 7);
    (fitter::read(&c.text, &mut out, &mut length), out, length)
}

fn parcel(c: &Case) -> (u32, Vec<u8>, Vec<u8>, Vec<u32>, Vec<Answer>, u32, u64) {
    let (mut lists, mut bytes, mut words) = (vec![7; c.lists], vec![7; c.largest], vec![7; c.largest]);
    let mut answers = vec![Answer { choices: 7, number: 7, price: 7, settled: 7 }; 2];
    let (mut tables, mut left) = (7, 7);
    let number =
        fitter::parcel(&c.parcel, c.cap, &mut lists, &mut bytes, &mut words, &mut answers, &mut tables, &mut left);
    (number, lists, bytes, words, answers, tables, left)
}

fn answers(c: &Case) -> Answers {
    Answers {
        judge: fitter::judge(&c.table, &c.list),
        label: label(c),
        holding: holding(c),
        repair: repair(c),
        read: read(c),
        parcel: parcel(c),
    }
}

// A line of tables.tsv and the next one, with a line of sheets.tsv. The list keeps every step.
fn case(line: &[String], next: &[String], sheet: &[String]) -> Case {
    let (table, other, text) = (vectors::bytes(&line[0]), vectors::bytes(&next[0]), vectors::bytes(&sheet[0]));
    let steps = |table: &[u8]| table.get(1).copied().unwrap_or(0) as usize;
    let variables = |line: &[String]| line[2].parse().unwrap_or(0);
    Case {
        list: vec![1; steps(&table)],
        variables: variables(line),
        cap: line[3].parse().unwrap_or(0).min(MOST_CHOICES),
        text,
        parcel: [&table[..], &other].concat(),
        lists: steps(&table) + steps(&other),
        largest: variables(line).max(variables(next)),
        table,
    }
}

fn cases() -> Vec<Case> {
    let paths: Vec<String> = std::env::args().skip(1).collect();
    let (tables, sheets) = (vectors::read(&paths[0]), vectors::read(&paths[1]));
    let next = tables.iter().cycle().skip(1);
    tables.iter().zip(next).zip(sheets.iter().cycle()).map(|((line, next), sheet)| case(line, next, sheet)).collect()
}

// How many cases of a thread's own differ, over all rounds.
fn differing(start: &Barrier, own: &[Case], wanted: &[Answers]) -> usize {
    start.wait();
    (0..ROUNDS).map(|_| own.iter().zip(wanted).filter(|(c, w)| answers(c) != **w).count()).sum()
}

fn main() {
    let cases = cases();
    let wanted: Vec<Answers> = cases.iter().map(answers).collect();
    let size = cases.len().div_ceil(THREADS);
    let start = &Barrier::new(cases.chunks(size).count());
    let differ: usize = std::thread::scope(|scope| {
        let parts = cases.chunks(size).zip(wanted.chunks(size));
        let threads: Vec<_> = parts.map(|(own, wanted)| scope.spawn(move || differing(start, own, wanted))).collect();
        threads.into_iter().map(|t| t.join().expect("a thread's count")).sum()
    });
    println!("threads: {} at once, {} rounds of {} tables, {} differ", THREADS, ROUNDS, cases.len(), differ);
    std::process::exit(if cases.len() == vectors::wanted(3) && differ == 0 { 0 } else { 1 });
}
