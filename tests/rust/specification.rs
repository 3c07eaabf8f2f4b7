// Runs the examples of docs/SPECIFICATION.md: each block of the page between ``` and ```, by the two words behind the
// first. The second is the name of a table.
//
// `bytes`: a packed table. `sheet`: a sheet; where there are bytes of that name, Read gives them. `printed`: what the
// program prints for the sheet. `calls`: a call a line, with what it answers and writes. `refused`: a refusal's number,
// and bytes that are refused as a table. `clauses`: the clauses of the table's net, a line each. `closures`: literals
// of steps, and those that the closure of them has. The last two are compared with the plain search's net, which the
// library is compared with elsewhere.
mod clauses;
mod fitter;

use std::collections::HashMap;
use std::io::Write;
use std::process::{Command, Stdio};

const GUARD: u8 = 0xA5;

struct Block {
    kind: String,
    name: String,
    text: String,
}

fn blocks(page: &str) -> Vec<Block> {
    let parts: Vec<&str> = page.split("```").collect();
    let inner = parts.iter().skip(1).step_by(2);
    inner
        .map(|part| {
            let (words, text) = part.split_once('\n').expect("a block's first line");
            let (kind, name) = words.split_once(' ').unwrap_or((words, ""));
            Block { kind: kind.to_string(), name: name.to_string(), text: text.to_string() }
        })
        .collect()
}

fn numbers<T: std::str::FromStr>(text: &str) -> Vec<T> {
    text.split_whitespace().map(|word| word.parse().ok().expect("a number")).collect()
}

// What a call says, in the words of the page.
fn told(number: u32, what: String) -> String {
    if what.is_empty() { number.to_string() } else { format!("{number}: {what}") }
}

fn spaced<T: ToString>(values: &[T]) -> String {
    values.iter().map(T::to_string).collect::<Vec<_>>().join(" ")
}

fn label(table: &[u8], list: &[u8]) -> String {
    let mut words = [0xA5A5_A5A5u32; 32];
    let number = fitter::label(table, list, &mut words);
    told(number, if number == 0 { spaced(&words[..table[2] as usize]) } else { String::new() })
}

fn holding(table: &[u8], list: &[u8]) -> String {
    let (mut states, mut count) = ([GUARD; 32], 0);
    let number = fitter::holding(table, list, &mut states, &mut count);
    told(number, if number == 0 { spaced(&states[..count as usize]) } else { String::new() })
}

fn repair(table: &[u8], cap: u64) -> String {
    let (steps, size) = (table[1] as usize, clauses::net(table).variables);
    let (mut list, mut bytes, mut words) = (vec![GUARD; steps], vec![GUARD; size], vec![7; size]);
    let (mut choices, mut price, mut settled) = (0, 0, 0);
    let number =
        fitter::repair(table, cap, &mut list, &mut bytes, &mut words, &mut choices, &mut price, &mut settled);
    let counts = format!("choices {choices}, price {price}, settled {settled}");
    let untouched = list.iter().all(|&b| b == GUARD);
    match number {
        0 => told(0, format!("{counts}, list {}", spaced(&list))),
        14 | 15 if untouched => told(number, counts),
        _ => format!("{number}, untouched {untouched}"),
    }
}

// An answer of a batch with its numbers, or what C gets for it.
fn batch_answer(a: &fitter::Answer) -> String {
    let word = match a.number {
        0 => "found",
        14 => "none",
        15 => "spent",
        _ => "refused",
    };
    format!("{word} {} {} {}", a.choices, a.price, a.settled)
}

// The cap, and the names of the tables; a name that the page does not have stands for a byte alone.
fn batch(tables: &HashMap<String, Vec<u8>>, what: &str) -> String {
    let mut words = what.split_whitespace();
    let cap = words.next().expect("a cap").parse().expect("a number");
    let parcel: Vec<u8> = words.flat_map(|name| tables.get(name).cloned().unwrap_or(vec![0])).collect();
    let (mut lists, mut bytes, mut work) = ([GUARD; 64], [GUARD; 1000], [7; 1000]);
    let none = fitter::Answer { choices: 0, number: 0, price: 0, settled: 0 };
    let mut answers = [none; 8];
    let (mut count, mut left) = (0, 0);
    let number =
        fitter::parcel(&parcel, cap, &mut lists, &mut bytes, &mut work, &mut answers, &mut count, &mut left);
    if number != 0 {
        return number.to_string();
    }
    let said: Vec<String> = answers[..count as usize].iter().map(batch_answer).collect();
    let mut steps = 0;
    let mut rest = &parcel[..];
    while let [n, e, f, ..] = *rest {
        steps += e as usize;
        rest = &rest[4 + 3 * (n as usize + e as usize + f as usize)..];
    }
    let bits = lists[..steps].iter().map(|&b| if b == GUARD { "-".to_string() } else { b.to_string() });
    format!("0: {}, left {left}, lists {}", said.join(", "), bits.collect::<Vec<_>>().join(" "))
}

fn call(tables: &HashMap<String, Vec<u8>>, table: &[u8], what: &str) -> String {
    let (name, rest) = what.split_once(' ').expect("a call");
    match name {
        "batch" => batch(tables, rest),
        "judge" => fitter::judge(table, &numbers::<u8>(rest)).to_string(),
        "label" => label(table, &numbers::<u8>(rest)),
        "holding" => holding(table, &numbers::<u8>(rest)),
        "repair" => repair(table, rest.trim().parse().expect("a cap")),
        _ => panic!("no such call: {name}"),
    }
}

// Read's bytes; none where it refuses.
fn read(text: &str) -> Vec<u8> {
    let (mut bytes, mut length) = ([GUARD; 580], 0);
    let number = fitter::read(text.as_bytes(), &mut bytes, &mut length);
    bytes[..if number == 0 { length as usize } else { 0 }].to_vec()
}

fn printed(program: &str, text: &str) -> String {
    let mut child = Command::new(program).stdin(Stdio::piped()).stdout(Stdio::piped()).spawn().expect("the program");
    child.stdin.take().unwrap().write_all(text.as_bytes()).expect("its input");
    String::from_utf8(child.wait_with_output().expect("its end").stdout).expect("a text")
}

fn closure(net: &clauses::Net, chosen: &[i64]) -> String {
    let Some(mut all) = clauses::closure(net, chosen) else { return "fails".to_string() };
    all.sort_by_key(|l| l.abs());
    spaced(&all)
}

struct Page {
    program: String,
    tables: HashMap<String, Vec<u8>>,
    sheets: HashMap<String, String>,
    run: usize,
    agreed: usize,
}

impl Page {
    fn compare(&mut self, what: &str, got: &str, wanted: &str) {
        self.run += 1;
        if got == wanted {
            self.agreed += 1;
        } else {
            println!("differs: {what}: {got}, not {wanted}");
        }
    }

    fn check(&mut self, block: &Block) {
        let table = self.tables.get(&block.name).cloned().unwrap_or_default();
        match block.kind.as_str() {
            "bytes" => {
                self.tables.insert(block.name.clone(), numbers(&block.text));
            }
            "sheet" => {
                if !table.is_empty() {
                    self.compare(&block.name, &spaced(&read(&block.text)), &spaced(&table));
                }
                self.sheets.insert(block.name.clone(), block.text.clone());
            }
            "printed" => self.compare(&block.name, &printed(&self.program, &self.sheets[&block.name]), &block.text),
            "calls" => {
                for line in block.text.lines() {
                    let (what, wanted) = line.split_once(" = ").expect("what a call answers");
                    let got = call(&self.tables, &table, what);
                    self.compare(line, &got, wanted);
                }
            }
            "refused" => {
                for line in block.text.lines() {
                    let (number, bytes) = line.split_once(':').expect("a number");
                    self.compare(line, &fitter::judge(&numbers::<u8>(bytes), &[]).to_string(), number);
                }
            }
            "clauses" => {
                let wanted: Vec<String> = block.text.lines().map(String::from).collect();
                let net = clauses::net(&table);
                let got: Vec<String> = clauses::clauses(&net).iter().map(|clause| spaced(clause)).collect();
                self.compare(&block.name, &got.join("\n"), &wanted.join("\n"));
            }
            "closures" => {
                let net = clauses::net(&table);
                for line in block.text.lines() {
                    let (chosen, wanted) = line.split_once(": ").expect("a set and its closure");
                    self.compare(line, &closure(&net, &numbers::<i64>(chosen)), wanted);
                }
            }
            kind => panic!("no such block: {kind}"),
        }
    }
}

fn main() {
    let [_, path, program, wanted] = &std::env::args().collect::<Vec<_>>()[..] else {
        panic!("specification PAGE PROGRAM EXAMPLES")
    };
    let text = std::fs::read_to_string(path).expect("the page");
    let (tables, sheets) = (HashMap::new(), HashMap::new());
    let mut page = Page { program: program.clone(), tables, sheets, run: 0, agreed: 0 };
    for block in blocks(&text) {
        page.check(&block);
    }
    println!("specification: {} examples, {} agree", page.run, page.agreed);
    let all = page.run == page.agreed && page.run.to_string() == *wanted;
    std::process::exit(if all { 0 } else { 1 });
}
