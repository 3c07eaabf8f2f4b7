// Compares all six calls of the library with a second implementation, written from the specification, on drawn and
// damaged input, for some seconds.
// Arguments: seed (1), seconds (10). Prints how many calls agree, by kind and number; at the first difference its
// input, and ends with 1.
mod clauses;
mod fitter;
mod striking;

#[path = "outside/calls.rs"]
mod calls;
#[path = "outside/closure.rs"]
mod closure;
#[path = "outside/damage.rs"]
mod damage;
#[path = "outside/draft.rs"]
mod draft;
#[path = "outside/draw.rs"]
mod draw;
#[path = "outside/lent.rs"]
mod lent;
#[path = "outside/meaning.rs"]
mod meaning;
#[path = "outside/parcel.rs"]
mod parcel;
#[path = "outside/parcelling.rs"]
mod parcelling;
#[path = "outside/random.rs"]
mod random;
#[path = "outside/repairing.rs"]
mod repairing;
#[path = "outside/rules.rs"]
mod rules;
#[path = "outside/scribble.rs"]
mod scribble;
#[path = "outside/sheet.rs"]
mod sheet;
#[path = "outside/table.rs"]
mod table;
#[path = "outside/wanted.rs"]
mod wanted;

use calls::{Calls, NAMES, NUMBERS};
use draft::Draft;
use random::Random;
use std::time::{Duration, Instant};
use table::Table;

// Judge, Label and Holding on one list.
fn list_calls(calls: &mut Calls, random: &mut Random, bytes: &[u8], list: &[u8]) -> Result<(), String> {
    let (n, f) = table::accept(bytes).map_or((32, 32), |t| (t.initial.len(), t.nodes.len()));
    calls.judge(random, bytes, list)?;
    let room = repairing::room(random, f);
    calls.label(random, bytes, list, room)?;
    let room = repairing::room(random, n);
    calls.holding(random, bytes, list, room)
}

// All sorts of lists for an accepted table; `found` is its repair, struck and before that.
fn lists(random: &mut Random, table: &Table, found: Vec<Vec<u8>>) -> Vec<Vec<u8>> {
    let e = table.steps.len();
    let mut lists = found;
    lists.extend([vec![1; e], vec![0; e], draw::list(random, e)]);
    for _ in 0..3 {
        let mut list = draw::list(random, e);
        draw::prune(table, &mut list);
        lists.push(list);
    }
    let mut turned = random.pick(&[0, 1, lists.len() - 1].map(|k| &lists[k])).clone();
    if e > 0 {
        turned[random.below(e)] ^= 1;
    }
    let mut damaged = lists[random.below(lists.len())].clone();
    damage::list(random, &mut damaged);
    lists.extend([turned, damaged]);
    lists
}

fn accepted(calls: &mut Calls, random: &mut Random, bytes: &[u8], table: &Table) -> Result<(), String> {
    let found = repairing::compare(calls, random, bytes, table)?;
    for list in lists(random, table, found) {
        list_calls(calls, random, bytes, &list)?;
    }
    Ok(())
}

// A table that is damaged, or still good after that.
fn any_table(calls: &mut Calls, random: &mut Random, bytes: &[u8]) -> Result<(), String> {
    match table::accept(bytes) {
        Ok(table) if table.steps.len() <= 10 => accepted(calls, random, bytes, &table),
        Ok(_) => Ok(()),
        Err(_) => {
            repairing::refused(calls, random, bytes)?;
            let steps = bytes.get(1).copied().unwrap_or(0) as usize;
            let mut list = draw::list(random, steps);
            if random.once_in(3) {
                damage::list(random, &mut list);
            }
            list_calls(calls, random, bytes, &list)
        }
    }
}

fn sheets(calls: &mut Calls, random: &mut Random, draft: &Draft) -> Result<(), String> {
    let mut text = draft.sheet().into_bytes();
    let length = draft.pack().len();
    for room in [repairing::room(random, length), repairing::room(random, 580)] {
        calls.read(random, &text, room)?;
    }
    scribble::text(random, &mut text);
    let room = repairing::room(random, length);
    calls.read(random, &text, room)
}

fn round(calls: &mut Calls, random: &mut Random) -> Result<(), String> {
    let draft = if random.once_in(4) { draw::hard(random) } else { draw::table(random) };
    let bytes = draft.pack();
    let table = table::accept(&bytes).map_err(|number| format!("the drawn table is refused: {number}"))?;
    accepted(calls, random, &bytes, &table)?;
    sheets(calls, random, &draft)?;
    for _ in 0..3 {
        let mut damaged = draft.clone();
        damage::draft(random, &mut damaged);
        any_table(calls, random, &damaged.pack())?;
        sheets(calls, random, &damaged)?;
        let mut bytes = bytes.clone();
        damage::bytes(random, &mut bytes);
        any_table(calls, random, &bytes)?;
    }
    parcelling::compare(calls, random)
}

fn report(calls: &Calls) {
    for (name, agreed) in NAMES.iter().zip(&calls.agreed) {
        let by_number: Vec<String> =
            (0..NUMBERS).filter(|&k| agreed[k] > 0).map(|k| format!("{k}: {}", agreed[k])).collect();
        println!("outside: {name}, {} agree ({})", agreed.iter().sum::<u64>(), by_number.join(", "));
    }
}

fn main() {
    let arguments: Vec<u64> = std::env::args().skip(1).map(|x| x.parse().expect("a number")).collect();
    let seed = arguments.first().copied().unwrap_or(1);
    let time = Duration::from_secs(arguments.get(1).copied().unwrap_or(10));
    let start = Instant::now();
    let mut calls = Calls { agreed: [[0; NUMBERS]; NAMES.len()] };
    let mut rounds = 0;
    while start.elapsed() < time {
        let compared = round(&mut calls, &mut Random::new(seed, rounds));
        if let Err(difference) = compared {
            println!("outside: seed {seed}, round {rounds} differs\n{difference}");
            std::process::exit(1);
        }
        rounds += 1;
    }
    report(&calls);
    println!(
        "outside: seed {seed}, {rounds} rounds, {} calls agree, 0 differ",
        calls.agreed.iter().flatten().sum::<u64>()
    );
}
