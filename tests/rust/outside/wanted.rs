// What each call should answer, by the modules beside this one. The tests go in the order of their numbers, but 16
// comes before 13.
use crate::clauses;
use crate::meaning::{self, Graph};
use crate::parcel::{self, ParcelRooms};
use crate::sheet;
use crate::striking;
use crate::table::{accept, accept_list, Table};

pub fn judge(table: &[u8], list: &[u8]) -> Result<(), u32> {
    let table = accept(table)?;
    let kept = accept_list(&table, list)?;
    match meaning::judge(&table, &kept) {
        0 => Ok(()),
        number => Err(number),
    }
}

// For each node its kept states. `needed` says how many entries the buffer must have.
fn sets(table: &[u8], list: &[u8], room: usize, needed: fn(&Table) -> usize) -> Result<Vec<Vec<bool>>, u32> {
    let table = accept(table)?;
    let kept = accept_list(&table, list)?;
    if room < needed(&table) {
        return Err(10);
    }
    let graph = Graph::new(&table, &kept);
    if graph.total() { Ok(graph.sets(&table)) } else { Err(11) }
}

// The words that Label writes.
pub fn label(table: &[u8], list: &[u8], room: usize) -> Result<Vec<u32>, u32> {
    let sets = sets(table, list, room, |t| t.nodes.len())?;
    let word = |set: &Vec<bool>| (0..set.len()).map(|s| (set[s] as u32) << s).sum();
    Ok(sets.iter().map(word).collect())
}

// The states that Holding writes, sorted: the initial ones before the others, and then by their numbers.
pub fn holding(table: &[u8], list: &[u8], room: usize) -> Result<Vec<u8>, u32> {
    let sets = sets(table, list, room, |t| t.initial.len())?;
    let root = &sets[sets.len() - 1];
    let initial = accept(table)?.initial;
    let mut states: Vec<usize> = (0..root.len()).filter(|&s| root[s]).collect();
    states.sort_by_key(|&s| (!initial[s], s));
    Ok(states.into_iter().map(|s| s as u8).collect())
}

// The bytes that Read writes.
pub fn read(text: &[u8], room: usize) -> Result<Vec<u8>, u32> {
    let bytes = sheet::read(text)?;
    if room < bytes.len() { Err(10) } else { Ok(bytes) }
}

// How many entries Repair's list, bytes and words have.
#[derive(Clone, Copy, Debug)]
pub struct Rooms {
    pub list: usize,
    pub bytes: usize,
    pub words: usize,
}

// `search` gives the answer of the search with a net's clauses; it is asked only where nothing is refused. What it
// finds is struck.
pub fn repair(table: &[u8], rooms: Rooms, search: impl FnOnce() -> clauses::Answer) -> Result<clauses::Answer, u32> {
    let table = accept(table)?;
    let v = crate::table::variables(&table);
    if rooms.list < table.steps.len() || rooms.bytes < v || rooms.words < v {
        return Err(10);
    }
    let answer = search();
    let list = if answer.number == 0 { striking::strike(&table.initial, &table.steps, &answer.list) } else { vec![] };
    Ok(clauses::Answer { list, ..answer })
}

// What a parcel gives: for each table where its list begins, and its answer; how many entries of the work buffers are
// 0; and the allowance left.
#[derive(Debug)]
pub struct Parcelled {
    pub answers: Vec<(usize, clauses::Answer)>,
    pub zeros: usize,
    pub left: u64,
}

// Repair alone, table after table, each with what is left. `search` gives the answer of the search of a table, by its
// number, under a cap; it is asked only where nothing is refused.
pub fn parcel(
    parcel: &[u8], cap: u64, rooms: ParcelRooms, mut search: impl FnMut(usize, u64) -> clauses::Answer,
) -> Result<Parcelled, u32> {
    let tables = parcel::apart(parcel).ok_or(17u32)?;
    let needed = parcel::needed(&tables);
    let lent = [rooms.lists, rooms.bytes, rooms.words, rooms.answers];
    if lent.iter().zip([needed.lists, needed.bytes, needed.words, needed.answers]).any(|(&room, need)| room < need) {
        return Err(10);
    }
    let mut all = Parcelled { answers: vec![], zeros: needed.words, left: cap };
    let mut place = 0;
    for (k, table) in tables.iter().enumerate() {
        let rooms = Rooms { list: rooms.lists, bytes: rooms.bytes, words: rooms.words };
        let answer = repair(table, rooms, || search(k, all.left))?;
        all.left -= answer.choices;
        all.answers.push((place, answer));
        place += table[1] as usize;
    }
    Ok(all)
}
