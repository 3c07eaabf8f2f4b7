// A parcel taken apart, with its test, 17.
use crate::table::{accept, variables};

// How many entries the buffers for lists, bytes, words and answers have.
#[derive(Clone, Copy, Debug)]
pub struct ParcelRooms {
    pub lists: usize,
    pub bytes: usize,
    pub words: usize,
    pub answers: usize,
}

// The packed tables. None where the bytes are not one to eight accepted tables end to end.
pub fn apart(parcel: &[u8]) -> Option<Vec<&[u8]>> {
    let (mut tables, mut rest) = (vec![], parcel);
    while !rest.is_empty() {
        let records: usize = rest.get(..3)?.iter().map(|&count| count as usize).sum();
        let table = rest.get(..4 + 3 * records)?;
        accept(table).ok()?;
        tables.push(table);
        rest = &rest[table.len()..];
    }
    (1..=8).contains(&tables.len()).then_some(tables)
}

// Just enough.
pub fn needed(tables: &[&[u8]]) -> ParcelRooms {
    let all = || tables.iter().filter_map(|table| accept(table).ok());
    let largest = all().map(|table| variables(&table)).max().unwrap_or(0);
    let lists = all().map(|table| table.steps.len()).sum();
    ParcelRooms { lists, bytes: largest, words: largest, answers: tables.len() }
}
