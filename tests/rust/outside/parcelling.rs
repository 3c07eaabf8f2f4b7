// Parcels of drawn tables, whole and damaged, at several caps and with several buffers.
use crate::calls::Calls;
use crate::clauses;
use crate::damage;
use crate::draft::Draft;
use crate::draw;
use crate::parcel::{self, ParcelRooms};
use crate::random::Random;
use crate::repairing::room;

// Choices times variables that one search may cost.
const EFFORT: usize = 500_000;

// None to ten tables, at times one of them again.
fn drafts(random: &mut Random) -> Vec<Draft> {
    let mut drafts: Vec<Draft> = vec![];
    for _ in 0..random.pick(&[0, 1, 1, 2, 2, 2, 3, 3, 4, 5, 6, 7, 8, 8, 8, 9, 9, 10]) {
        drafts.push(if !drafts.is_empty() && random.once_in(3) {
            drafts[random.below(drafts.len())].clone()
        } else if random.once_in(6) {
            draw::hard(random)
        } else {
            draw::table(random)
        });
    }
    drafts
}

// One table damaged, a tail, a byte more or less somewhere, or bytes changed anywhere.
fn damaged(random: &mut Random, mut drafts: Vec<Draft>) -> Vec<u8> {
    let wrong = random.below(5);
    if wrong == 0 && !drafts.is_empty() {
        let k = random.below(drafts.len());
        damage::draft(random, &mut drafts[k]);
    }
    let mut bytes = packed(&drafts);
    let place = random.below(bytes.len() + 1);
    match wrong {
        0 => {}
        1 => bytes.extend(vec![random.pick(&[0, 1, 2, 255]); random.between(1, 3)]),
        2 => bytes.insert(place, random.byte()),
        3 if place < bytes.len() => _ = bytes.remove(place),
        _ => damage::bytes(random, &mut bytes),
    }
    bytes
}

fn packed(drafts: &[Draft]) -> Vec<u8> {
    drafts.iter().flat_map(Draft::pack).collect()
}

// Caps around what the searches make together, all of them or the first few; but none that lets one cost too much.
// `choices` has what each makes up to the limit.
fn caps(random: &mut Random, choices: &[u64], limit: u64, ended: bool) -> Vec<u64> {
    let first: u64 = choices[..random.below(choices.len() + 1)].iter().sum();
    let (all, any) = (choices.iter().sum::<u64>(), random.next());
    let few = random.pick(&[0, 1, first.saturating_sub(1), first, first, first + 1, any % (all + 1)]);
    if !ended {
        return vec![few.min(limit), random.pick(&[any % (limit + 1), limit])];
    }
    let enough = [all, all, all + 1, all + 2, (1 << 32) + all, 1 << 63, u64::MAX - 1, u64::MAX];
    vec![few, all.saturating_sub(1), random.pick(&enough)]
}

// Enough of each buffer, or more.
fn enough(random: &mut Random, needed: ParcelRooms) -> ParcelRooms {
    let mut more = |room: usize| room + random.pick(&[0, 0, 1, 2, 40]);
    ParcelRooms {
        lists: more(needed.lists),
        bytes: more(needed.bytes),
        words: more(needed.words),
        answers: more(needed.answers),
    }
}

// Each buffer one entry short, alone; and several of them at once, at times.
fn short(random: &mut Random, needed: ParcelRooms) -> Vec<ParcelRooms> {
    let mut all = vec![];
    if needed.lists > 0 {
        all.push(ParcelRooms { lists: needed.lists - 1, ..enough(random, needed) });
    }
    all.push(ParcelRooms { bytes: needed.bytes - 1, ..enough(random, needed) });
    all.push(ParcelRooms { words: needed.words - 1, ..enough(random, needed) });
    all.push(ParcelRooms { answers: needed.answers - 1, ..enough(random, needed) });
    all.push(ParcelRooms {
        lists: room(random, needed.lists),
        bytes: room(random, needed.bytes),
        words: room(random, needed.words),
        answers: needed.answers - 1,
    });
    all
}

fn accepted(calls: &mut Calls, random: &mut Random, bytes: &[u8], tables: &[&[u8]]) -> Result<(), String> {
    let nets: Vec<clauses::Net> = tables.iter().map(|table| clauses::net(table)).collect();
    let needed = parcel::needed(tables);
    let limit = (EFFORT / needed.words).clamp(4, 3000) as u64;
    let answers: Vec<clauses::Answer> = nets.iter().map(|net| clauses::search(net, limit)).collect();
    let choices: Vec<u64> = answers.iter().map(|answer| answer.choices).collect();
    let ended = answers.iter().all(|answer| answer.number != 15);
    let caps = caps(random, &choices, limit, ended);
    for &cap in &caps {
        let rooms = enough(random, needed);
        calls.parcel(random, bytes, cap, rooms, |k, left| clauses::search(&nets[k], left))?;
    }
    for rooms in short(random, needed) {
        let cap = random.pick(&caps);
        calls.parcel(random, bytes, cap, rooms, |_, _| unreachable!())?;
    }
    Ok(())
}

// A parcel that is refused with 17, whatever is lent.
fn refused(calls: &mut Calls, random: &mut Random, bytes: &[u8]) -> Result<(), String> {
    let sizes = [0, 1, 8, 128, 1000, 3000];
    let rooms = ParcelRooms {
        lists: random.pick(&sizes),
        bytes: random.pick(&sizes),
        words: random.pick(&sizes),
        answers: random.pick(&[0, 1, 8, 12]),
    };
    let cap = random.pick(&[0, 1, 1000, u64::MAX]);
    calls.parcel(random, bytes, cap, rooms, |_, _| unreachable!())
}

pub fn compare(calls: &mut Calls, random: &mut Random) -> Result<(), String> {
    let drafts = drafts(random);
    let bytes = if random.once_in(3) { damaged(random, drafts) } else { packed(&drafts) };
    match parcel::apart(&bytes) {
        Some(tables) => accepted(calls, random, &bytes, &tables),
        None => refused(calls, random, &bytes),
    }
}
