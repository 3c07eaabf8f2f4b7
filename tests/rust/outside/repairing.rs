// Repair on an accepted table, at several caps and with several buffers. Small tables are also tried by every list
// there is.
use crate::calls::{hex, Calls};
use crate::clauses;
use crate::closure;
use crate::draw;
use crate::meaning;
use crate::random::Random;
use crate::striking;
use crate::table::{accept_list, variables, Table};
use crate::wanted::Rooms;

// Choices times variables that one search may cost.
const EFFORT: usize = 2_000_000;

// The largest net that is always closed word for word. A larger one is closed now and then, since that takes long.
const MOST_CLOSED: usize = 20_000;

// Enough, one more, much more, one too few or none.
pub fn room(random: &mut Random, needed: usize) -> usize {
    match random.below(12) {
        0..=5 => needed,
        6 | 7 => needed + 1,
        8 | 9 => needed + random.pick(&[2, 32, 500, 5000]),
        10 => needed.saturating_sub(1),
        _ => needed.saturating_sub(random.pick(&[0, 1, 1, 2, 1 << 20])),
    }
}

// At times two buffers are too short at once.
fn rooms(random: &mut Random, e: usize, v: usize) -> Rooms {
    if random.once_in(2) {
        return Rooms { list: e + random.below(3), bytes: v + random.below(3), words: v + random.below(3) };
    }
    Rooms { list: room(random, e), bytes: room(random, v), words: room(random, v) }
}

// Caps up to what a search may cost, and beyond that where the search ends before.
fn caps(random: &mut Random, answer: &clauses::Answer, limit: u64) -> Vec<u64> {
    let c = answer.choices;
    if answer.number == 15 {
        let any = random.next() % limit;
        return vec![random.pick(&[0, 1, any, limit - 1, limit])];
    }
    let enough = [c, c, c + 1, c + 2, 1 << 32, (1 << 32) + c, 1 << 63, u64::MAX - 1, u64::MAX];
    let few = [0, 1, 2, 3, c / 2, c.saturating_sub(1)];
    vec![random.pick(&enough), random.pick(&few)]
}

// The list that the clauses gave is a repair in the wider sense, and has this price; struck it is a repair in the
// narrower sense.
fn repairs(table: &Table, before: &[u8], price: u32) -> Result<(), String> {
    let kept = |list: &[u8]| accept_list(table, list).map_err(|_| "the clauses gave no list");
    if !meaning::repair(table, &kept(before)?) {
        return Err("the list that the clauses gave is no repair".to_string());
    }
    if meaning::price(table, &kept(before)?) != price {
        return Err(format!("the list that the clauses gave does not cost {price}"));
    }
    if !meaning::narrow_repair(table, &kept(&striking::strike(&table.initial, &table.steps, before))?) {
        return Err("the list that the clauses gave is no repair when struck".to_string());
    }
    Ok(())
}

// What the answer without a cap says must be so by the meaning of the rule. There is none exactly where no list is a
// repair, in either sense; price and rank are those of the list before striking.
fn means(table: &Table, answer: &clauses::Answer) -> Result<(), String> {
    let found = (answer.number == 0).then_some(&answer.list);
    if let Some(before) = found {
        repairs(table, before, answer.price)?;
    }
    if table.steps.len() <= 10 && answer.number != 15 {
        let cheapest = meaning::cheapest(table, meaning::repair);
        if cheapest.as_ref() != found {
            return Err(format!("cheapest {cheapest:?}, by the clauses {found:?}"));
        }
        let narrow = meaning::cheapest(table, meaning::narrow_repair);
        if narrow.is_some() != found.is_some() {
            return Err(format!("in the narrower sense {narrow:?}, by the clauses {found:?}"));
        }
    }
    Ok(())
}

// How many steps an answer may have as settled, where some choices were allowed. With no choice made it is all of them
// for found, and 0 for none, since the closure failed. Else there was one to choose; those that no total list keeps are
// settled, and the settled ones are alike in all repairs.
fn settled_fits(table: &Table, answer: &clauses::Answer) -> bool {
    let (e, settled) = (table.steps.len(), answer.settled as usize);
    if answer.choices == 0 {
        return settled == if answer.number == 0 { e } else { 0 };
    }
    let mut total = vec![1; e];
    draw::prune(table, &mut total);
    let least = total.iter().filter(|&&kept| kept == 0).count();
    (least..e).contains(&settled) && (e > 10 || settled <= meaning::alike(table))
}

// The settled steps are as many as they may be and as the closure of nothing has, word for word.
fn settles(random: &mut Random, table: &Table, v: usize, answer: &clauses::Answer) -> Result<(), String> {
    if !settled_fits(table, answer) {
        return Err(format!("so many steps can't be settled: {answer:?}"));
    }
    if v <= MOST_CLOSED || random.once_in(10) {
        let settled = closure::settled(table);
        if settled != answer.settled {
            return Err(format!("{settled} steps are settled, by the plain search {}", answer.settled));
        }
    }
    Ok(())
}

// Gives the list that is written, and the one before striking; nothing where none is found.
pub fn compare(calls: &mut Calls, random: &mut Random, bytes: &[u8], table: &Table) -> Result<Vec<Vec<u8>>, String> {
    let (e, v) = (table.steps.len(), variables(table));
    let net = clauses::net(bytes);
    if net.variables != v {
        return Err(format!("V is {v}, the net has {}\ntable {}", net.variables, hex(bytes)));
    }
    let limit = (EFFORT / v).clamp(4, 3000) as u64;
    let answer = clauses::search(&net, limit);
    let right = means(table, &answer).and_then(|()| settles(random, table, v, &answer));
    right.map_err(|difference| format!("repair: {difference}\ntable {}", hex(bytes)))?;
    for cap in caps(random, &answer, limit) {
        let rooms = rooms(random, e, v);
        // the settled steps are the same under every cap
        calls.repair(random, bytes, cap, rooms, v, || clauses::Answer {
            settled: answer.settled,
            ..clauses::search(&net, cap)
        })?;
    }
    if answer.number != 0 {
        return Ok(vec![]);
    }
    Ok(vec![striking::strike(&table.initial, &table.steps, &answer.list), answer.list])
}

// A refused table, whatever is lent.
pub fn refused(calls: &mut Calls, random: &mut Random, bytes: &[u8]) -> Result<(), String> {
    let sizes = [0, 1, 128, 1000, 3000];
    let rooms = Rooms { list: random.pick(&sizes), bytes: random.pick(&sizes), words: random.pick(&sizes) };
    let cap = random.pick(&[0, 1, u64::MAX]);
    calls.repair(random, bytes, cap, rooms, 0, || unreachable!())
}
