// Makes a call and compares its number, what it stores, every entry of its buffers, and their guards.
use crate::clauses;
use crate::fitter::{self, Answer};
use crate::lent::Lent;
use crate::parcel::ParcelRooms;
use crate::random::Random;
use crate::wanted::{self, Rooms};

pub const NAMES: [&str; 6] = ["repair", "judge", "label", "holding", "read", "parcel"];

// A call gives 0 to 17.
pub const NUMBERS: usize = 18;

// How many calls of each kind agreed, by the number they gave.
pub struct Calls {
    pub agreed: [[u64; NUMBERS]; NAMES.len()],
}

pub fn hex(bytes: &[u8]) -> String {
    if bytes.is_empty() { "-".to_string() } else { bytes.iter().map(|b| format!("{b:02x}")).collect() }
}

fn same<T: PartialEq + std::fmt::Debug>(name: &str, got: T, wanted: T) -> Result<(), String> {
    if got == wanted { Ok(()) } else { Err(format!("{name}: {got:?}, wanted {wanted:?}")) }
}

// The number of an outcome.
fn number<T>(wanted: &Result<T, u32>) -> u32 {
    wanted.as_ref().err().copied().unwrap_or(0)
}

impl Calls {
    fn count(
        &mut self, kind: usize, number: u32, compared: Result<(), String>, inputs: impl Fn() -> String,
    ) -> Result<(), String> {
        compared.map_err(|difference| format!("{}: {difference}\n{}", NAMES[kind], inputs()))?;
        self.agreed[kind][number as usize] += 1;
        Ok(())
    }

    pub fn judge(&mut self, random: &mut Random, table: &[u8], list: &[u8]) -> Result<(), String> {
        let (mut t, mut l) = (Lent::given(random, "table", table), Lent::given(random, "list", list));
        let wanted = number(&wanted::judge(table, list));
        let got = fitter::judge(t.part(), l.part());
        let compared = same("number", got, wanted).and_then(|()| t.check()).and_then(|()| l.check());
        self.count(1, wanted, compared, || format!("table {}\nlist {}", hex(table), hex(list)))
    }

    pub fn label(&mut self, random: &mut Random, table: &[u8], list: &[u8], room: usize) -> Result<(), String> {
        let (mut t, mut l) = (Lent::given(random, "table", table), Lent::given(random, "list", list));
        let mut out = Lent::<u32>::junk(random, "words", room);
        let wanted = wanted::label(table, list, room);
        out.want(wanted.as_deref().unwrap_or(&[]));
        let got = fitter::label(t.part(), l.part(), out.part());
        let compared = same("number", got, number(&wanted))
            .and_then(|()| out.check())
            .and_then(|()| t.check())
            .and_then(|()| l.check());
        self.count(2, number(&wanted), compared, || format!("table {}\nlist {}\nroom {room}", hex(table), hex(list)))
    }

    pub fn holding(&mut self, random: &mut Random, table: &[u8], list: &[u8], room: usize) -> Result<(), String> {
        let (mut t, mut l) = (Lent::given(random, "table", table), Lent::given(random, "list", list));
        let mut out = Lent::<u8>::junk(random, "states", room);
        let before = random.next() as u32;
        let mut count = before;
        let wanted = wanted::holding(table, list, room);
        let states = wanted.as_deref().unwrap_or(&[]);
        out.want(states);
        let got = fitter::holding(t.part(), l.part(), out.part(), &mut count);
        let compared = same("number", got, number(&wanted))
            .and_then(|()| same("count", count, if wanted.is_ok() { states.len() as u32 } else { before }))
            .and_then(|()| out.check())
            .and_then(|()| t.check())
            .and_then(|()| l.check());
        self.count(3, number(&wanted), compared, || format!("table {}\nlist {}\nroom {room}", hex(table), hex(list)))
    }

    pub fn read(&mut self, random: &mut Random, text: &[u8], room: usize) -> Result<(), String> {
        let mut t = Lent::given(random, "text", text);
        let mut out = Lent::<u8>::junk(random, "table", room);
        let before = random.next();
        let mut length = before;
        let wanted = wanted::read(text, room);
        out.want(wanted.as_deref().unwrap_or(&[]));
        let got = fitter::read(t.part(), out.part(), &mut length);
        let compared = same("number", got, number(&wanted))
            .and_then(|()| same("length", length, wanted.as_ref().map_or(before, |bytes| bytes.len() as u64)))
            .and_then(|()| out.check())
            .and_then(|()| t.check());
        self.count(4, number(&wanted), compared, || format!("text {}\nroom {room}", hex(text)))
    }

    // `v` is V where the table is accepted.
    pub fn repair(
        &mut self, random: &mut Random, table: &[u8], cap: u64, rooms: Rooms, v: usize,
        search: impl FnOnce() -> clauses::Answer,
    ) -> Result<(), String> {
        let mut t = Lent::given(random, "table", table);
        let mut list = Lent::<u8>::junk(random, "list", rooms.list);
        let mut bytes = Lent::<u8>::junk(random, "bytes", rooms.bytes);
        let mut words = Lent::<u32>::junk(random, "words", rooms.words);
        let before = (random.next(), random.next() as u32, random.next() as u32);
        let (mut choices, mut price, mut settled) = before;
        let wanted = wanted::repair(table, rooms, search);
        if let Ok(answer) = &wanted {
            list.want(&answer.list);
            bytes.want(&vec![0; v]);
            words.want(&vec![0; v]);
        }
        let (number, stored) = match &wanted {
            Ok(answer) => (answer.number, (answer.choices, answer.price, answer.settled)),
            Err(refusal) => (*refusal, before),
        };
        let got = fitter::repair(
            t.part(),
            cap,
            list.part(),
            bytes.part(),
            words.part(),
            &mut choices,
            &mut price,
            &mut settled,
        );
        let compared = same("number", got, number)
            .and_then(|()| same("choices, price and settled steps", (choices, price, settled), stored))
            .and_then(|()| list.check())
            .and_then(|()| bytes.check())
            .and_then(|()| words.check())
            .and_then(|()| t.check());
        self.count(0, number, compared, || format!("table {}\ncap {cap}\n{rooms:?}\nwanted {wanted:?}", hex(table)))
    }

    pub fn parcel(
        &mut self, random: &mut Random, parcel: &[u8], cap: u64, rooms: ParcelRooms,
        search: impl FnMut(usize, u64) -> clauses::Answer,
    ) -> Result<(), String> {
        let mut p = Lent::given(random, "parcel", parcel);
        let mut lists = Lent::<u8>::junk(random, "lists", rooms.lists);
        let mut bytes = Lent::<u8>::junk(random, "bytes", rooms.bytes);
        let mut words = Lent::<u32>::junk(random, "words", rooms.words);
        let mut answers = Lent::<Answer>::junk(random, "answers", rooms.answers);
        let before = (random.next() as u32, random.next());
        let (mut tables, mut left) = before;
        let wanted = wanted::parcel(parcel, cap, rooms, search);
        let mut stored = before;
        if let Ok(all) = &wanted {
            for (k, (place, answer)) in all.answers.iter().enumerate() {
                let clauses::Answer { number, choices, price, settled, ref list } = *answer;
                lists.want_at(*place, list);
                answers.want_at(k, &[Answer { choices, number, price, settled }]);
            }
            bytes.want(&vec![0; all.zeros]);
            words.want(&vec![0; all.zeros]);
            stored = (all.answers.len() as u32, all.left);
        }
        let got = fitter::parcel(
            p.part(),
            cap,
            lists.part(),
            bytes.part(),
            words.part(),
            answers.part(),
            &mut tables,
            &mut left,
        );
        let compared = same("number", got, number(&wanted))
            .and_then(|()| same("tables and allowance left", (tables, left), stored))
            .and_then(|()| answers.check())
            .and_then(|()| lists.check())
            .and_then(|()| bytes.check())
            .and_then(|()| words.check())
            .and_then(|()| p.check());
        let inputs = || format!("parcel {}\ncap {cap}\n{rooms:?}\nwanted {wanted:?}", hex(parcel));
        self.count(5, number(&wanted), compared, inputs)
    }
}
