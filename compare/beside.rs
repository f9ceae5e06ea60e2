//! The port beside the crate, in one process: the binding's answers, rows, order, weights, slots and stack after every
//! call. Then damaged states: numbers changed at random and lists cut, with calls of every kind on them.

use super::*;
use weavestall::lists::{self, Lists, RowLists};
use weavestall::{ClaimsCache, Evicted, Now, Put, Refusal};

const NONE: u32 = u32::MAX;
const UNUSED: u32 = u32::MAX - 1;
const MOST_SHOWN: usize = 5;

pub fn run(calls: u64, seed: u64) -> Result<(), String> {
    let sound = beside_the_crate(calls, seed)?;
    println!("{sound}");
    let large = large_caches(seed)?;
    println!("{large}");
    let damaged = damaged_states(calls, seed)?;
    println!("{damaged}");
    println!("none differed");
    Ok(())
}

// ---------------------------------------------------------------------------------------
// Document 01's soundness of lists, written plainly: the state they hold, or none
// ---------------------------------------------------------------------------------------

fn state_in(lists: &Lists) -> Option<State> {
    let head = lists.head.get(..lists::HEAD)?;
    let [kind, capacity, slots, live, weight, front, back, top, depth] = head.try_into().ok()?;
    if kind > 1
        || !(1..=LARGEST_CAPACITY).contains(&capacity)
        || !(1..=LARGEST_ROOM).contains(&slots)
    {
        return None;
    }
    let n = slots as usize;
    let [codes, values, weights] =
        [&lists.codes, &lists.values, &lists.weights].map(|l| l.get(..n));
    let [stamps, next, prev, stack] =
        [&lists.stamps, &lists.next, &lists.prev, &lists.stack].map(|l| l.get(..n));
    let (codes, values, weights) = (codes?, values?, weights?);
    let (stamps, next, prev, stack) = (stamps?, next?, prev?, stack?);
    let cells = lists.cells.get(..2 * n)?;
    if live > slots || depth > slots || top > slots || live + depth != top {
        return None;
    }
    let (live, top, depth) = (live as usize, top as usize, depth as usize);

    // The links, front to back.
    let mut order = Vec::new();
    let mut used = vec![false; n];
    let (mut before, mut here) = (u64::from(NONE), front);
    for _ in 0..live {
        let slot = here as usize;
        if here >= top as u64 || used[slot] || u64::from(prev[slot]) != before {
            return None;
        }
        used[slot] = true;
        order.push(Held {
            slot,
            id: 0,
            row: Row {
                code: codes[slot],
                stamp: stamps[slot],
                value: values[slot],
                weight: weights[slot],
            },
        });
        (before, here) = (here, u64::from(next[slot]));
    }
    if here != u64::from(NONE) || back != before {
        return None;
    }
    let distinct: BTreeSet<u64> = order.iter().map(|held| held.row.code).collect();
    if distinct.len() != live {
        return None;
    }

    // Weights and capacity.
    let total: u128 = order.iter().map(|held| u128::from(held.row.weight)).sum();
    if total != u128::from(weight) || total + live as u128 > u128::from(capacity) {
        return None;
    }
    if kind == 0 && order.iter().any(|held| held.row.weight != 0) {
        return None;
    }

    // The stack, and what stands in unused slots.
    let blank = |slot: usize, place: u32| {
        codes[slot] == 0
            && stamps[slot] == 0
            && values[slot] == 0
            && weights[slot] == 0
            && next[slot] == UNUSED
            && prev[slot] == place
    };
    let mut free = Vec::new();
    for place in 0..depth {
        let slot = stack[place] as usize;
        if slot >= top || used[slot] || !blank(slot, place as u32) {
            return None;
        }
        used[slot] = true;
        free.push(slot);
    }
    if stack[depth..].iter().any(|slot| *slot != NONE) || !(top..n).all(|slot| blank(slot, NONE)) {
        return None;
    }

    // The table: each live slot in one cell, no empty cell between its home and there.
    let mut cell_of = vec![None; n];
    for (cell, slot) in cells.iter().enumerate() {
        if *slot == NONE {
            continue;
        }
        let place = cell_of.get_mut(*slot as usize)?;
        if place.is_some() {
            return None;
        }
        *place = Some(cell);
    }
    if cell_of.iter().flatten().count() != live {
        return None;
    }
    for held in &order {
        let end = cell_of[held.slot]?;
        let mut cell = crc32(&held.row.code.to_le_bytes()) as usize % (2 * n);
        while cell != end {
            if cells[cell] == NONE {
                return None;
            }
            cell = (cell + 1) % (2 * n);
        }
    }
    Some(State {
        capacity,
        weight,
        top,
        order,
        free,
    })
}

fn model_of(state: &State) -> Model {
    Model {
        capacity: state.capacity,
        order: (state.order.iter())
            .map(|held| Placed {
                slot: held.slot,
                row: held.row,
            })
            .collect(),
        stack: state.free.clone(),
        top: state.top,
    }
}

// ---------------------------------------------------------------------------------------
// Calls on the binding
// ---------------------------------------------------------------------------------------

fn row_of(row: weavestall::Row) -> Row {
    Row {
        code: row.code,
        stamp: row.stamp,
        value: row.value,
        weight: row.weight,
    }
}

fn rows_of(evicted: Evicted) -> Vec<Row> {
    evicted.into_iter().map(row_of).collect()
}

fn no(refusal: Refusal) -> Reply {
    Closing::No(refusal.number() as u8).into()
}

fn ask_ours(cache: &mut ClaimsCache, command: &Command) -> Reply {
    let put = |outcome: Result<Put, Refusal>| match outcome {
        Ok(Put::New { evicted }) => Reply::leaving(rows_of(evicted), Closing::New),
        Ok(Put::Was { value, evicted }) => Reply::leaving(rows_of(evicted), Closing::Was(value)),
        Err(refusal) => no(refusal),
    };
    let now = |outcome: Result<Now, Refusal>| match outcome {
        Ok(Now {
            value,
            new,
            evicted,
        }) => Reply::leaving(rows_of(evicted), Closing::Now { value, new }),
        Err(refusal) => no(refusal),
    };
    let set = |outcome: Result<Option<u64>, Refusal>| match outcome {
        Ok(Some(old)) => Closing::Was(old).into(),
        Ok(None) => Closing::Absent.into(),
        Err(refusal) => no(refusal),
    };
    let found = |value: Option<u64>| match value {
        Some(value) => Closing::Is(value),
        None => Closing::Absent,
    };
    let closing = match *command {
        Command::Put(code, stamp, value) => return put(cache.put(code, stamp, value)),
        Command::PutWithWeight(row) => {
            return put(cache.put_with_weight(row.code, row.stamp, row.value, row.weight));
        }
        Command::PutOrModify(code, stamp, amount) => {
            return now(cache.put_or_modify(code, stamp, amount));
        }
        Command::TryPutOrModify(code, stamp, amount, ceiling) => {
            return now(cache.try_put_or_modify(code, stamp, amount, ceiling));
        }
        Command::Get(code) => found(cache.get(code)),
        Command::Peek(code) => found(cache.peek(code)),
        Command::Contains(code) => Closing::Truth(cache.contains(code)),
        Command::IsEmpty => Closing::Truth(cache.is_empty()),
        Command::IsFull => Closing::Truth(cache.is_full()),
        Command::Len => Closing::Count(cache.len()),
        Command::Capacity => Closing::Count(cache.capacity()),
        Command::Weight => Closing::Count(cache.weight()),
        Command::Front => return Reply::showing_one(cache.front().map(row_of)),
        Command::Back => return Reply::showing_one(cache.back().map(row_of)),
        Command::PopFront => return Reply::showing_one(cache.pop_front().map(row_of)),
        Command::PopBack => return Reply::showing_one(cache.pop_back().map(row_of)),
        Command::Pop(code) => match cache.pop(code) {
            Some(value) => Closing::Was(value),
            None => Closing::Absent,
        },
        Command::GetMut(code, value) => return set(cache.get_mut(code, value)),
        Command::PeekMut(code, value) => return set(cache.peek_mut(code, value)),
        Command::FrontMut(value) => return set(cache.front_mut(value)),
        Command::BackMut(value) => return set(cache.back_mut(value)),
        Command::List => return Reply::showing(cache.iter().map(row_of).collect()),
        Command::ListBack => return Reply::showing(cache.iter_back().map(row_of).collect()),
        Command::Retain(rule) => {
            let test = match rule.test {
                Test::Code(low, high) => weavestall::Test::Code(low, high),
                Test::Value(low, high) => weavestall::Test::Value(low, high),
                Test::Stamp(least) => weavestall::Test::Stamp(least),
                Test::Weight(most) => weavestall::Test::Weight(most),
            };
            let not = rule.not;
            let rows = cache.retain(weavestall::Rule { test, not });
            return Reply::leaving(rows_of(rows), Closing::Ok);
        }
        Command::Resize(capacity) => match cache.resize(capacity) {
            Ok(rows) => return Reply::leaving(rows_of(rows), Closing::Ok),
            Err(refusal) => return no(refusal),
        },
        Command::Clear => Closing::Count(cache.clear()),
    };
    closing.into()
}

fn open_ours(opening: Opening) -> Result<ClaimsCache, String> {
    let kind = match opening.kind {
        Kind::Plain => weavestall::Kind::Plain,
        Kind::Weighed => weavestall::Kind::Weighed,
    };
    ClaimsCache::open(kind, opening.capacity, opening.room as u32)
        .map_err(|refusal| format!("{opening}: {refusal}"))
}

// ---------------------------------------------------------------------------------------
// Beside the crate
// ---------------------------------------------------------------------------------------

#[derive(Default)]
struct Counts {
    runs: u64,
    /// Calls that the crate and the port were both sent.
    crate_agreed: u64,
    /// Calls where the crate panics or is spent, held against document 01.
    paper_agreed: u64,
    panics: u64,
    /// Calls that the crate has not, by the port's refusal.
    refused: BTreeMap<u8, u64>,
}

impl Counts {
    fn say(&self, what: &str) -> String {
        format!(
            "{what}: {} runs, {} calls agreed with the crate; {} more on caches that its {} panics spent agreed with \
             document 01; refused as it says, nothing touched: {:?}",
            self.runs, self.crate_agreed, self.paper_agreed, self.panics, self.refused
        )
    }
}

/// Crate, model and port of one run.
struct Trio {
    pair: Pair,
    ours: ClaimsCache,
    /// The state of the port.
    state: State,
    crate_spent: bool,
}

impl Trio {
    fn open(opening: Opening) -> Result<Self, String> {
        let ours = open_ours(opening)?;
        let state = state_in(ours.lists()).ok_or_else(|| format!("{opening}: not sound"))?;
        Ok(Trio {
            pair: Pair::open(opening),
            ours,
            state,
            crate_spent: false,
        })
    }

    /// A call that both have.
    fn step(&mut self, command: &Command, counts: &mut Counts) -> Result<(), String> {
        let expected = if self.crate_spent {
            counts.paper_agreed += 1;
            self.pair.model.perform(command)
        } else {
            match self.pair.step(command) {
                Step::Agreed(reply) => {
                    counts.crate_agreed += 1;
                    reply
                }
                Step::Panicked { foretold: true, .. } => {
                    self.crate_spent = true;
                    counts.panics += 1;
                    counts.paper_agreed += 1;
                    self.pair.model.perform(command)
                }
                Step::Panicked { message, .. } => return Err(format!("a new panic: {message}")),
                Step::Differs(text) => return Err(text),
            }
        };
        let reply = ask_ours(&mut self.ours, command);
        self.state = state_in(self.ours.lists()).ok_or("the lists are not sound")?;
        if reply != expected || !self.pair.model.equals(&self.state) {
            return Err(format!(
                "port:\n{reply}{}\nexpected:\n{expected}{}",
                self.state,
                self.pair.model.show()
            ));
        }
        Ok(())
    }

    /// A call that the port refuses and the crate has not.
    fn refused(
        &mut self,
        command: &Command,
        number: u8,
        counts: &mut Counts,
    ) -> Result<(), String> {
        let before = self.ours.lists().clone();
        let reply = ask_ours(&mut self.ours, command);
        if reply != Reply::from(Closing::No(number)) || *self.ours.lists() != before {
            return Err(format!(
                "expected `no {number}` and nothing touched, got {reply}"
            ));
        }
        *counts.refused.entry(number).or_default() += 1;
        Ok(())
    }
}

/// A call that this kind of cache refuses with 3 or 8.
fn misfit(random: &mut Random, kind: Kind) -> (Command, u8) {
    let (code, stamp) = (random.below(6), random.below(9) as u32);
    if random.one_in(4) {
        let capacity = random.pick(&[0, LARGEST_CAPACITY + 1, u64::MAX]);
        return (Command::Resize(capacity), 8);
    }
    let command = match kind {
        Kind::Plain => Command::PutWithWeight(Row {
            code,
            stamp,
            value: 1,
            weight: random.pick(&[1, 2, u64::MAX]),
        }),
        Kind::Weighed => match random.below(7) {
            0 => Command::Put(code, stamp, 1),
            1 => Command::PutOrModify(code, stamp, 1),
            2 => Command::TryPutOrModify(code, stamp, 1, 0),
            3 => Command::GetMut(code, 1),
            4 => Command::PeekMut(code, 1),
            5 => Command::FrontMut(1),
            _ => Command::BackMut(1),
        },
    };
    (command, 3)
}

fn at_boundary(random: &mut Random, generator: &mut Generator, codes: Codes) {
    let capacity = generator.opening.capacity;
    let near = random.pick(&[1, 2, 3, 4, 7, 8, 9, 15, 16, 17, 31, 32, 33, 40]);
    generator.opening.room = near;
    if random.one_in(2) && capacity < 1000 {
        generator.opening.capacity = random.pick(&[near.max(2) - 1, near, near + 1, 2 * near]);
    }
    generator.taste.codes = codes.pool(near);
}

fn beside_the_crate(calls: u64, seed: u64) -> Result<String, String> {
    let mut random = Random(seed);
    let mut counts = Counts::default();
    while counts.crate_agreed < calls {
        let kind = random.pick(&KINDS);
        let codes = random.pick(&CODE_CHOICES);
        let mut generator = random_generator(random.next(), kind, codes);
        if random.one_in(3) {
            at_boundary(&mut random, &mut generator, codes);
        }
        generator.taste.panics_one_in = random.pick(&[1, 20, 2000]);
        generator.taste.drastic_one_in = random.pick(&[1, 8, 40]);
        let opening = generator.opening;
        let mut trio = Trio::open(opening)?;
        counts.runs += 1;
        let mut sent = Vec::new();
        for _ in 0..random.between(1, 300) {
            let (command, outcome) = if random.one_in(40) {
                let (command, number) = misfit(&mut random, kind);
                (command, trio.refused(&command, number, &mut counts))
            } else {
                let drawn = generator.draw(&trio.state);
                if trio.state.lacks_room(opening.room, &drawn) {
                    (drawn, trio.refused(&drawn, 5, &mut counts))
                } else {
                    let command = generator.next_command(&trio.state);
                    (command, trio.step(&command, &mut counts))
                }
            };
            sent.push(command);
            if let Err(text) = outcome {
                return Err(format!("{}\n{text}", Run::of(opening, &sent)));
            }
        }
    }
    Ok(counts.say("beside the crate"))
}

/// Caches of many slots, around the powers of two and the largest slot count.
fn large_caches(seed: u64) -> Result<String, String> {
    let mut random = Random(seed ^ 0x6C61_7267_65);
    let mut counts = Counts::default();
    for room in [63, 64, 65, 255, 256, 257, 1023, 1024, 1025, 4095, 4096] {
        for kind in KINDS {
            for capacity in [room - 1, room, room + 1, 3 * room] {
                let opening = Opening {
                    kind,
                    capacity,
                    room,
                };
                let mut generator = Generator {
                    random: Random(random.next()),
                    opening,
                    taste: Taste {
                        codes: (1..=room + room / 4).collect(),
                        edge: false,
                        panics_one_in: 20,
                        drastic_one_in: 8,
                    },
                };
                let mut trio = Trio::open(opening)?;
                counts.runs += 1;
                // Filled without reading the crate's state each time, which takes long at this size.
                for code in 1..=room + room / 2 {
                    let weight = if kind == Kind::Plain {
                        0
                    } else {
                        random.below(3)
                    };
                    let again = random.one_in(4);
                    let code = if again { random.between(1, code) } else { code };
                    let stamp = random.below(9) as u32;
                    let value = random.below(100);
                    let row = Row {
                        code,
                        stamp,
                        value,
                        weight,
                    };
                    let command = if kind == Kind::Plain {
                        Command::Put(code, stamp, value)
                    } else {
                        Command::PutWithWeight(row)
                    };
                    if trio.ours.lists().head[3] == room {
                        trio.state = state_in(trio.ours.lists()).ok_or("not sound")?;
                        if trio.state.lacks_room(room, &command) {
                            trio.refused(&command, 5, &mut counts)?;
                            continue;
                        }
                    }
                    let theirs = trio.pair.opened.cache.call(&command).closing;
                    let expected = trio.pair.model.perform(&command);
                    let reply = ask_ours(&mut trio.ours, &command);
                    if reply != expected || reply.closing != theirs {
                        return Err(format!("{opening}: {command}: {reply}expected {expected}"));
                    }
                    counts.crate_agreed += 1;
                }
                trio.pair.opened.state = trio.pair.opened.cache.state();
                trio.state = state_in(trio.ours.lists()).ok_or("not sound")?;
                if !trio.pair.model.equals(&trio.state)
                    || !trio.pair.model.equals(&trio.pair.opened.state)
                {
                    return Err(format!("{opening}: the states differ after filling"));
                }
                for _ in 0..40_000 / room + 20 {
                    let command = generator.next_command(&trio.state);
                    trio.step(&command, &mut counts)
                        .map_err(|text| format!("{opening}, filled: {command}\n{text}"))?;
                }
            }
        }
    }
    Ok(counts.say("many slots"))
}

// ---------------------------------------------------------------------------------------
// Damaged states
// ---------------------------------------------------------------------------------------

fn numbers_of(command: &Command) -> [u64; 5] {
    match *command {
        Command::Len => [1, 0, 0, 0, 0],
        Command::Capacity => [2, 0, 0, 0, 0],
        Command::Weight => [3, 0, 0, 0, 0],
        Command::IsEmpty => [4, 0, 0, 0, 0],
        Command::IsFull => [5, 0, 0, 0, 0],
        Command::Front => [6, 0, 0, 0, 0],
        Command::Back => [7, 0, 0, 0, 0],
        Command::Peek(code) => [8, code, 0, 0, 0],
        Command::Contains(code) => [9, code, 0, 0, 0],
        Command::List => [10, 0, 0, 0, 0],
        Command::ListBack => [11, 0, 0, 0, 0],
        Command::Get(code) => [12, code, 0, 0, 0],
        Command::Pop(code) => [13, code, 0, 0, 0],
        Command::PopFront => [14, 0, 0, 0, 0],
        Command::PopBack => [15, 0, 0, 0, 0],
        Command::Put(code, stamp, value) => [16, code, stamp.into(), value, 0],
        Command::PutWithWeight(row) => [17, row.code, row.stamp.into(), row.value, row.weight],
        Command::Clear => [18, 0, 0, 0, 0],
        Command::Retain(rule) => {
            let not = u64::from(rule.not);
            match rule.test {
                Test::Code(low, high) => [19, 0, not, low, high],
                Test::Value(low, high) => [19, 1, not, low, high],
                Test::Stamp(least) => [19, 2, not, least.into(), 0],
                Test::Weight(most) => [19, 3, not, 0, most],
            }
        }
        Command::Resize(capacity) => [20, capacity, 0, 0, 0],
        Command::PutOrModify(code, stamp, amount) => [21, code, stamp.into(), amount, 0],
        Command::TryPutOrModify(code, stamp, amount, ceiling) => {
            [22, code, stamp.into(), amount, ceiling]
        }
        Command::GetMut(code, value) => [23, code, value, 0, 0],
        Command::PeekMut(code, value) => [24, code, value, 0, 0],
        Command::FrontMut(value) => [25, value, 0, 0, 0],
        Command::BackMut(value) => [26, value, 0, 0, 0],
    }
}

/// The command that a list holds, by docs/LAYOUT.md.
fn command_in(list: &[u64]) -> Option<Command> {
    let [number, a, b, c, d] = *list.first_chunk()?;
    let stamp = u32::try_from(b);
    Some(match number {
        1 => Command::Len,
        2 => Command::Capacity,
        3 => Command::Weight,
        4 => Command::IsEmpty,
        5 => Command::IsFull,
        6 => Command::Front,
        7 => Command::Back,
        8 => Command::Peek(a),
        9 => Command::Contains(a),
        10 => Command::List,
        11 => Command::ListBack,
        12 => Command::Get(a),
        13 => Command::Pop(a),
        14 => Command::PopFront,
        15 => Command::PopBack,
        16 => Command::Put(a, stamp.ok()?, c),
        17 => Command::PutWithWeight(Row {
            code: a,
            stamp: stamp.ok()?,
            value: c,
            weight: d,
        }),
        18 => Command::Clear,
        19 => {
            let not = match b {
                0 => false,
                1 => true,
                _ => return None,
            };
            let test = match a {
                0 => Test::Code(c, d),
                1 => Test::Value(c, d),
                // A stamp that no entry can have keeps none: as the weight of nothing does.
                2 => match u32::try_from(c) {
                    Ok(least) => Test::Stamp(least),
                    Err(_) => Test::Code(1, 0),
                },
                3 => Test::Weight(d),
                _ => return None,
            };
            Command::Retain(Rule { not, test })
        }
        20 => Command::Resize(a),
        21 => Command::PutOrModify(a, stamp.ok()?, c),
        22 => Command::TryPutOrModify(a, stamp.ok()?, c, d),
        23 => Command::GetMut(a, b),
        24 => Command::PeekMut(a, b),
        25 => Command::FrontMut(a),
        26 => Command::BackMut(a),
        _ => return None,
    })
}

/// What document 01 says of a call on a sound state, its refusals in their order; the model is left as the call leaves it.
fn by_the_paper(
    model: &mut Model,
    state: &State,
    kind: Kind,
    room: u64,
    lent: usize,
    command: &Command,
) -> Reply {
    if !command.fits(kind) {
        let number = if matches!(command, Command::Resize(_)) {
            8
        } else {
            3
        };
        return Closing::No(number).into();
    }
    if state.lacks_room(room, command) {
        return Closing::No(5).into();
    }
    let reply = model.perform(command);
    let rows = match command {
        Command::List | Command::ListBack => reply.shown.len(),
        _ => reply.out.len(),
    };
    if rows > lent {
        *model = model_of(state);
        return Closing::No(6).into();
    }
    reply
}

/// The numbers of an answer, and the rows that are written.
fn answer_of_reply(command: &Command, reply: &Reply) -> ([u64; 8], Vec<Row>) {
    let rows = match command {
        Command::List | Command::ListBack => reply.shown.clone(),
        _ => reply.out.clone(),
    };
    let count = rows.len() as u64;
    let numbers = match reply.closing {
        Closing::No(number) => [number.into(), 0, 0, 0, 0, 0, 0, 0],
        Closing::New => [0, 1, 0, count, 1, 0, 0, 0],
        Closing::Was(value) => [0, 2, value, count, 0, 0, 0, 0],
        Closing::Is(value) => [0, 3, value, 0, 0, 0, 0, 0],
        Closing::Now { value, new } => [0, 4, value, count, new.into(), 0, 0, 0],
        Closing::Absent => [0, 5, 0, 0, 0, 0, 0, 0],
        Closing::Ok => match (command, &reply.shown[..]) {
            (Command::Front | Command::Back | Command::PopFront | Command::PopBack, [row]) => [
                0,
                6,
                row.value,
                0,
                0,
                row.code,
                row.stamp.into(),
                row.weight,
            ],
            _ => [0, 7, 0, count, 0, 0, 0, 0],
        },
        Closing::Count(count) => [0, 8, count, 0, 0, 0, 0, 0],
        Closing::Truth(truth) => [0, 9, 0, 0, truth.into(), 0, 0, 0],
    };
    (numbers, rows)
}

fn a_number(random: &mut Random, n: u64) -> u64 {
    match random.below(8) {
        0 => u64::from(NONE),
        1 => u64::from(UNUSED),
        2 => random.pick(&EDGE_NUMBERS),
        3 => random.next(),
        4 => random.next() >> 32,
        _ => random.below(2 * n + 2),
    }
}

fn damage_long(random: &mut Random, list: &mut [u64], n: u64) {
    if list.is_empty() {
        return;
    }
    let at = random.below(list.len() as u64) as usize;
    match random.below(4) {
        0 => list[at] ^= 1 << random.below(64),
        1 => list[at] = list[at].wrapping_add(1),
        2 => {
            let other = random.below(list.len() as u64) as usize;
            list.swap(at, other);
        }
        _ => list[at] = a_number(random, n),
    }
}

fn damage_short(random: &mut Random, list: &mut [u32], n: u64) {
    if list.is_empty() {
        return;
    }
    let at = random.below(list.len() as u64) as usize;
    match random.below(4) {
        0 => list[at] ^= 1 << random.below(32),
        1 => list[at] = list[at].wrapping_add(1),
        2 => {
            let other = random.below(list.len() as u64) as usize;
            list.swap(at, other);
        }
        _ => list[at] = a_number(random, n) as u32,
    }
}

fn damage(random: &mut Random, lists: &mut Lists, n: u64) {
    if random.one_in(12) {
        let cut = |random: &mut Random, len: usize| random.below(len as u64 + 1) as usize;
        match random.below(9) {
            0 => lists.head.truncate(cut(random, lists.head.len())),
            1 => lists.codes.truncate(cut(random, lists.codes.len())),
            2 => lists.stamps.truncate(cut(random, lists.stamps.len())),
            3 => lists.values.truncate(cut(random, lists.values.len())),
            4 => lists.weights.truncate(cut(random, lists.weights.len())),
            5 => lists.next.truncate(cut(random, lists.next.len())),
            6 => lists.prev.truncate(cut(random, lists.prev.len())),
            7 => lists.stack.truncate(cut(random, lists.stack.len())),
            _ => lists.cells.truncate(cut(random, lists.cells.len())),
        }
        return;
    }
    match random.below(12) {
        0..=3 => damage_long(random, &mut lists.head, n),
        4 => damage_long(random, &mut lists.codes, n),
        5 => damage_short(random, &mut lists.stamps, n),
        6 => damage_long(random, &mut lists.values, n),
        7 => damage_long(random, &mut lists.weights, n),
        8 => damage_short(random, &mut lists.next, n),
        9 => damage_short(random, &mut lists.prev, n),
        10 => damage_short(random, &mut lists.stack, n),
        _ => damage_short(random, &mut lists.cells, n),
    }
}

/// Numbers past what the slots need: they must be kept.
fn add_tails(random: &mut Random, lists: &mut Lists) {
    let more = |random: &mut Random| random.below(3) as usize;
    let long = |random: &mut Random, list: &mut Vec<u64>| {
        let end = list.len() + more(random);
        list.resize_with(end, || 77);
    };
    let short = |random: &mut Random, list: &mut Vec<u32>| {
        let end = list.len() + more(random);
        list.resize_with(end, || 77);
    };
    long(random, &mut lists.head);
    long(random, &mut lists.codes);
    short(random, &mut lists.stamps);
    long(random, &mut lists.values);
    long(random, &mut lists.weights);
    short(random, &mut lists.next);
    short(random, &mut lists.prev);
    short(random, &mut lists.stack);
    short(random, &mut lists.cells);
}

fn tails_kept(n: usize, before: &Lists, after: &Lists) -> bool {
    before.head[lists::HEAD..] == after.head[lists::HEAD..]
        && before.codes[n..] == after.codes[n..]
        && before.stamps[n..] == after.stamps[n..]
        && before.values[n..] == after.values[n..]
        && before.weights[n..] == after.weights[n..]
        && before.next[n..] == after.next[n..]
        && before.prev[n..] == after.prev[n..]
        && before.stack[n..] == after.stack[n..]
        && before.cells[2 * n..] == after.cells[2 * n..]
}

struct Call {
    command: Vec<u64>,
    rows: RowLists,
    answer: Vec<u64>,
    reading: bool,
}

impl Call {
    fn draw(random: &mut Random, generator: &mut Generator, state: &State, n: u64) -> Self {
        // Words of both kinds, on a cache of either.
        let kind = generator.opening.kind;
        if random.one_in(4) {
            generator.opening.kind = random.pick(&KINDS);
        }
        let drawn = generator.draw(state);
        generator.opening.kind = kind;
        let mut command = numbers_of(&drawn).to_vec();
        match random.below(24) {
            0 => command.truncate(random.below(6) as usize),
            1 => command[0] = a_number(random, n),
            2 => {
                let at = random.below(5) as usize;
                command[at] = a_number(random, n);
            }
            3 => command.push(random.next()),
            _ => {}
        }
        let mut lent = || match random.below(6) {
            0 => random.below(n + 1) as usize,
            _ => n as usize,
        };
        let rows = RowLists {
            codes: vec![55; lent()],
            stamps: vec![55; lent()],
            values: vec![55; lent()],
            weights: vec![55; lent()],
        };
        let answers = match random.below(24) {
            0 => random.below(8),
            1 => 8 + random.below(4),
            _ => 8,
        };
        Call {
            command,
            rows,
            answer: vec![99; answers as usize],
            reading: random.one_in(4),
        }
    }

    fn lent(&self) -> usize {
        let RowLists {
            codes,
            stamps,
            values,
            weights,
        } = &self.rows;
        (codes.len().min(stamps.len())).min(values.len().min(weights.len()))
    }
}

fn check_call(lists: &mut Lists, call: &mut Call) -> Result<u8, String> {
    let before = lists.clone();
    let mut rows = call.rows.clone();
    let mut answer = call.answer.clone();
    let state = state_in(lists).filter(|_| call.answer.len() >= lists::ANSWER);
    let known = call
        .command
        .first()
        .is_some_and(|number| !call.reading || *number <= 11);
    let command = command_in(&call.command).filter(|_| known);

    let (expected, left) = match (&state, &command) {
        (None, _) => (([2, 0, 0, 0, 0, 0, 0, 0], Vec::new()), None),
        (Some(_), None) => (([8, 0, 0, 0, 0, 0, 0, 0], Vec::new()), None),
        (Some(state), Some(command)) => {
            let kind = KINDS[lists.head[0] as usize];
            let mut model = model_of(state);
            let reply = by_the_paper(&mut model, state, kind, lists.head[2], call.lent(), command);
            (answer_of_reply(command, &reply), Some(model))
        }
    };
    let (numbers, handed) = expected;
    let number = numbers[0] as u8;
    if answer.len() >= lists::ANSWER {
        answer[..lists::ANSWER].copy_from_slice(&numbers);
    }
    for (at, row) in handed.iter().enumerate() {
        rows.codes[at] = row.code;
        rows.stamps[at] = row.stamp;
        rows.values[at] = row.value;
        rows.weights[at] = row.weight;
    }

    let got = if call.reading {
        lists::read(lists, &mut call.rows, &call.command, &mut call.answer)
    } else {
        lists::call(lists, &mut call.rows, &call.command, &mut call.answer)
    };
    if got != u32::from(number) || call.answer != answer {
        return Err(format!(
            "answered {got} {:?}, expected {answer:?}",
            call.answer
        ));
    }
    if call.rows != rows {
        return Err(format!("rows {:?}, expected {rows:?}", call.rows));
    }
    let untouched = matches!(number, 1..=6 | 8) || call.reading;
    if untouched {
        if *lists != before {
            return Err("something was touched".into());
        }
    } else if let Some(model) = left {
        let after = state_in(lists).ok_or("not sound afterwards")?;
        if !model.equals(&after) {
            return Err(format!("left {after}\nexpected {}", model.show()));
        }
        if !tails_kept(before.head[2] as usize, &before, lists) || lists.head[0] != before.head[0] {
            return Err("a tail was not kept".into());
        }
    }
    Ok(number)
}

/// Openings on lists of any length and content.
fn check_opening(random: &mut Random) -> Result<bool, String> {
    let n = random.pick(&[0, 1, 2, 3, 8, 4095, 4096, 4097, u32::MAX]);
    let held = n.min(4097);
    let n_used = if random.one_in(3) {
        held.saturating_sub(1)
    } else {
        held
    };
    let mut lists = Lists::for_slots(held);
    lists.head.fill(5);
    lists.cells.fill(3);
    lists.values.fill(9);
    if n_used != held {
        damage(random, &mut lists, held.into());
    }
    add_tails(random, &mut lists);
    let kind = random.pick(&[0, 1, 1, 0, 2, u32::MAX]);
    let capacity = random.pick(&[
        0,
        1,
        2,
        10,
        LARGEST_CAPACITY,
        LARGEST_CAPACITY + 1,
        u64::MAX,
    ]);
    let long = |len: usize| len >= n as usize;
    let allowed = kind <= 1
        && (1..=LARGEST_CAPACITY).contains(&capacity)
        && (1..=4096).contains(&n)
        && lists.head.len() >= lists::HEAD
        && [
            lists.codes.len(),
            lists.stamps.len(),
            lists.values.len(),
            lists.weights.len(),
        ]
        .into_iter()
        .chain([lists.next.len(), lists.prev.len(), lists.stack.len()])
        .all(long)
        && lists.cells.len() >= 2 * n as usize;
    let before = lists.clone();
    let got = lists::open(kind, capacity, n, &mut lists);
    if got != u32::from(!allowed) {
        return Err(format!("open {kind} {capacity} {n}: {got}"));
    }
    if allowed {
        let state = state_in(&lists).ok_or("opened, not sound")?;
        if state.live() != 0 || state.capacity != capacity || state.top != 0 {
            return Err(format!("opened as {state}"));
        }
        if !tails_kept(n as usize, &before, &lists) {
            return Err("opening did not keep a tail".into());
        }
    } else if lists != before {
        return Err("a refused opening touched something".into());
    }
    Ok(allowed)
}

fn damaged_states(calls: u64, seed: u64) -> Result<String, String> {
    let mut random = Random(seed ^ 0x6461_6D61_6765);
    let mut outcomes: BTreeMap<u8, u64> = BTreeMap::new();
    let (mut made, mut still_sound, mut differing) = (0, 0_u64, Vec::new());
    let (mut opened, mut not_opened) = (0_u64, 0_u64);
    while made < calls && differing.len() < MOST_SHOWN {
        if random.one_in(64) {
            match check_opening(&mut random)? {
                true => opened += 1,
                false => not_opened += 1,
            }
        }
        // A sound state to start from.
        let kind = random.pick(&KINDS);
        let codes = random.pick(&CODE_CHOICES);
        let mut generator = random_generator(random.next(), kind, codes);
        let opening = generator.opening;
        let n = opening.room;
        let mut start = Lists::for_slots(n as u32);
        add_tails(&mut random, &mut start);
        let number = u32::from(kind == Kind::Weighed);
        if lists::open(number, opening.capacity, n as u32, &mut start) != 0 {
            return Err(format!("{opening} was refused"));
        }
        let mut rows = RowLists::for_rows(n as usize);
        for _ in 0..random.below(40) {
            let state = state_in(&start).ok_or("not sound")?;
            let command = numbers_of(&generator.draw(&state));
            lists::call(&mut start, &mut rows, &command, &mut [0; lists::ANSWER]);
        }
        let state = state_in(&start).ok_or("not sound")?;
        for _ in 0..24 {
            let mut lists = start.clone();
            for _ in 0..random.pick(&[0, 1, 1, 1, 2, 3]) {
                damage(&mut random, &mut lists, n);
            }
            let mut call = Call::draw(&mut random, &mut generator, &state, n);
            made += 1;
            still_sound += u64::from(lists != start && state_in(&lists).is_some());
            let shown = (lists.clone(), call.command.clone());
            match check_call(&mut lists, &mut call) {
                Ok(number) => *outcomes.entry(number).or_default() += 1,
                Err(text) => differing.push(format!("{:?}\n{:?}\n{text}", shown.0, shown.1)),
            }
        }
    }
    if !differing.is_empty() {
        return Err(differing.join("\n\n"));
    }
    Ok(format!(
        "damaged states: {made} calls, {still_sound} on states that the damage left sound; {opened} openings and \
         {not_opened} refused ones; by refusal (0: carried out): {outcomes:?}"
    ))
}
