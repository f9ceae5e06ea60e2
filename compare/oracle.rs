//! The oracle: runs script commands on the unchanged crate clru and writes down what it
//! answered and how it stood after each call.
//!
//!     oracle record DIR            write the recorded list into DIR, print the counts
//!     oracle stress CALLS SEED     compare random calls with a model of document 01
//!     oracle ask                   run the script on standard input, print the recorded form
//!     oracle beside CALLS SEED     run the port beside the crate (built with `--cfg beside`, see `run`)

use clru::{CLruCache, CLruCacheConfig, WeightScale, ZeroWeightScale};
use std::borrow::Borrow;
use std::cell::{Cell, RefCell};
use std::collections::{BTreeMap, BTreeSet};
use std::fmt::{self, Debug, Display, Formatter};
use std::hash::{BuildHasherDefault, DefaultHasher, Hash, Hasher};
use std::io::Read;
use std::num::NonZeroUsize;
use std::panic::{self, AssertUnwindSafe};
use std::path::Path;
use std::process::ExitCode;
use std::str::FromStr;

#[cfg(beside)]
mod beside;

const _: () = assert!(usize::BITS == 64, "weights and capacities have 64 bits");

const LARGEST_CAPACITY: u64 = (1 << 63) - 1;
const LARGEST_ROOM: u64 = 4096;
const LARGEST_FILE: usize = 400 * 1024;
const LARGEST_TOTAL: usize = 1600 * 1024;
const FEWEST_CALLS: u64 = 6000;

// ---------------------------------------------------------------------------------------
// Keys and values handed to the crate
// ---------------------------------------------------------------------------------------

thread_local! {
    static NEXT_ID: Cell<u64> = const { Cell::new(0) };
    static DROPPED: RefCell<Vec<u64>> = const { RefCell::new(Vec::new()) };
    static INSIDE_CRATE: Cell<bool> = const { Cell::new(false) };
    static CRATE_PANIC: RefCell<Option<String>> = const { RefCell::new(None) };
}

/// `Eq` and `Hash` see the code only; the id tells apart two keys with equal code and stamp.
struct Key {
    code: u64,
    stamp: u32,
    id: u64,
}

impl Key {
    fn new(code: u64, stamp: u32) -> Self {
        let id = NEXT_ID.get();
        NEXT_ID.set(id + 1);
        Key { code, stamp, id }
    }
}

impl Drop for Key {
    fn drop(&mut self) {
        DROPPED.with_borrow_mut(|log| log.push(self.id));
    }
}

impl PartialEq for Key {
    fn eq(&self, other: &Self) -> bool {
        self.code == other.code
    }
}

impl Eq for Key {}

impl Hash for Key {
    fn hash<H: Hasher>(&self, state: &mut H) {
        self.code.hash(state);
    }
}

impl Borrow<u64> for Key {
    fn borrow(&self) -> &u64 {
        &self.code
    }
}

impl Debug for Key {
    fn fmt(&self, f: &mut Formatter<'_>) -> fmt::Result {
        write!(f, "{}:{}:{}", self.code, self.stamp, self.id)
    }
}

struct Value {
    value: u64,
    weight: u64,
}

impl Debug for Value {
    fn fmt(&self, f: &mut Formatter<'_>) -> fmt::Result {
        write!(f, "{}:{}", self.value, self.weight)
    }
}

#[derive(Debug)]
struct CarriedWeight;

impl WeightScale<Key, Value> for CarriedWeight {
    fn weight(&self, _: &Key, value: &Value) -> usize {
        value.weight as usize
    }
}

// ---------------------------------------------------------------------------------------
// Script words: openings, commands, answers
// ---------------------------------------------------------------------------------------

#[derive(Clone, Copy, PartialEq, Eq, Debug)]
enum Kind {
    Plain,
    Weighed,
}

impl Display for Kind {
    fn fmt(&self, f: &mut Formatter<'_>) -> fmt::Result {
        f.write_str(match self {
            Kind::Plain => "plain",
            Kind::Weighed => "weighed",
        })
    }
}

const KINDS: [Kind; 2] = [Kind::Plain, Kind::Weighed];

/// The crate knows no `room` (document 01's N): it only tells which calls must be skipped.
#[derive(Clone, Copy, Debug)]
struct Opening {
    kind: Kind,
    capacity: u64,
    room: u64,
}

impl Display for Opening {
    fn fmt(&self, f: &mut Formatter<'_>) -> fmt::Result {
        write!(f, "open {} {} {}", self.kind, self.capacity, self.room)
    }
}

impl FromStr for Opening {
    type Err = String;

    fn from_str(line: &str) -> Result<Self, String> {
        let words: Vec<&str> = line.split(' ').collect();
        let (kind, capacity, room) = match words[..] {
            ["open", "plain", capacity, room] => (Kind::Plain, capacity, room),
            ["open", "weighed", capacity, room] => (Kind::Weighed, capacity, room),
            _ => return Err(format!("not an opening: {line}")),
        };
        let (capacity, room) = (number(capacity)?, number(room)?);
        if !(1..=LARGEST_CAPACITY).contains(&capacity) || !(1..=LARGEST_ROOM).contains(&room) {
            return Err(format!("out of bounds: {line}"));
        }
        Ok(Opening {
            kind,
            capacity,
            room,
        })
    }
}

#[derive(Clone, Copy, PartialEq, Eq, Debug)]
enum Test {
    Code(u64, u64),
    Value(u64, u64),
    Stamp(u32),
    Weight(u64),
}

#[derive(Clone, Copy, PartialEq, Eq, Debug)]
struct Rule {
    not: bool,
    test: Test,
}

impl Rule {
    fn keeps(&self, row: &Row) -> bool {
        let passes = match self.test {
            Test::Code(low, high) => (low..=high).contains(&row.code),
            Test::Value(low, high) => (low..=high).contains(&row.value),
            Test::Stamp(least) => row.stamp >= least,
            Test::Weight(most) => row.weight <= most,
        };
        passes != self.not
    }

    fn name(&self) -> String {
        let not = if self.not { "not " } else { "" };
        let test = match self.test {
            Test::Code(..) => "code",
            Test::Value(..) => "value",
            Test::Stamp(_) => "stamp",
            Test::Weight(_) => "weight",
        };
        format!("{not}{test}")
    }

    fn is_empty_range(&self) -> bool {
        matches!(self.test, Test::Code(low, high) | Test::Value(low, high) if low > high)
    }
}

impl Display for Rule {
    fn fmt(&self, f: &mut Formatter<'_>) -> fmt::Result {
        write!(f, "{} ", self.name())?;
        match self.test {
            Test::Code(low, high) | Test::Value(low, high) => write!(f, "{low} {high}"),
            Test::Stamp(least) => write!(f, "{least}"),
            Test::Weight(most) => write!(f, "{most}"),
        }
    }
}

#[derive(Clone, Copy, PartialEq, Eq, Debug)]
enum Command {
    Put(u64, u32, u64),
    PutWithWeight(Row),
    PutOrModify(u64, u32, u64),
    TryPutOrModify(u64, u32, u64, u64),
    Get(u64),
    Peek(u64),
    Contains(u64),
    IsEmpty,
    IsFull,
    Len,
    Capacity,
    Weight,
    Front,
    Back,
    PopFront,
    PopBack,
    Pop(u64),
    GetMut(u64, u64),
    PeekMut(u64, u64),
    FrontMut(u64),
    BackMut(u64),
    List,
    ListBack,
    Retain(Rule),
    Resize(u64),
    Clear,
}

impl Command {
    fn word(&self) -> &'static str {
        match self {
            Command::Put(..) => "put",
            Command::PutWithWeight(_) => "putw",
            Command::PutOrModify(..) => "put_or_modify",
            Command::TryPutOrModify(..) => "try_put_or_modify",
            Command::Get(_) => "get",
            Command::Peek(_) => "peek",
            Command::Contains(_) => "contains",
            Command::IsEmpty => "is_empty",
            Command::IsFull => "is_full",
            Command::Len => "len",
            Command::Capacity => "capacity",
            Command::Weight => "weight",
            Command::Front => "front",
            Command::Back => "back",
            Command::PopFront => "pop_front",
            Command::PopBack => "pop_back",
            Command::Pop(_) => "pop",
            Command::GetMut(..) => "get_mut",
            Command::PeekMut(..) => "peek_mut",
            Command::FrontMut(_) => "front_mut",
            Command::BackMut(_) => "back_mut",
            Command::List => "list",
            Command::ListBack => "list_back",
            Command::Retain(_) => "retain",
            Command::Resize(_) => "resize",
            Command::Clear => "clear",
        }
    }

    /// The code that the call asks for.
    fn code(&self) -> Option<u64> {
        match *self {
            Command::Put(code, ..)
            | Command::PutWithWeight(Row { code, .. })
            | Command::PutOrModify(code, ..)
            | Command::TryPutOrModify(code, ..)
            | Command::Get(code)
            | Command::Peek(code)
            | Command::Contains(code)
            | Command::Pop(code)
            | Command::GetMut(code, _)
            | Command::PeekMut(code, _) => Some(code),
            _ => None,
        }
    }

    fn puts(&self) -> bool {
        matches!(
            self,
            Command::Put(..)
                | Command::PutWithWeight(_)
                | Command::PutOrModify(..)
                | Command::TryPutOrModify(..)
        )
    }

    /// What the crate's types do not allow, and the port refuses with 3 or 8.
    fn fits(&self, kind: Kind) -> bool {
        match *self {
            Command::PutWithWeight(row) => kind == Kind::Weighed || row.weight == 0,
            Command::Resize(capacity) => (1..=LARGEST_CAPACITY).contains(&capacity),
            Command::Put(..)
            | Command::PutOrModify(..)
            | Command::TryPutOrModify(..)
            | Command::GetMut(..)
            | Command::PeekMut(..)
            | Command::FrontMut(_)
            | Command::BackMut(_) => kind == Kind::Plain,
            _ => true,
        }
    }
}

impl Display for Command {
    fn fmt(&self, f: &mut Formatter<'_>) -> fmt::Result {
        f.write_str(self.word())?;
        match self {
            Command::Put(code, stamp, number) | Command::PutOrModify(code, stamp, number) => {
                write!(f, " {code} {stamp} {number}")
            }
            Command::PutWithWeight(row) => write!(f, " {row}"),
            Command::TryPutOrModify(code, stamp, amount, ceiling) => {
                write!(f, " {code} {stamp} {amount} {ceiling}")
            }
            Command::GetMut(code, value) | Command::PeekMut(code, value) => {
                write!(f, " {code} {value}")
            }
            Command::Get(one)
            | Command::Peek(one)
            | Command::Contains(one)
            | Command::Pop(one)
            | Command::FrontMut(one)
            | Command::BackMut(one)
            | Command::Resize(one) => write!(f, " {one}"),
            Command::Retain(rule) => write!(f, " {rule}"),
            _ => Ok(()),
        }
    }
}

fn number<T: FromStr>(word: &str) -> Result<T, String> {
    word.parse().map_err(|_| format!("not a number: {word}"))
}

impl FromStr for Command {
    type Err = String;

    fn from_str(line: &str) -> Result<Self, String> {
        let words: Vec<&str> = line.split(' ').collect();
        Ok(match words[..] {
            ["put", code, stamp, value] => {
                Command::Put(number(code)?, number(stamp)?, number(value)?)
            }
            ["putw", code, stamp, value, weight] => Command::PutWithWeight(Row {
                code: number(code)?,
                stamp: number(stamp)?,
                value: number(value)?,
                weight: number(weight)?,
            }),
            ["put_or_modify", code, stamp, amount] => {
                Command::PutOrModify(number(code)?, number(stamp)?, number(amount)?)
            }
            ["try_put_or_modify", code, stamp, amount, ceiling] => Command::TryPutOrModify(
                number(code)?,
                number(stamp)?,
                number(amount)?,
                number(ceiling)?,
            ),
            ["get", code] => Command::Get(number(code)?),
            ["peek", code] => Command::Peek(number(code)?),
            ["contains", code] => Command::Contains(number(code)?),
            ["is_empty"] => Command::IsEmpty,
            ["is_full"] => Command::IsFull,
            ["len"] => Command::Len,
            ["capacity"] => Command::Capacity,
            ["weight"] => Command::Weight,
            ["front"] => Command::Front,
            ["back"] => Command::Back,
            ["pop_front"] => Command::PopFront,
            ["pop_back"] => Command::PopBack,
            ["pop", code] => Command::Pop(number(code)?),
            ["get_mut", code, value] => Command::GetMut(number(code)?, number(value)?),
            ["peek_mut", code, value] => Command::PeekMut(number(code)?, number(value)?),
            ["front_mut", value] => Command::FrontMut(number(value)?),
            ["back_mut", value] => Command::BackMut(number(value)?),
            ["list"] => Command::List,
            ["list_back"] => Command::ListBack,
            ["retain", ref rule @ ..] => {
                let (not, test) = match rule {
                    ["not", test @ ..] => (true, test),
                    test => (false, test),
                };
                let test = match *test {
                    ["code", low, high] => Test::Code(number(low)?, number(high)?),
                    ["value", low, high] => Test::Value(number(low)?, number(high)?),
                    ["stamp", least] => Test::Stamp(number(least)?),
                    ["weight", most] => Test::Weight(number(most)?),
                    _ => return Err(format!("not a rule: {line}")),
                };
                Command::Retain(Rule { not, test })
            }
            ["resize", capacity] => Command::Resize(number(capacity)?),
            ["clear"] => Command::Clear,
            _ => return Err(format!("not a command: {line}")),
        })
    }
}

#[derive(Clone, Copy, PartialEq, Eq, Debug)]
struct Row {
    code: u64,
    stamp: u32,
    value: u64,
    weight: u64,
}

impl Row {
    fn of((key, value): (&Key, &Value)) -> Self {
        Row {
            code: key.code,
            stamp: key.stamp,
            value: value.value,
            weight: value.weight,
        }
    }
}

impl Display for Row {
    fn fmt(&self, f: &mut Formatter<'_>) -> fmt::Result {
        let Row {
            code,
            stamp,
            value,
            weight,
        } = self;
        write!(f, "{code} {stamp} {value} {weight}")
    }
}

#[derive(Clone, Copy, PartialEq, Eq, Debug)]
enum Closing {
    Ok,
    New,
    Was(u64),
    Is(u64),
    Absent,
    Truth(bool),
    Count(u64),
    Now { value: u64, new: bool },
    No(u8),
}

impl Display for Closing {
    fn fmt(&self, f: &mut Formatter<'_>) -> fmt::Result {
        match self {
            Closing::Ok => f.write_str("ok"),
            Closing::New => f.write_str("new"),
            Closing::Was(value) => write!(f, "was {value}"),
            Closing::Is(value) => write!(f, "is {value}"),
            Closing::Absent => f.write_str("absent"),
            Closing::Truth(truth) => write!(f, "{truth}"),
            Closing::Count(count) => write!(f, "count {count}"),
            Closing::Now { value, new: true } => write!(f, "now {value} new"),
            Closing::Now { value, new: false } => write!(f, "now {value} old"),
            Closing::No(refusal) => write!(f, "no {refusal}"),
        }
    }
}

#[derive(Clone, PartialEq, Eq, Debug)]
struct Reply {
    /// Entries that left: `out` lines.
    out: Vec<Row>,
    /// Entries that are only shown, or popped: `row` lines.
    shown: Vec<Row>,
    closing: Closing,
}

impl Reply {
    fn leaving(out: Vec<Row>, closing: Closing) -> Self {
        Reply {
            out,
            shown: Vec::new(),
            closing,
        }
    }

    fn showing(shown: Vec<Row>) -> Self {
        Reply {
            out: Vec::new(),
            shown,
            closing: Closing::Ok,
        }
    }

    fn showing_one(row: Option<Row>) -> Self {
        match row {
            Some(row) => Reply::showing(vec![row]),
            None => Closing::Absent.into(),
        }
    }
}

impl From<Closing> for Reply {
    fn from(closing: Closing) -> Self {
        Reply::leaving(Vec::new(), closing)
    }
}

impl Display for Reply {
    fn fmt(&self, f: &mut Formatter<'_>) -> fmt::Result {
        for row in &self.out {
            writeln!(f, "out {row}")?;
        }
        for row in &self.shown {
            writeln!(f, "row {row}")?;
        }
        writeln!(f, "{}", self.closing)
    }
}

// ---------------------------------------------------------------------------------------
// Calls on the crate
// ---------------------------------------------------------------------------------------

type CodeHasher = BuildHasherDefault<DefaultHasher>;
type Cache<W> = CLruCache<Key, Value, CodeHasher, W>;

enum Subject {
    Plain(Cache<ZeroWeightScale>),
    Weighed(Cache<CarriedWeight>),
}

impl Subject {
    fn open(opening: Opening) -> Self {
        let capacity = non_zero(opening.capacity);
        let config = CLruCacheConfig::new(capacity).with_hasher(CodeHasher::default());
        match opening.kind {
            Kind::Plain => Subject::Plain(CLruCache::with_config(config)),
            Kind::Weighed => {
                Subject::Weighed(CLruCache::with_config(config.with_scale(CarriedWeight)))
            }
        }
    }

    fn call(&mut self, command: &Command) -> Reply {
        match self {
            Subject::Plain(cache) => call_plain(cache, command),
            Subject::Weighed(cache) => call_any(cache, command),
        }
    }

    fn state(&self) -> State {
        match self {
            Subject::Plain(cache) => state_of(cache),
            Subject::Weighed(cache) => state_of(cache),
        }
    }
}

fn non_zero(capacity: u64) -> NonZeroUsize {
    NonZeroUsize::new(capacity as usize).expect("a capacity is at least 1")
}

fn call_plain(cache: &mut Cache<ZeroWeightScale>, command: &Command) -> Reply {
    fn weightless(value: u64) -> Value {
        Value { value, weight: 0 }
    }
    let set = |place: Option<&mut Value>, value: u64| match place {
        Some(place) => Closing::Was(std::mem::replace(&mut place.value, value)),
        None => Closing::Absent,
    };
    let closing = match *command {
        Command::Put(code, stamp, value) => {
            match cache.put(Key::new(code, stamp), weightless(value)) {
                Some(old) => Closing::Was(old.value),
                None => Closing::New,
            }
        }
        Command::PutOrModify(code, stamp, amount) => {
            let mut new = false;
            let value = cache.put_or_modify(
                Key::new(code, stamp),
                |_, amount| {
                    new = true;
                    weightless(amount)
                },
                |_, held, amount| held.value = held.value.wrapping_add(amount),
                amount,
            );
            Closing::Now {
                value: value.value,
                new,
            }
        }
        Command::TryPutOrModify(code, stamp, amount, ceiling) => {
            let mut new = false;
            let within = |sum: Option<u64>| sum.filter(|sum| *sum <= ceiling).ok_or(());
            let outcome = cache.try_put_or_modify(
                Key::new(code, stamp),
                |_, amount| {
                    new = true;
                    within(Some(amount)).map(weightless)
                },
                |_, held, amount| {
                    held.value = within(held.value.checked_add(amount))?;
                    Ok(())
                },
                amount,
            );
            match outcome {
                Ok(value) => Closing::Now {
                    value: value.value,
                    new,
                },
                Err(()) => Closing::No(7),
            }
        }
        Command::GetMut(code, value) => set(cache.get_mut(&code), value),
        Command::PeekMut(code, value) => set(cache.peek_mut(&code), value),
        Command::FrontMut(value) => set(cache.front_mut().map(|(_, held)| held), value),
        Command::BackMut(value) => set(cache.back_mut().map(|(_, held)| held), value),
        _ => return call_any(cache, command),
    };
    closing.into()
}

fn call_any<W: WeightScale<Key, Value>>(cache: &mut Cache<W>, command: &Command) -> Reply {
    let found = |value: Option<&Value>| match value {
        Some(value) => Closing::Is(value.value),
        None => Closing::Absent,
    };
    let closing = match *command {
        Command::PutWithWeight(row) => {
            let value = Value {
                value: row.value,
                weight: row.weight,
            };
            match cache.put_with_weight(Key::new(row.code, row.stamp), value) {
                Ok(Some(old)) => Closing::Was(old.value),
                Ok(None) => Closing::New,
                Err(_) => Closing::No(4),
            }
        }
        Command::Get(code) => found(cache.get(&code)),
        Command::Peek(code) => found(cache.peek(&code)),
        Command::Contains(code) => Closing::Truth(cache.contains(&code)),
        Command::IsEmpty => Closing::Truth(cache.is_empty()),
        Command::IsFull => Closing::Truth(cache.is_full()),
        Command::Len => Closing::Count(cache.len() as u64),
        Command::Capacity => Closing::Count(cache.capacity() as u64),
        Command::Weight => Closing::Count(cache.weight() as u64),
        Command::Pop(code) => match cache.pop(&code) {
            Some(value) => Closing::Was(value.value),
            None => Closing::Absent,
        },
        Command::Clear => {
            let live = cache.len() as u64;
            cache.clear();
            Closing::Count(live)
        }
        Command::Resize(capacity) => {
            cache.resize(non_zero(capacity));
            Closing::Ok
        }
        Command::Retain(rule) => {
            cache.retain(|key, value| rule.keeps(&Row::of((key, value))));
            Closing::Ok
        }
        Command::Front => return Reply::showing_one(cache.front().map(Row::of)),
        Command::Back => return Reply::showing_one(cache.back().map(Row::of)),
        Command::PopFront => {
            return Reply::showing_one(
                cache
                    .pop_front()
                    .map(|(key, value)| Row::of((&key, &value))),
            );
        }
        Command::PopBack => {
            return Reply::showing_one(
                cache.pop_back().map(|(key, value)| Row::of((&key, &value))),
            );
        }
        Command::List => return Reply::showing(cache.iter().map(Row::of).collect()),
        Command::ListBack => return Reply::showing(cache.iter().rev().map(Row::of).collect()),
        _ => unreachable!("the crate has no `{command}` on a weighed cache"),
    };
    closing.into()
}

// ---------------------------------------------------------------------------------------
// The crate's state, read out of its derived `{:?}`
// ---------------------------------------------------------------------------------------

#[derive(Clone, Copy, PartialEq, Eq, Debug)]
struct Held {
    slot: usize,
    id: u64,
    row: Row,
}

#[derive(Clone, PartialEq, Eq, Debug)]
struct State {
    capacity: u64,
    weight: u64,
    top: usize,
    /// Front to back.
    order: Vec<Held>,
    /// Bottom to top.
    free: Vec<usize>,
}

impl State {
    fn live(&self) -> usize {
        self.order.len()
    }

    fn holds_id(&self, id: u64) -> bool {
        self.order.iter().any(|held| held.id == id)
    }

    fn place_of(&self, code: u64) -> Option<usize> {
        self.order.iter().position(|held| held.row.code == code)
    }

    fn hole_below_live(&self) -> bool {
        self.free.iter().any(|slot| *slot < self.live())
    }

    /// Document 01's only known panic of the crate.
    fn foretells_panic(&self, command: &Command) -> bool {
        matches!(*command, Command::Resize(capacity) if capacity >= self.capacity)
            && self.hole_below_live()
    }

    /// The port's refusal 5: code absent, no slot left, no eviction called for, and none of
    /// the refusals that are checked before it.
    fn lacks_room(&self, room: u64, command: &Command) -> bool {
        let live = self.live() as u64;
        let absent = command
            .code()
            .is_some_and(|code| self.place_of(code).is_none());
        let evicts_none = match *command {
            Command::Put(..) | Command::PutOrModify(..) => live < self.capacity,
            Command::TryPutOrModify(_, _, amount, ceiling) => {
                live < self.capacity && amount <= ceiling
            }
            Command::PutWithWeight(row) => {
                row.weight < self.capacity && live + self.weight + row.weight < self.capacity
            }
            _ => false,
        };
        absent && live == room && evicts_none
    }
}

impl Display for State {
    fn fmt(&self, f: &mut Formatter<'_>) -> fmt::Result {
        write!(f, "= {} {} {}", self.weight, self.top, self.live())?;
        for held in &self.order {
            write!(f, " {} {}", held.slot, held.row)?;
        }
        write!(f, " {}", self.free.len())?;
        for slot in &self.free {
            write!(f, " {slot}")?;
        }
        Ok(())
    }
}

struct Scanner<'a> {
    rest: &'a str,
}

impl Scanner<'_> {
    fn tries(&mut self, text: &str) -> bool {
        match self.rest.strip_prefix(text) {
            Some(rest) => {
                self.rest = rest;
                true
            }
            None => false,
        }
    }

    fn expect(&mut self, text: &str) {
        assert!(self.tries(text), "expected {text:?} at {:?}", self.rest);
    }

    fn skip_past(&mut self, text: &str) {
        let start = self.rest.find(text);
        let start = start.unwrap_or_else(|| panic!("expected {text:?} in {:?}", self.rest));
        self.rest = &self.rest[start + text.len()..];
    }

    fn number(&mut self) -> u64 {
        let end = self.rest.find(|c: char| !c.is_ascii_digit());
        let (digits, rest) = self.rest.split_at(end.unwrap_or(self.rest.len()));
        self.rest = rest;
        digits
            .parse()
            .unwrap_or_else(|_| panic!("expected a number before {rest:?}"))
    }

    fn numbers_until(&mut self, end: &str) -> Vec<usize> {
        let mut numbers = Vec::new();
        while !self.tries(end) {
            self.tries(", ");
            numbers.push(self.number() as usize);
        }
        numbers
    }
}

struct Node {
    prev: usize,
    next: usize,
    id: u64,
    row: Row,
}

fn scan_node(text: &mut Scanner<'_>) -> Option<Node> {
    if text.tries("None") {
        return None;
    }
    text.expect("Some(FixedSizeListNode { prev: ");
    let prev = text.number() as usize;
    text.expect(", next: ");
    let next = text.number() as usize;
    text.expect(", data: CLruNode { key: ");
    let code = text.number();
    text.expect(":");
    let stamp = text.number() as u32;
    text.expect(":");
    let id = text.number();
    text.expect(", value: ");
    let value = text.number();
    text.expect(":");
    let weight = text.number();
    text.expect(" } })");
    let row = Row {
        code,
        stamp,
        value,
        weight,
    };
    Some(Node {
        prev,
        next,
        id,
        row,
    })
}

/// Reads the state and stops if the crate's links, free stack, table, counts and listings
/// do not describe one list.
fn state_of<W>(cache: &Cache<W>) -> State
where
    W: WeightScale<Key, Value> + Debug,
{
    let shown = format!("{cache:?}");
    let mut text = Scanner { rest: &shown };
    text.skip_past(", lookup: {");
    let looked_up: BTreeSet<usize> = text.numbers_until("}").into_iter().collect();
    text.expect(", storage: FixedSizeList { capacity: ");
    let capacity = text.number();
    text.expect(", nodes: [");
    let mut nodes = Vec::new();
    while !text.tries("]") {
        text.tries(", ");
        nodes.push(scan_node(&mut text));
    }
    text.expect(", free: [");
    let free = text.numbers_until("]");
    text.expect(", front: ");
    let front = text.number() as usize;
    text.expect(", back: ");
    let back = text.number() as usize;
    text.expect(" }, scale: ");
    text.skip_past(", weight: ");
    let weight = text.number();
    text.expect(" }");

    let mut order = Vec::new();
    let (mut before, mut here) = (usize::MAX, front);
    while let Some(node) = nodes.get(here).and_then(Option::as_ref) {
        assert!(node.prev == before, "a wrong prev link: {shown}");
        assert!(order.len() < nodes.len(), "links in a circle: {shown}");
        order.push(Held {
            slot: here,
            id: node.id,
            row: node.row,
        });
        (before, here) = (here, node.next);
    }
    assert!(here == usize::MAX && back == before, "wrong ends: {shown}");
    let live_slots: BTreeSet<usize> = order.iter().map(|held| held.slot).collect();
    let unused: BTreeSet<usize> = (0..nodes.len()).filter(|i| nodes[*i].is_none()).collect();
    let on_stack: BTreeSet<usize> = free.iter().copied().collect();
    assert!(
        unused == on_stack && free.len() == on_stack.len(),
        "{shown}"
    );
    assert!(order.len() + free.len() == nodes.len(), "{shown}");
    assert!(live_slots == looked_up, "table and list differ: {shown}");
    let total: u64 = order.iter().map(|held| held.row.weight).sum();
    assert!(total == weight && weight == cache.weight() as u64);
    assert!(capacity == cache.capacity() as u64 && order.len() == cache.len());
    assert!(
        order.len() as u64 + weight <= capacity,
        "over the capacity: {shown}"
    );
    let rows = || order.iter().map(|held| held.row);
    assert!(cache.iter().map(Row::of).eq(rows()));
    assert!(cache.iter().rev().map(Row::of).eq(rows().rev()));
    State {
        capacity,
        weight,
        top: nodes.len(),
        order,
        free,
    }
}

struct Opened {
    cache: Subject,
    state: State,
}

impl Opened {
    fn open(opening: Opening) -> Self {
        let cache = Subject::open(opening);
        let state = cache.state();
        Opened { cache, state }
    }

    /// The reply, or the message of the crate's panic. After a panic the cache is spent.
    fn call(&mut self, command: &Command) -> Result<Reply, String> {
        DROPPED.with_borrow_mut(Vec::clear);
        INSIDE_CRATE.set(true);
        let outcome = panic::catch_unwind(AssertUnwindSafe(|| self.cache.call(command)));
        INSIDE_CRATE.set(false);
        let mut reply = match outcome {
            Ok(reply) => reply,
            Err(payload) => match CRATE_PANIC.take() {
                Some(message) => return Err(message),
                None => panic::resume_unwind(payload),
            },
        };
        let after = self.cache.state();
        reply.out = rows_out(command, &self.state, &after, &DROPPED.take());
        self.state = after;
        Ok(reply)
    }
}

/// The entries pushed out by a call, from the drop log, which must agree with what the
/// order lost.
fn rows_out(command: &Command, before: &State, after: &State, dropped: &[u64]) -> Vec<Row> {
    let live_before = |id: &u64| before.order.iter().find(|held| held.id == *id);
    let logged: Vec<Held> = dropped.iter().filter_map(live_before).copied().collect();
    let lost: Vec<Held> = before
        .order
        .iter()
        .filter(|held| !after.holds_id(held.id))
        .copied()
        .collect();

    let is_row = |held: &&Held| Some(held.row.code) != command.code();
    let (rows, lost_rows): (Vec<Held>, Vec<Held>) = match command {
        Command::Retain(_) => (logged.clone(), lost.clone()),
        Command::Resize(_) => (logged.clone(), lost.iter().rev().copied().collect()),
        _ if command.puts() => (
            logged.iter().filter(is_row).copied().collect(),
            lost.iter().rev().filter(is_row).copied().collect(),
        ),
        _ => (Vec::new(), Vec::new()),
    };
    let answered: Vec<Held> = match command {
        Command::Pop(code) => before.place_of(*code).map(|place| before.order[place]),
        Command::PopFront => before.order.first().copied(),
        Command::PopBack => before.order.last().copied(),
        Command::Clear => {
            assert!(lost == before.order, "`clear` left entries");
            None
        }
        Command::PutWithWeight(row) => lost.iter().find(|held| held.row.code == row.code).copied(),
        _ => None,
    }
    .into_iter()
    .collect();

    let ids = |list: &[Held]| list.iter().map(|held| held.id).collect::<Vec<u64>>();
    let set = |list: &[Held]| ids(list).into_iter().collect::<BTreeSet<u64>>();
    assert!(
        ids(&rows) == ids(&lost_rows),
        "`{command}`: drop log {rows:?}, order lost {lost_rows:?}"
    );
    assert!(
        set(&logged) == set(&lost) && logged.len() == lost.len(),
        "`{command}`: dropped {logged:?}, lost {lost:?}"
    );
    if *command != Command::Clear {
        assert!(
            lost.len() == rows.len() + answered.len() && set(&answered).is_subset(&set(&lost)),
            "`{command}`: lost {lost:?}, rows {rows:?}, answered {answered:?}"
        );
    }
    rows.iter().map(|held| held.row).collect()
}

/// Keeps the crate's panics silent and remembers them; the harness's own stay loud.
fn watch_panics() {
    let usual = panic::take_hook();
    panic::set_hook(Box::new(move |info| {
        let location = info.location().map(|at| (at.file(), at.line()));
        match location {
            Some((file, line)) if INSIDE_CRATE.get() && !file.ends_with("oracle.rs") => {
                let file = Path::new(file).file_name().unwrap_or_default().display();
                let message = info.payload_as_str().unwrap_or("no message");
                CRATE_PANIC.set(Some(format!("{file}:{line}: {message}")));
            }
            _ => usual(info),
        }
    }));
}

// ---------------------------------------------------------------------------------------
// A model of document 01: a plain list of entries, most recent first
// ---------------------------------------------------------------------------------------

struct Placed {
    slot: usize,
    row: Row,
}

struct Model {
    capacity: u64,
    order: Vec<Placed>,
    stack: Vec<usize>,
    top: usize,
}

impl Model {
    fn open(opening: Opening) -> Self {
        Model {
            capacity: opening.capacity,
            order: Vec::new(),
            stack: Vec::new(),
            top: 0,
        }
    }

    fn live(&self) -> u64 {
        self.order.len() as u64
    }

    fn weight(&self) -> u64 {
        self.order.iter().map(|entry| entry.row.weight).sum()
    }

    fn find(&self, code: u64) -> Option<usize> {
        self.order.iter().position(|entry| entry.row.code == code)
    }

    fn remove(&mut self, place: usize) -> Row {
        let entry = self.order.remove(place);
        self.stack.push(entry.slot);
        entry.row
    }

    fn push_out_back(&mut self) -> Row {
        self.remove(self.order.len() - 1)
    }

    fn place_in_front(&mut self, row: Row) {
        let slot = self.stack.pop().unwrap_or_else(|| {
            self.top += 1;
            self.top - 1
        });
        self.order.insert(0, Placed { slot, row });
    }

    fn move_to_front(&mut self, place: usize) -> &mut Row {
        let entry = self.order.remove(place);
        self.order.insert(0, entry);
        &mut self.order[0].row
    }

    /// A plain cache's way to take an absent code.
    fn put_absent(&mut self, code: u64, stamp: u32, value: u64) -> Vec<Row> {
        let mut out = Vec::new();
        if self.live() == self.capacity {
            out.push(self.push_out_back());
        }
        self.place_in_front(Row {
            code,
            stamp,
            value,
            weight: 0,
        });
        out
    }

    fn put_with_weight(&mut self, row: Row) -> Reply {
        if row.weight >= self.capacity {
            return Closing::No(4).into();
        }
        let closing = match self.find(row.code) {
            Some(place) => Closing::Was(self.remove(place).value),
            None => Closing::New,
        };
        let mut out = Vec::new();
        while self.live() + self.weight() + row.weight >= self.capacity {
            out.push(self.push_out_back());
        }
        self.place_in_front(row);
        Reply::leaving(out, closing)
    }

    fn put_or_modify(&mut self, code: u64, stamp: u32, amount: u64, ceiling: u128) -> Reply {
        let Some(place) = self.find(code) else {
            if u128::from(amount) > ceiling {
                return Closing::No(7).into();
            }
            let out = self.put_absent(code, stamp, amount);
            let value = amount;
            return Reply::leaving(out, Closing::Now { value, new: true });
        };
        let row = self.move_to_front(place);
        let sum = u128::from(row.value) + u128::from(amount);
        if sum > ceiling {
            return Closing::No(7).into();
        }
        row.value = sum as u64;
        Closing::Now {
            value: row.value,
            new: false,
        }
        .into()
    }

    fn resize(&mut self, capacity: u64) -> Vec<Row> {
        let mut out = Vec::new();
        while capacity < self.live() + self.weight() {
            out.push(self.push_out_back());
        }
        if capacity < self.capacity {
            for (place, entry) in self.order.iter_mut().enumerate() {
                entry.slot = place;
            }
            self.top = self.top.min(capacity as usize);
            self.stack = (self.order.len()..self.top).collect();
        }
        self.capacity = capacity;
        out
    }

    fn retain(&mut self, rule: Rule) -> Vec<Row> {
        let mut out = Vec::new();
        let mut place = 0;
        while place < self.order.len() {
            if rule.keeps(&self.order[place].row) {
                place += 1;
            } else {
                out.push(self.remove(place));
            }
        }
        out
    }

    fn perform(&mut self, command: &Command) -> Reply {
        let set = |row: Option<&mut Row>, value: u64| match row {
            Some(row) => Closing::Was(std::mem::replace(&mut row.value, value)),
            None => Closing::Absent,
        };
        let closing = match *command {
            Command::Put(code, stamp, value) => match self.find(code) {
                Some(place) => set(Some(self.move_to_front(place)), value),
                None => {
                    let out = self.put_absent(code, stamp, value);
                    return Reply::leaving(out, Closing::New);
                }
            },
            Command::PutWithWeight(row) => return self.put_with_weight(row),
            Command::PutOrModify(code, stamp, amount) => {
                return self.put_or_modify(code, stamp, amount, u128::MAX);
            }
            Command::TryPutOrModify(code, stamp, amount, ceiling) => {
                return self.put_or_modify(code, stamp, amount, ceiling.into());
            }
            Command::Get(code) => match self.find(code) {
                Some(place) => Closing::Is(self.move_to_front(place).value),
                None => Closing::Absent,
            },
            Command::Peek(code) => match self.find(code) {
                Some(place) => Closing::Is(self.order[place].row.value),
                None => Closing::Absent,
            },
            Command::Contains(code) => Closing::Truth(self.find(code).is_some()),
            Command::IsEmpty => Closing::Truth(self.live() == 0),
            Command::IsFull => Closing::Truth(self.live() + self.weight() == self.capacity),
            Command::Len => Closing::Count(self.live()),
            Command::Capacity => Closing::Count(self.capacity),
            Command::Weight => Closing::Count(self.weight()),
            Command::Front => return Reply::showing_one(self.order.first().map(|e| e.row)),
            Command::Back => return Reply::showing_one(self.order.last().map(|e| e.row)),
            Command::PopFront => {
                let popped = (self.live() > 0).then(|| self.remove(0));
                return Reply::showing_one(popped);
            }
            Command::PopBack => {
                let popped = (self.live() > 0).then(|| self.push_out_back());
                return Reply::showing_one(popped);
            }
            Command::Pop(code) => match self.find(code) {
                Some(place) => Closing::Was(self.remove(place).value),
                None => Closing::Absent,
            },
            Command::GetMut(code, value) => {
                let place = self.find(code);
                set(place.map(|place| self.move_to_front(place)), value)
            }
            Command::PeekMut(code, value) => {
                let place = self.find(code);
                set(place.map(|place| &mut self.order[place].row), value)
            }
            Command::FrontMut(value) => set(self.order.first_mut().map(|e| &mut e.row), value),
            Command::BackMut(value) => set(self.order.last_mut().map(|e| &mut e.row), value),
            Command::List => {
                return Reply::showing(self.order.iter().map(|entry| entry.row).collect());
            }
            Command::ListBack => {
                return Reply::showing(self.order.iter().rev().map(|entry| entry.row).collect());
            }
            Command::Retain(rule) => return Reply::leaving(self.retain(rule), Closing::Ok),
            Command::Resize(capacity) => {
                return Reply::leaving(self.resize(capacity), Closing::Ok);
            }
            Command::Clear => {
                let went = self.live();
                self.order.clear();
                self.stack.clear();
                self.top = 0;
                Closing::Count(went)
            }
        };
        closing.into()
    }

    fn equals(&self, state: &State) -> bool {
        self.capacity == state.capacity
            && self.weight() == state.weight
            && self.top == state.top
            && self.stack == state.free
            && self.order.len() == state.order.len()
            && (self.order.iter().zip(&state.order))
                .all(|(entry, held)| entry.slot == held.slot && entry.row == held.row)
    }

    fn show(&self) -> String {
        let mut text = format!("= {} {} {}", self.weight(), self.top, self.live());
        for entry in &self.order {
            text += &format!(" {} {}", entry.slot, entry.row);
        }
        text += &format!(" {}", self.stack.len());
        for slot in &self.stack {
            text += &format!(" {slot}");
        }
        format!("{text} (capacity {})", self.capacity)
    }
}

/// The crate and the model side by side.
struct Pair {
    opened: Opened,
    model: Model,
}

enum Step {
    Agreed(Reply),
    /// The crate's message; whether document 01 names this panic.
    Panicked {
        message: String,
        foretold: bool,
    },
    Differs(String),
}

impl Pair {
    fn open(opening: Opening) -> Self {
        Pair {
            opened: Opened::open(opening),
            model: Model::open(opening),
        }
    }

    fn state(&self) -> &State {
        &self.opened.state
    }

    fn step(&mut self, command: &Command) -> Step {
        let foretold = self.state().foretells_panic(command);
        let reply = match self.opened.call(command) {
            Ok(reply) => reply,
            Err(message) => return Step::Panicked { message, foretold },
        };
        let expected = self.model.perform(command);
        if foretold {
            return Step::Differs("the foretold panic did not come".into());
        }
        if reply != expected || !self.model.equals(self.state()) {
            return Step::Differs(format!(
                "crate:\n{reply}{} (capacity {})\ndocument 01:\n{expected}{}",
                self.state(),
                self.state().capacity,
                self.model.show()
            ));
        }
        Step::Agreed(reply)
    }
}

// ---------------------------------------------------------------------------------------
// Seeded generator
// ---------------------------------------------------------------------------------------

/// SplitMix64.
struct Random(u64);

impl Random {
    fn next(&mut self) -> u64 {
        self.0 = self.0.wrapping_add(0x9E37_79B9_7F4A_7C15);
        let mut z = self.0;
        z = (z ^ (z >> 30)).wrapping_mul(0xBF58_476D_1CE4_E5B9);
        z = (z ^ (z >> 27)).wrapping_mul(0x94D0_49BB_1331_11EB);
        z ^ (z >> 31)
    }

    fn below(&mut self, bound: u64) -> u64 {
        self.next() % bound
    }

    fn between(&mut self, low: u64, high: u64) -> u64 {
        low + self.below(high - low + 1)
    }

    fn one_in(&mut self, count: u64) -> bool {
        self.below(count) == 0
    }

    fn pick<T: Copy>(&mut self, list: &[T]) -> T {
        list[self.below(list.len() as u64) as usize]
    }
}

/// CRC-32 of IEEE 802.3; here only to choose codes that meet in one home cell.
fn crc32(bytes: &[u8]) -> u32 {
    let mut crc = u32::MAX;
    for byte in bytes {
        crc ^= u32::from(*byte);
        for _ in 0..8 {
            crc = (crc >> 1) ^ (0xEDB8_8320 & (crc & 1).wrapping_neg());
        }
    }
    !crc
}

fn codes_at_home(room: u64, home: u64, count: usize) -> Vec<u64> {
    (1..)
        .filter(|code: &u64| u64::from(crc32(&code.to_le_bytes())) % (2 * room) == home)
        .take(count)
        .collect()
}

#[derive(Clone, Copy)]
enum Codes {
    Small,
    /// Home cells at the end of the table and at its start, so that searches run around.
    Clashing,
    Edge,
}

const CODE_CHOICES: [Codes; 3] = [Codes::Small, Codes::Clashing, Codes::Edge];
const EDGE_NUMBERS: [u64; 8] = [
    0,
    1,
    2,
    u64::MAX,
    u64::MAX - 1,
    1 << 63,
    (1 << 32) - 1,
    1 << 32,
];

impl Codes {
    fn pool(self, room: u64) -> Vec<u64> {
        let several = (room as usize).min(40);
        match self {
            Codes::Small => (1..=several as u64 + 3).collect(),
            Codes::Clashing => {
                let cells = 2 * room;
                let mut pool = codes_at_home(room, cells - 1, several / 2 + 2);
                pool.extend(codes_at_home(room, cells - 2, several / 4 + 1));
                pool.extend(codes_at_home(room, 0, several / 4 + 1));
                pool
            }
            Codes::Edge => {
                let mut pool = EDGE_NUMBERS.to_vec();
                pool.extend(3..=several as u64);
                pool
            }
        }
    }
}

struct Taste {
    codes: Vec<u64>,
    /// Numbers at their bounds now and then.
    edge: bool,
    /// One in so many equal or growing resizes with a hole below live is sent all the same.
    panics_one_in: u64,
    /// One in so many calls that would empty much of the cache is sent all the same.
    drastic_one_in: u64,
}

struct Generator {
    random: Random,
    opening: Opening,
    taste: Taste,
}

/// How often a word is drawn on a plain and on a weighed cache.
const WORDS: [(&str, u64, u64); 26] = [
    ("put", 22, 0),
    ("putw", 8, 46),
    ("put_or_modify", 8, 0),
    ("try_put_or_modify", 9, 0),
    ("get", 8, 10),
    ("peek", 3, 3),
    ("contains", 2, 2),
    ("is_empty", 1, 1),
    ("is_full", 2, 3),
    ("len", 1, 1),
    ("capacity", 1, 1),
    ("weight", 1, 2),
    ("front", 2, 2),
    ("back", 2, 2),
    ("pop_front", 2, 2),
    ("pop_back", 2, 2),
    ("pop", 7, 8),
    ("get_mut", 3, 0),
    ("peek_mut", 2, 0),
    ("front_mut", 2, 0),
    ("back_mut", 2, 0),
    ("list", 1, 1),
    ("list_back", 1, 1),
    ("retain", 4, 5),
    ("resize", 6, 7),
    ("clear", 1, 1),
];

impl Generator {
    fn next_command(&mut self, state: &State) -> Command {
        loop {
            let command = self.draw(state);
            if state.lacks_room(self.opening.room, &command)
                || state.foretells_panic(&command) && !self.random.one_in(self.taste.panics_one_in)
                || self.is_drastic(state, &command)
                    && !self.random.one_in(self.taste.drastic_one_in)
            {
                continue;
            }
            return command;
        }
    }

    fn is_drastic(&self, state: &State, command: &Command) -> bool {
        let total = state.weight + state.live() as u64;
        match *command {
            Command::Clear => state.live() > 1,
            Command::Retain(rule) => {
                let kept = state.order.iter().filter(|held| rule.keeps(&held.row));
                2 * kept.count() < state.live()
            }
            Command::Resize(to) => to < total - total / 4 || to < state.capacity - 1,
            Command::PutWithWeight(row) => {
                row.weight / 2 > (state.capacity - total) / 2 + state.capacity / 8
            }
            _ => false,
        }
    }

    fn draw_word(&mut self) -> &'static str {
        let share = |entry: &(&str, u64, u64)| match self.opening.kind {
            Kind::Plain => entry.1,
            Kind::Weighed => entry.2,
        };
        let mut left = self.random.below(WORDS.iter().map(share).sum());
        for entry in &WORDS {
            match left.checked_sub(share(entry)) {
                Some(rest) => left = rest,
                None => return entry.0,
            }
        }
        unreachable!()
    }

    fn draw(&mut self, state: &State) -> Command {
        let word = self.draw_word();
        let code = self.code(state);
        let stamp = self.stamp();
        match word {
            "put" => Command::Put(code, stamp, self.value()),
            "putw" => Command::PutWithWeight(Row {
                code,
                stamp,
                value: self.value(),
                weight: self.weight(state),
            }),
            "put_or_modify" => Command::PutOrModify(code, stamp, self.amount(state, code)),
            "try_put_or_modify" => {
                let amount = self.amount(state, code);
                let ceiling = self.ceiling(state, code, amount);
                Command::TryPutOrModify(code, stamp, amount, ceiling)
            }
            "get" => Command::Get(code),
            "peek" => Command::Peek(code),
            "contains" => Command::Contains(code),
            "pop" => Command::Pop(code),
            "get_mut" => Command::GetMut(code, self.value()),
            "peek_mut" => Command::PeekMut(code, self.value()),
            "front_mut" => Command::FrontMut(self.value()),
            "back_mut" => Command::BackMut(self.value()),
            "retain" => Command::Retain(self.rule(state)),
            "resize" => Command::Resize(self.new_capacity(state)),
            word => word.parse().expect("a word that stands alone"),
        }
    }

    fn held(&mut self, state: &State) -> Option<Row> {
        let place = self.random.below(state.live().max(1) as u64) as usize;
        state.order.get(place).map(|held| held.row)
    }

    fn code(&mut self, state: &State) -> u64 {
        let live = self.random.one_in(3).then(|| self.held(state)).flatten();
        match live {
            Some(row) => row.code,
            None => self.random.pick(&self.taste.codes),
        }
    }

    fn stamp(&mut self) -> u32 {
        if self.taste.edge && self.random.one_in(4) {
            self.random.pick(&[0, 1, u32::MAX - 1, u32::MAX])
        } else {
            self.random.below(10) as u32
        }
    }

    fn value(&mut self) -> u64 {
        if self.taste.edge && self.random.one_in(3) {
            self.random.pick(&EDGE_NUMBERS)
        } else {
            self.random.below(100)
        }
    }

    fn amount(&mut self, state: &State, code: u64) -> u64 {
        let held = state.place_of(code).map(|place| state.order[place].row);
        match held {
            Some(row) if self.taste.edge && self.random.one_in(3) => {
                let to_zero = row.value.wrapping_neg();
                self.random
                    .pick(&[to_zero, to_zero.wrapping_sub(1), u64::MAX])
            }
            _ => self.value(),
        }
    }

    fn ceiling(&mut self, state: &State, code: u64, amount: u64) -> u64 {
        let held = state.place_of(code).map_or(0, |p| state.order[p].row.value);
        let sum = held.saturating_add(amount);
        let near = [
            sum,
            sum,
            sum.saturating_sub(1),
            sum.saturating_add(1),
            u64::MAX,
            amount,
            0,
        ];
        self.random.pick(&near)
    }

    fn weight(&mut self, state: &State) -> u64 {
        if self.opening.kind == Kind::Plain {
            return 0;
        }
        let capacity = state.capacity;
        let left = capacity - state.weight - state.live() as u64;
        match self.random.below(24) {
            0 => capacity - 1,
            1 => capacity.saturating_sub(2),
            2 => self.random.pick(&[capacity, capacity + 1]),
            3 if self.taste.edge => self.random.pick(&[LARGEST_CAPACITY, u64::MAX]),
            4 => left,
            5 => left.saturating_sub(1),
            6 => capacity / 2,
            7..=12 => 0,
            13..=17 => self.random.below(4).min(capacity - 1),
            _ => self.random.below(capacity.div_ceil(4)),
        }
    }

    fn rule(&mut self, state: &State) -> Rule {
        let one = self.held(state);
        let other = self.held(state);
        let either = |field: fn(Row) -> u64, spare: u64| {
            let low = one.map_or(0, field);
            let high = other.map_or(spare, field);
            if low <= high {
                (low, high)
            } else {
                (high, low)
            }
        };
        let drawn = self.random.below(100);
        let (mut low, mut high, test) = match self.random.below(4) {
            0 => {
                let (low, high) = either(|row| row.code, drawn);
                (low, high, Test::Code as fn(u64, u64) -> Test)
            }
            1 => {
                let (low, high) = either(|row| row.value, drawn);
                (low, high, Test::Value as fn(u64, u64) -> Test)
            }
            2 => {
                let least = one.map_or(drawn as u32, |row| row.stamp);
                let not = self.random.one_in(2);
                let test = Test::Stamp(least);
                return Rule { not, test };
            }
            _ => {
                let most = one.map_or(drawn, |row| row.weight);
                let not = self.random.one_in(2);
                let test = Test::Weight(most.saturating_sub(self.random.below(2)));
                return Rule { not, test };
            }
        };
        match self.random.below(8) {
            0 => low = 0,
            1 => high = u64::MAX,
            2 => (low, high) = (high, low),
            _ => {}
        }
        Rule {
            not: self.random.one_in(2),
            test: test(low, high),
        }
    }

    fn new_capacity(&mut self, state: &State) -> u64 {
        let capacity = state.capacity;
        let live = state.live() as u64;
        let total = live + state.weight;
        let opened = self.opening.capacity;
        let choices = [
            capacity - 1,
            capacity - 1,
            capacity,
            capacity + 1,
            capacity.saturating_mul(2),
            capacity / 2,
            total,
            total.saturating_sub(1),
            live,
            live.saturating_sub(1),
            state.top as u64,
            (state.top as u64).saturating_sub(1),
            opened,
            opened,
            opened,
            opened,
            opened + 1,
            1 + self.random.below(opened.min(1 << 62)),
            if self.taste.edge { LARGEST_CAPACITY } else { 1 },
        ];
        self.random.pick(&choices).clamp(1, LARGEST_CAPACITY)
    }
}

fn random_generator(seed: u64, kind: Kind, codes: Codes) -> Generator {
    let mut random = Random(seed);
    let capacities: &[u64] = match kind {
        Kind::Plain => &[1, 2, 3, 4, 5, 8, 8, 12, 12, 16, 16, 1000, LARGEST_CAPACITY],
        Kind::Weighed => &[
            1,
            2,
            3,
            5,
            8,
            10,
            16,
            25,
            40,
            40,
            100,
            1000,
            LARGEST_CAPACITY,
        ],
    };
    let capacity = random.pick(capacities);
    let room = match random.below(16) {
        0 => 1,
        1..=4 => capacity + 1 + random.below(6),
        5..=8 => random.between(capacity.max(2) / 2, capacity.max(2) - 1),
        _ => capacity,
    };
    let most = random.pick(&[8, 10, 12]);
    let opening = Opening {
        kind,
        capacity,
        room: room.min(most),
    };
    let taste = Taste {
        codes: codes.pool(opening.room),
        edge: matches!(codes, Codes::Edge),
        panics_one_in: 12,
        drastic_one_in: 8,
    };
    Generator {
        random,
        opening,
        taste,
    }
}

// ---------------------------------------------------------------------------------------
// Cases that the recorded list must reach
// ---------------------------------------------------------------------------------------

fn amount_of(count: usize) -> &'static str {
    match count {
        0 => "0",
        1 => "1",
        _ => "several",
    }
}

fn holes(state: &State) -> &'static str {
    if state.hole_below_live() {
        "hole below live"
    } else if state.free.is_empty() {
        "no hole"
    } else {
        "holes above live only"
    }
}

/// The kind of answer, numbers left out.
fn answer_of(command: &Command, before: &State, reply: &Reply) -> String {
    let answer = match reply.closing {
        Closing::Was(_) => "was".into(),
        Closing::Is(_) => "is".into(),
        Closing::Count(count) => format!("count {}", amount_of(count.min(2) as usize)),
        Closing::Now { new: true, .. } => "now new".into(),
        Closing::Now { new: false, .. } => "now old".into(),
        Closing::No(refusal) => {
            let code = command.code().and_then(|code| before.place_of(code));
            let found = if code.is_some() { "present" } else { "absent" };
            format!("no {refusal} ({found})")
        }
        plain => plain.to_string(),
    };
    let may_write_rows = command.puts()
        || matches!(
            command,
            Command::List | Command::ListBack | Command::Retain(_) | Command::Resize(_)
        );
    if may_write_rows && !matches!(reply.closing, Closing::No(_)) {
        let rows = amount_of(reply.out.len() + reply.shown.len());
        format!("{answer}, rows {rows}")
    } else {
        answer
    }
}

fn opening_cases(opening: Opening) -> Vec<String> {
    let Opening {
        kind,
        capacity,
        room,
    } = opening;
    let relation = match room.cmp(&capacity) {
        std::cmp::Ordering::Less => "below",
        std::cmp::Ordering::Equal => "equal to",
        std::cmp::Ordering::Greater => "above",
    };
    let mut cases = vec![format!("{kind} open: N {relation} C")];
    if room == 1 {
        cases.push(format!("{kind} open: N = 1"));
    }
    if capacity == 1 || capacity == LARGEST_CAPACITY {
        cases.push(format!("{kind} open: C = {capacity}"));
    }
    cases
}

fn cases(kind: Kind, before: &State, command: &Command, step: &Step) -> Vec<String> {
    let word = command.word();
    let mut cases = Vec::new();
    let reply = match step {
        Step::Agreed(reply) => {
            let answer = answer_of(command, before, reply);
            cases.push(format!("{kind} {word}: {answer}"));
            Some(reply)
        }
        _ => None,
    };
    let place = command.code().and_then(|code| before.place_of(code));
    if let Some(place) = place {
        let place = match (place, before.live()) {
            (_, 1) => "the only entry",
            (0, _) => "the front",
            (place, live) if place + 1 == live => "the back",
            _ => "inside",
        };
        cases.push(format!("{kind} {word}: found as {place}"));
    }
    match (*command, reply) {
        (Command::Resize(capacity), _) => {
            let way = match capacity.cmp(&before.capacity) {
                std::cmp::Ordering::Less => "shrink",
                std::cmp::Ordering::Equal => "equal",
                std::cmp::Ordering::Greater => "grow",
            };
            let holes = holes(before);
            let end = match reply {
                Some(reply) => format!("rows {}", amount_of(reply.out.len())),
                None => "panic".into(),
            };
            cases.push(format!("{kind} resize: {way}, {holes}, {end}"));
            if way == "shrink" {
                let cut = if before.top as u64 > capacity {
                    "cut"
                } else {
                    "kept"
                };
                cases.push(format!("{kind} resize: shrink, top {cut}"));
            }
        }
        (Command::Retain(rule), Some(reply)) => {
            let name = rule.name();
            let kept = before.live() - reply.out.len();
            let share = match (before.live(), kept) {
                (0, _) => "of an empty cache",
                (live, kept) if live == kept => "all",
                (_, 0) => "none",
                _ => "some",
            };
            cases.push(format!("{kind} retain {name}: keeps {share}"));
            if rule.is_empty_range() && before.live() > 0 {
                cases.push(format!("{kind} retain {name}: empty range"));
            }
        }
        (command, Some(reply)) if command.puts() => {
            let new = matches!(reply.closing, Closing::New | Closing::Now { new: true, .. });
            if new && reply.out.is_empty() {
                let source = if before.free.is_empty() {
                    "top"
                } else {
                    "stack"
                };
                cases.push(format!("{kind} {word}: slot from the {source}"));
            }
        }
        _ => {}
    }
    cases.extend(edge_cases(kind, before, command, reply, place));
    cases
}

fn edge_cases(
    kind: Kind,
    before: &State,
    command: &Command,
    reply: Option<&Reply>,
    place: Option<usize>,
) -> Vec<String> {
    let mut cases = Vec::new();
    let held = place.map(|place| before.order[place].row.value);
    let accepted = reply.is_some_and(|reply| !matches!(reply.closing, Closing::No(_)));
    match *command {
        Command::PutWithWeight(row) => {
            let capacity = before.capacity;
            let named = [
                ("C - 2", capacity.checked_sub(2)),
                ("C - 1", Some(capacity - 1)),
                ("C", Some(capacity)),
                ("C + 1", Some(capacity + 1)),
                ("2^63 - 1", Some(LARGEST_CAPACITY)),
                ("2^64 - 1", Some(u64::MAX)),
            ];
            for (name, weight) in named {
                if weight == Some(row.weight) {
                    cases.push(format!("{kind} putw: weight {name}"));
                }
            }
        }
        Command::PutOrModify(_, _, amount)
            if held.is_some_and(|held| held.checked_add(amount).is_none()) =>
        {
            cases.push(format!("{kind} put_or_modify: the sum wraps"));
        }
        Command::TryPutOrModify(_, _, amount, ceiling) => {
            let found = if held.is_some() { "present" } else { "absent" };
            let sum = u128::from(held.unwrap_or(0)) + u128::from(amount);
            let ceiling = u128::from(ceiling);
            if sum == ceiling {
                cases.push(format!("{kind} try_put_or_modify: {found}, at the ceiling"));
            }
            if sum == ceiling + 1 {
                cases.push(format!("{kind} try_put_or_modify: {found}, one above"));
            }
            if sum > u128::from(u64::MAX) && ceiling == u128::from(u64::MAX) {
                cases.push(format!("{kind} try_put_or_modify: past 2^64"));
            }
        }
        Command::IsFull if before.capacity == LARGEST_CAPACITY => {
            let full = before.weight + before.live() as u64 == LARGEST_CAPACITY;
            cases.push(format!("{kind} is_full: {full} at C = 2^63 - 1"));
        }
        Command::Resize(capacity) if capacity == 1 || capacity == LARGEST_CAPACITY => {
            cases.push(format!("{kind} resize: to {capacity}"));
        }
        _ => {}
    }
    if command.puts() && accepted {
        if let Some(code) = command.code()
            && [0, 1, u64::MAX].contains(&code)
        {
            cases.push(format!("{kind} putting: code {code}"));
        }
        let (stamp, number) = match *command {
            Command::Put(_, stamp, number)
            | Command::PutOrModify(_, stamp, number)
            | Command::TryPutOrModify(_, stamp, number, _)
            | Command::PutWithWeight(Row {
                stamp,
                value: number,
                ..
            }) => (stamp, number),
            _ => unreachable!(),
        };
        if [0, u32::MAX].contains(&stamp) {
            cases.push(format!("{kind} putting: stamp {stamp}"));
        }
        if [0, u64::MAX].contains(&number) {
            cases.push(format!("{kind} putting: value {number}"));
        }
    }
    cases
}

fn required_cases() -> BTreeSet<String> {
    let mut all = BTreeSet::new();
    let mut need = |kind: Kind, word: &str, answers: &[&str]| {
        for answer in answers {
            all.insert(format!("{kind} {word}: {answer}"));
        }
    };
    const PLACES: [&str; 4] = [
        "found as the only entry",
        "found as the front",
        "found as inside",
        "found as the back",
    ];
    const SLOTS: [&str; 2] = ["slot from the top", "slot from the stack"];
    const ROWS: [&str; 3] = ["rows 0", "rows 1", "rows several"];
    const HOLES: [&str; 3] = ["no hole", "holes above live only", "hole below live"];
    let largest = LARGEST_CAPACITY.to_string();

    for kind in KINDS {
        need(kind, "open", &["N below C", "N equal to C", "N above C"]);
        need(kind, "open", &["N = 1", "C = 1", &format!("C = {largest}")]);
        need(kind, "putw", &["new, rows 0", "new, rows 1", "was, rows 0"]);
        need(kind, "putw", &PLACES);
        need(kind, "putw", &SLOTS);
        for word in ["get", "peek"] {
            need(kind, word, &["is", "absent"]);
            need(kind, word, &PLACES);
        }
        for word in ["contains", "is_empty", "is_full"] {
            need(kind, word, &["true", "false"]);
        }
        need(kind, "len", &["count 0", "count 1", "count several"]);
        need(kind, "capacity", &["count 1", "count several"]);
        need(kind, "weight", &["count 0"]);
        for word in ["front", "back", "pop_front", "pop_back"] {
            need(kind, word, &["ok", "absent"]);
        }
        need(kind, "pop", &["was", "absent"]);
        need(kind, "pop", &PLACES);
        for rows in ROWS {
            for word in ["list", "list_back", "retain"] {
                need(kind, word, &[&format!("ok, {rows}")]);
            }
        }
        need(kind, "clear", &["count 0", "count 1", "count several"]);
        for not in ["", "not "] {
            for test in ["code", "value", "stamp", "weight"] {
                let word = format!("retain {not}{test}");
                let always = kind == Kind::Plain && test == "weight";
                need(kind, &word, &["keeps of an empty cache"]);
                if !always || not.is_empty() {
                    need(kind, &word, &["keeps all"]);
                }
                if !always || !not.is_empty() {
                    need(kind, &word, &["keeps none"]);
                }
                if !always {
                    need(kind, &word, &["keeps some"]);
                }
                if test == "code" || test == "value" {
                    need(kind, &word, &["empty range"]);
                }
            }
        }
        for hole in HOLES {
            for rows in ROWS {
                need(kind, "resize", &[&format!("shrink, {hole}, {rows}")]);
            }
            let end = if hole == "hole below live" {
                "panic"
            } else {
                "rows 0"
            };
            for way in ["equal", "grow"] {
                need(kind, "resize", &[&format!("{way}, {hole}, {end}")]);
            }
        }
        need(kind, "resize", &["shrink, top kept", "shrink, top cut"]);
        need(kind, "resize", &["to 1", &format!("to {largest}")]);
        for code in [0, 1, u64::MAX] {
            need(kind, "putting", &[&format!("code {code}")]);
        }
        for stamp in [0, u32::MAX] {
            need(kind, "putting", &[&format!("stamp {stamp}")]);
        }
        for value in [0, u64::MAX] {
            need(kind, "putting", &[&format!("value {value}")]);
        }
    }

    let plain = Kind::Plain;
    need(plain, "put", &["new, rows 0", "new, rows 1", "was, rows 0"]);
    need(plain, "put", &PLACES);
    need(plain, "put", &SLOTS);
    for word in ["put_or_modify", "try_put_or_modify"] {
        need(plain, word, &["now new, rows 0", "now new, rows 1"]);
        need(plain, word, &["now old, rows 0"]);
        need(plain, word, &PLACES);
        need(plain, word, &SLOTS);
    }
    need(plain, "put_or_modify", &["the sum wraps"]);
    need(
        plain,
        "try_put_or_modify",
        &["no 7 (present)", "no 7 (absent)", "past 2^64"],
    );
    for found in ["present", "absent"] {
        for sum in ["at the ceiling", "one above"] {
            need(plain, "try_put_or_modify", &[&format!("{found}, {sum}")]);
        }
    }
    for word in ["get_mut", "peek_mut"] {
        need(plain, word, &["was", "absent"]);
        need(plain, word, &PLACES);
    }
    for word in ["front_mut", "back_mut"] {
        need(plain, word, &["was", "absent"]);
    }

    let weighed = Kind::Weighed;
    need(weighed, "putw", &["new, rows several", "was, rows 1"]);
    need(weighed, "putw", &["was, rows several"]);
    need(weighed, "putw", &["no 4 (present)", "no 4 (absent)"]);
    for weight in ["C - 2", "C - 1", "C", "C + 1", "2^63 - 1", "2^64 - 1"] {
        need(weighed, "putw", &[&format!("weight {weight}")]);
    }
    need(weighed, "weight", &["count 1", "count several"]);
    need(weighed, "is_full", &["true at C = 2^63 - 1"]);
    need(weighed, "is_full", &["false at C = 2^63 - 1"]);
    all
}

// ---------------------------------------------------------------------------------------
// The recorded list
// ---------------------------------------------------------------------------------------

#[derive(Default)]
struct Tally {
    runs: u64,
    calls: u64,
    panics: u64,
    answers: BTreeMap<&'static str, BTreeMap<String, u64>>,
    cases: BTreeMap<String, u64>,
    longest_line: usize,
    most_live: usize,
    most_rows: usize,
}

#[derive(Default)]
struct Recorder {
    files: Vec<(&'static str, String)>,
    tally: Tally,
}

impl Recorder {
    fn start_file(&mut self, name: &'static str) {
        self.files.push((name, String::new()));
    }

    fn write(&mut self, text: impl Display) {
        let (_, file) = self.files.last_mut().expect("a file was started");
        let start = file.len();
        *file += &text.to_string();
        for line in file[start..].lines() {
            self.tally.longest_line = self.tally.longest_line.max(line.len());
        }
    }

    fn open(&mut self, opening: Opening) -> Pair {
        let pair = Pair::open(opening);
        self.write(format_args!("> {opening}\nok\n{}\n", pair.state()));
        self.tally.runs += 1;
        for case in opening_cases(opening) {
            *self.tally.cases.entry(case).or_default() += 1;
        }
        pair
    }

    /// Records one call; says whether the run goes on.
    fn call(&mut self, opening: Opening, pair: &mut Pair, command: &Command) -> bool {
        let before = pair.state().clone();
        assert!(command.fits(opening.kind), "{opening}: {command}");
        assert!(
            !before.lacks_room(opening.room, command),
            "refusal 5 in the port: {opening}, {before}, {command}"
        );
        let step = pair.step(command);
        self.write(format_args!("> {command}\n"));
        let answer = match &step {
            Step::Agreed(reply) => {
                self.write(format_args!("{reply}{}\n", pair.state()));
                let rows = reply.out.len() + reply.shown.len();
                self.tally.most_rows = self.tally.most_rows.max(rows);
                answer_of(command, &before, reply)
            }
            Step::Panicked { foretold: true, .. } => {
                self.write("panic\n");
                self.tally.panics += 1;
                "panic".into()
            }
            Step::Panicked { message, .. } => {
                panic!(
                    "a panic that document 01 does not name: {opening}, {before}, {command}: {message}"
                )
            }
            Step::Differs(difference) => {
                panic!("{opening}, {before}, {command}: crate and document 01 differ\n{difference}")
            }
        };
        let tally = &mut self.tally;
        tally.calls += 1;
        tally.most_live = tally.most_live.max(pair.state().live());
        let answers = tally.answers.entry(command.word()).or_default();
        *answers.entry(answer).or_default() += 1;
        for case in cases(opening.kind, &before, command, &step) {
            *tally.cases.entry(case).or_default() += 1;
        }
        matches!(step, Step::Agreed(_))
    }

    /// A run written as its script lines, `; ` between them.
    fn script(&mut self, lines: &str) {
        let (opening, commands) = lines.split_once("; ").expect("an opening and commands");
        let opening: Opening = opening.parse().unwrap();
        let mut pair = self.open(opening);
        for line in commands.split("; ") {
            let command: Command = line.parse().unwrap();
            assert!(command.to_string() == line, "{line}");
            if !self.call(opening, &mut pair, &command) {
                break;
            }
        }
    }

    fn all_runs(&mut self, opening: &str, words: &[&str], length: u32) {
        for number in 0..words.len().pow(length) {
            let mut lines = opening.to_string();
            for place in (0..length).rev() {
                let word = words[number / words.len().pow(place) % words.len()];
                lines += &format!("; {word}");
            }
            self.script(&lines);
        }
    }

    fn generated(&mut self, mut generator: Generator, first: &[Command], length: usize) {
        let opening = generator.opening;
        let mut pair = self.open(opening);
        for command in first {
            self.call(opening, &mut pair, command);
        }
        for _ in 0..length {
            let command = generator.next_command(pair.state());
            if !self.call(opening, &mut pair, &command) {
                break;
            }
        }
    }
}

fn record_examples(recorder: &mut Recorder) {
    recorder.start_file("examples.txt");
    let scripts = [
        // A, B, C
        "open plain 2 2; put 1 7 100; put 2 7 200; put 3 7 300; list",
        "open plain 2 2; put 1 7 100; put 2 7 200; get 1; put 3 7 300; list",
        "open plain 2 2; put 1 7 100; put 2 7 200; peek 1; put 3 7 300; list",
        // D
        "open plain 2 2; put 1 7 100; put 1 8 101; list; putw 1 8 102 0; list",
        // E
        "open weighed 10 4; putw 1 7 100 3; putw 2 7 200 4; putw 3 7 300 1; len; weight; list",
        // F
        "open weighed 10 4; putw 1 7 100 3; putw 2 7 200 4; putw 1 8 101 5; list",
        // G
        "open weighed 10 4; putw 1 7 100 10; putw 1 7 100 9; is_full; list",
        "open weighed 10 4; putw 1 7 100 3; putw 2 7 200 4; putw 3 7 300 9; is_full; list",
        "open weighed 1 1; putw 1 7 100 1; putw 1 7 100 0; is_full; putw 2 8 200 0; list",
        // H
        "open weighed 10 4; putw 1 7 100 3; putw 2 7 200 4; resize 9; resize 8; list",
        "open weighed 10 4; putw 1 7 100 3; putw 2 7 200 4; resize 8; list",
        // I, with its equal resize, its weighed form and the smallest input that panics
        "open plain 3 8; put 10 7 100; put 20 7 200; put 30 7 300; pop 10; resize 5",
        "open plain 3 8; put 10 7 100; put 20 7 200; put 30 7 300; pop 10; resize 3",
        "open weighed 9 8; putw 10 7 100 1; putw 20 7 200 2; putw 30 7 300 0; pop 10; resize 9",
        "open weighed 9 8; putw 10 7 100 1; putw 20 7 200 2; putw 30 7 300 0; pop 10; resize 12",
        "open plain 2 2; put 1 0 0; put 2 0 0; pop 1; resize 2",
        // The same with putting calls alone: a replacement that evicts leaves a hole
        "open weighed 2 2; putw 1 0 0 0; putw 2 0 0 0; putw 1 0 0 1; resize 2",
        // J
        "open plain 4 4; put 10 7 100; put 20 7 200; put 30 7 300; pop 20; resize 3; list",
        // K
        "open plain 3 3; put 1 7 40; put 2 7 200; try_put_or_modify 1 8 20 50; list",
        "open plain 3 3; put 1 7 40; put 2 7 200; try_put_or_modify 1 8 20 60; list",
        // L, its refused call left out
        "open plain 5 2; put 1 7 100; put 2 7 200; put 2 8 201; list",
        // The sample script
        "open weighed 10 4; putw 1 7 100 3; putw 2 7 200 4; putw 1 8 101 5; list; putw 3 8 300 10",
    ];
    for script in scripts {
        recorder.script(script);
    }
}

fn record_short_runs(recorder: &mut Recorder) {
    recorder.start_file("short-plain.txt");
    let words = [
        "put 1 1 10",
        "put 2 2 20",
        "put 3 3 30",
        "putw 1 4 40 0",
        "put_or_modify 2 5 7",
        "get 1",
        "pop 1",
        "resize 1",
        "resize 3",
    ];
    recorder.all_runs("open plain 2 3", &words, 3);
    let words = ["put 1 1 10", "put 2 2 20", "pop 1", "resize 1", "resize 2"];
    recorder.all_runs("open plain 2 2", &words, 4);

    recorder.start_file("short-weighed.txt");
    let words = [
        "putw 1 1 10 0",
        "putw 1 2 11 1",
        "putw 2 3 20 1",
        "putw 2 4 21 2",
        "putw 3 5 30 0",
        "get 1",
        "pop 1",
        "resize 3",
        "resize 5",
    ];
    recorder.all_runs("open weighed 4 4", &words, 3);
    let words = [
        "putw 1 1 10 1",
        "putw 2 2 20 0",
        "pop 1",
        "resize 3",
        "resize 4",
    ];
    recorder.all_runs("open weighed 4 2", &words, 4);
}

fn permutations_of_four() -> Vec<[u64; 4]> {
    let mut all = Vec::new();
    for number in 0..256 {
        let digits = [number / 64, number / 16 % 4, number / 4 % 4, number % 4];
        if BTreeSet::from(digits).len() == 4 {
            all.push(digits.map(|digit| digit + 1));
        }
    }
    all
}

fn record_holes(recorder: &mut Recorder) {
    recorder.start_file("holes.txt");
    // Four entries in slots 0 to 3, any set of them popped, then a resize.
    let fills = [
        (
            "open plain 4 6; put 1 1 10; put 2 2 20; put 3 3 30; put 4 4 40",
            4,
            [1, 2, 3, 4, 6],
            "put 7 7 70; put 8 8 80; list_back",
        ),
        (
            "open weighed 9 6; putw 1 1 10 1; putw 2 2 20 0; putw 3 3 30 2; putw 4 4 40 1",
            9,
            [2, 5, 7, 9, 12],
            "putw 7 7 70 1; putw 8 8 80 0; list_back",
        ),
    ];
    for (fill, opened, capacities, after) in fills {
        for popped in 0..16_u32 {
            let live = 4 - popped.count_ones();
            let hole_below_live = popped.trailing_zeros() < live;
            for capacity in capacities {
                let panics = capacity >= opened && hole_below_live;
                if panics && (popped.count_ones() > 1 || capacity > opened) {
                    continue;
                }
                let mut lines = fill.to_string();
                for code in (1..=4).filter(|code| popped >> (code - 1) & 1 == 1) {
                    lines += &format!("; pop {code}");
                }
                recorder.script(&format!("{lines}; resize {capacity}; {after}"));
            }
        }
    }
    // Every order of four entries, one hole, then a shrink that gives every entry its place.
    for [a, b, c, d] in permutations_of_four() {
        recorder.script(&format!(
            "open plain 6 6; put 1 1 10; put 2 2 20; put 3 3 30; put 4 4 40; get {a}; get {b}; \
             get {c}; get {d}; pop {b}; resize 5; put 5 5 50; put 6 6 60; list"
        ));
    }
    let scripts = [
        // Holes from both ends and from a sweep, shrinks down to one, puts after each.
        "open plain 6 6; put 1 1 10; put 2 2 20; put 3 3 30; put 4 4 40; put 5 5 50; put 6 6 60; \
         pop_back; pop_front; retain not code 3 3; resize 5; put 7 7 70; put 8 8 80; resize 4; \
         put 9 9 90; resize 2; list; put 1 1 11; resize 1; list_back; resize 1; resize 4; \
         put 2 2 21; put 3 3 31; list",
        "open weighed 20 6; putw 1 1 10 2; putw 2 2 20 3; putw 3 3 30 0; putw 4 4 40 4; \
         putw 5 5 50 1; pop_back; pop_front; retain weight 3; resize 12; putw 6 6 60 5; \
         putw 7 7 70 2; resize 10; resize 6; list; putw 8 8 80 0; resize 1; list_back; resize 1; \
         resize 9; putw 9 9 90 3; putw 1 1 11 3; list",
        // Clear, then use again.
        "open plain 3 3; clear; put 1 1 10; put 2 2 20; pop 1; clear; len; is_empty; list; \
         put 3 3 30; put 1 1 11; put 2 2 21; put 4 4 40; clear; resize 3; put 5 5 50; clear; list",
        "open weighed 8 4; clear; putw 1 1 10 2; putw 2 2 20 1; pop 1; clear; weight; is_empty; \
         list; putw 3 3 30 3; putw 1 1 11 0; putw 2 2 21 2; clear; resize 6; putw 5 5 50 5; \
         is_full; clear; list_back",
        // A hole below live that is filled again before the resize.
        "open plain 3 3; put 1 1 10; put 2 2 20; put 3 3 30; pop 1; pop 2; put 4 4 40; \
         put 5 5 50; resize 3; resize 7; list",
        "open weighed 9 3; putw 1 1 10 1; putw 2 2 20 1; putw 3 3 30 1; pop 1; pop 2; \
         putw 4 4 40 1; putw 5 5 50 0; resize 9; resize 11; list",
        // Stack order: a replaced entry's slot lies below those of the evicted.
        "open weighed 10 5; putw 1 1 10 1; putw 2 2 20 1; putw 3 3 30 1; putw 4 4 40 1; \
         putw 3 5 31 7; putw 5 5 50 0; putw 6 6 60 0; putw 7 7 70 0; list",
        // No slot is left, but a removal or an eviction gives one.
        "open weighed 30 2; putw 1 1 10 3; putw 2 2 20 3; putw 1 3 11 4; putw 3 3 30 30; \
         putw 3 3 30 29; putw 4 4 40 0; list",
        "open plain 9 2; put 1 1 10; put 2 2 20; put_or_modify 1 3 5; try_put_or_modify 3 3 9 8; \
         try_put_or_modify 2 3 1 21; putw 1 4 12 0; pop 2; put 3 3 30; list",
    ];
    for script in scripts {
        recorder.script(script);
    }
}

fn record_evictions(recorder: &mut Recorder) {
    recorder.start_file("evictions.txt");
    // A full weighed cache: each code, then a new one, put with each weight; each resize.
    let fill = "open weighed 8 5; putw 1 1 10 1; putw 2 2 20 0; putw 3 3 30 2; putw 4 4 40 1";
    for code in 1..=5 {
        for weight in 0..=8 {
            recorder.script(&format!(
                "{fill}; is_full; putw {code} 9 99 {weight}; weight; putw 6 6 60 0; list"
            ));
        }
    }
    for capacity in 1..=9 {
        recorder.script(&format!(
            "{fill}; get 2; resize {capacity}; capacity; is_full; putw 6 6 60 0; list_back"
        ));
    }
    // The same for a full plain cache and all its putting calls.
    let fill = "open plain 3 4; put 1 1 10; put 2 2 20; put 3 3 30";
    for code in 1..=4 {
        for put in [
            format!("put {code} 9 99"),
            format!("putw {code} 9 99 0"),
            format!("put_or_modify {code} 9 5"),
            format!("try_put_or_modify {code} 9 5 25"),
        ] {
            recorder.script(&format!("{fill}; is_full; {put}; put 5 5 50; list"));
        }
    }
    for capacity in 1..=4 {
        recorder.script(&format!(
            "{fill}; get 2; resize {capacity}; capacity; is_full; put 6 6 60; list_back"
        ));
    }
}

fn record_readers(recorder: &mut Recorder) {
    recorder.start_file("readers.txt");
    let readers = "len; capacity; weight; is_empty; is_full; front; back; peek 1; peek 2; \
                   peek 3; contains 1; contains 2; contains 3; list; list_back";
    let setters = "front_mut 5; back_mut 6; peek_mut 1 7; peek_mut 2 8; peek_mut 3 9";
    let movers = "get_mut 1 7; get_mut 2 8; get_mut 3 9";
    recorder.script(&format!(
        "open plain 3 4; {readers}; {setters}; {movers}; get 1; pop 1; pop_front; pop_back; \
         put 1 4 10; {readers}; {setters}; {movers}; get 1; put 2 5 20; {readers}; {setters}; \
         {movers}; get 1; put 3 6 30; {readers}; {setters}; {movers}; get 2; get 1; pop_front; \
         pop_back; {readers}; pop 1; pop 2; pop 3; {readers}"
    ));
    recorder.script(&format!(
        "open weighed 6 4; {readers}; get 1; pop 1; pop_front; pop_back; putw 1 4 10 1; \
         {readers}; get 1; putw 2 5 20 0; {readers}; get 1; putw 3 6 30 2; {readers}; get 2; \
         get 1; get 3; pop_front; pop_back; {readers}; pop 1; pop 2; pop 3; {readers}"
    ));
}

fn record_rules(recorder: &mut Recorder) {
    recorder.start_file("rules.txt");
    let rules = [
        "code 4 6",
        "code 4 4",
        "code 0 18446744073709551615",
        "code 5 5",
        "code 6 4",
        "code 9 18446744073709551615",
        "value 20 40",
        "value 0 18446744073709551615",
        "value 21 29",
        "value 40 20",
        "value 18446744073709551615 18446744073709551615",
        "stamp 0",
        "stamp 5",
        "stamp 4294967295",
        "weight 0",
        "weight 1",
        "weight 18446744073709551615",
    ];
    let caches = [
        (
            "open plain 6 6",
            [
                "put 2 1 10",
                "put 4 5 20",
                "put 6 4 40",
                "put 8 9 18446744073709551615",
                "put 18446744073709551615 0 30",
            ],
            "put 4 2 21; put 5 3 51",
        ),
        (
            "open weighed 20 6",
            [
                "putw 2 1 10 1",
                "putw 4 5 20 0",
                "putw 6 4 40 3",
                "putw 8 9 18446744073709551615 2",
                "putw 18446744073709551615 0 30 1",
            ],
            "putw 4 2 21 2; putw 5 3 51 1",
        ),
    ];
    for (opening, fill, after) in caches {
        for rule in rules {
            for not in ["", "not "] {
                let rule = format!("retain {not}{rule}");
                recorder.script(&format!(
                    "{opening}; {}; get 6; {rule}; list; {after}; list_back",
                    fill.join("; ")
                ));
                recorder.script(&format!("{opening}; {rule}; {}; {rule}", fill[1]));
            }
        }
    }
    recorder.script(
        "open weighed 20 4; putw 1 1 10 1; putw 2 2 20 4; putw 3 3 30 2; retain not weight 0; \
         retain weight 4; retain not weight 4; weight; putw 1 1 10 1; putw 2 2 20 4; \
         retain weight 0; list",
    );
}

fn record_bounds(recorder: &mut Recorder) {
    recorder.start_file("bounds.txt");
    let most = u64::MAX;
    for capacity in [1, 2, 3, 10, LARGEST_CAPACITY] {
        let weights = BTreeSet::from([
            0,
            1,
            capacity.saturating_sub(2),
            capacity - 1,
            capacity,
            capacity + 1,
            LARGEST_CAPACITY,
            most,
        ]);
        for first in weights.iter().filter(|weight| **weight < capacity) {
            for second in &weights {
                recorder.script(&format!(
                    "open weighed {capacity} 3; putw 0 0 0 {first}; \
                     putw {most} 4294967295 {most} {second}; is_full; putw 0 1 1 0; weight"
                ));
            }
        }
    }
    // Sums against ceilings: below, at and above them, and past 2^64.
    for held in [0, 40, most - 1, most] {
        for amount in [0, 1, 20, most] {
            let sum = held.saturating_add(amount);
            let ceilings = [0, sum.saturating_sub(1), sum, sum.saturating_add(1), most];
            let mut lines = format!("open plain 3 3; put 1 7 {held}; put 2 8 5");
            for ceiling in BTreeSet::from(ceilings) {
                lines += &format!("; try_put_or_modify 1 9 {amount} {ceiling}; front");
                lines += &format!("; put 1 9 {held}; get 2");
            }
            lines += &format!("; put_or_modify 1 9 {amount}; list");
            recorder.script(&lines);
        }
    }
    for amount in [0, 1, 20, most] {
        let ceilings = [0, amount.saturating_sub(1), amount, most];
        let mut lines = "open plain 2 2; put 1 7 3; put 2 8 5".to_string();
        for ceiling in BTreeSet::from(ceilings) {
            lines += &format!("; try_put_or_modify 3 9 {amount} {ceiling}; pop 3");
        }
        recorder.script(&format!("{lines}; list"));
    }
    let large = LARGEST_CAPACITY;
    let scripts = [
        // The least cache: every putting call pushes the one entry out or replaces it.
        "open plain 1 1; capacity; put 0 0 0; put 1 0 0; put 18446744073709551615 4294967295 1; \
         put_or_modify 18446744073709551615 0 18446744073709551615; \
         put_or_modify 0 4294967295 18446744073709551615; put_or_modify 0 0 2; \
         try_put_or_modify 1 1 5 4; try_put_or_modify 1 1 5 5; putw 1 4294967295 0 0; \
         putw 0 4294967295 18446744073709551615 0; is_full; len; resize 1; list; pop 0; is_full",
        "open weighed 1 2; capacity; putw 0 0 0 0; putw 18446744073709551615 4294967295 \
         18446744073709551615 0; putw 18446744073709551615 1 1 1; is_full; len; resize 1; list; \
         pop 18446744073709551615; is_full; resize 2; putw 1 1 1 1; is_full; weight; \
         putw 1 1 1 0; putw 2 2 2 0; list",
        // Setting values at their bounds.
        "open plain 3 3; put 0 0 18446744073709551615; put 1 1 0; put 18446744073709551615 2 7; \
         get_mut 0 0; peek_mut 1 18446744073709551615; front_mut 18446744073709551615; \
         back_mut 0; get_mut 18446744073709551615 18446744073709551615; peek_mut 2 1; \
         get_mut 2 1; list; clear; front_mut 1; back_mut 1; get_mut 0 1; peek_mut 0 1",
    ];
    for script in scripts {
        recorder.script(script);
    }
    // The largest capacity, down to 1 and back.
    recorder.script(&format!(
        "open plain {large} 4; is_full; put 0 0 0; put 1 1 1; resize {large}; resize 1; \
         is_full; capacity; resize {large}; capacity; put {most} 4294967295 {most}; put 2 2 2; \
         resize {}; list; resize 2; list_back",
        large - 1
    ));
    recorder.script(&format!(
        "open weighed {large} 4; putw 1 1 1 {}; is_full; putw 2 2 2 0; is_full; putw 3 3 3 {}; \
         is_full; weight; resize {}; resize {large}; putw 4 4 4 {}; putw 5 5 5 {large}; \
         putw 5 5 5 {most}; is_full; weight; resize {}; list",
        large - 2,
        large - 1,
        large - 1,
        large - 3,
        large - 2,
    ));
}

fn record_random(recorder: &mut Recorder) {
    let files = [
        ("random-plain.txt", Kind::Plain, 0x0001_0000),
        ("random-weighed.txt", Kind::Weighed, 0x0002_0000),
    ];
    for (name, kind, seed) in files {
        recorder.start_file(name);
        for run in 0..48 {
            let codes = CODE_CHOICES[run % CODE_CHOICES.len()];
            let generator = random_generator(seed + run as u64, kind, codes);
            recorder.generated(generator, &[], 60);
        }
    }
    recorder.start_file("wide.txt");
    let wide = [
        (Kind::Plain, 40, 40, Codes::Small, 36),
        (Kind::Plain, 64, 40, Codes::Clashing, 36),
        (Kind::Weighed, 60, 40, Codes::Small, 36),
        (Kind::Weighed, 1000, 40, Codes::Clashing, 36),
    ];
    record_filled(recorder, &wide, 0x0003_0000);
    recorder.start_file("large-room.txt");
    let large_room = [
        (Kind::Plain, 256, 256, Codes::Small, 4),
        (Kind::Plain, 257, 257, Codes::Clashing, 6),
        (Kind::Plain, 5, LARGEST_ROOM, Codes::Clashing, 5),
        (Kind::Plain, LARGEST_CAPACITY, LARGEST_ROOM, Codes::Edge, 5),
        (Kind::Weighed, 300, LARGEST_ROOM, Codes::Clashing, 6),
        (Kind::Weighed, LARGEST_ROOM, LARGEST_ROOM, Codes::Small, 4),
        (Kind::Weighed, LARGEST_CAPACITY, 1000, Codes::Edge, 4),
    ];
    record_filled(recorder, &large_room, 0x0004_0000);
}

/// Random runs that start from a filled cache.
fn record_filled(
    recorder: &mut Recorder,
    runs: &[(Kind, u64, u64, Codes, usize)],
    first_seed: u64,
) {
    for (seed, (kind, capacity, room, codes, fill)) in (first_seed..).zip(runs.iter().copied()) {
        let pool = codes.pool(room);
        let puts: Vec<Command> = (1_u32..)
            .zip(pool.iter().copied().take(fill))
            .map(|(stamp, code)| match kind {
                Kind::Plain => Command::Put(code, stamp, 2 * u64::from(stamp)),
                Kind::Weighed => Command::PutWithWeight(Row {
                    code,
                    stamp,
                    value: 2 * u64::from(stamp),
                    weight: u64::from(stamp) % 2,
                }),
            })
            .collect();
        let generator = Generator {
            random: Random(seed),
            opening: Opening {
                kind,
                capacity,
                room,
            },
            taste: Taste {
                codes: pool,
                edge: matches!(codes, Codes::Edge),
                panics_one_in: 12,
                drastic_one_in: 8,
            },
        };
        recorder.generated(generator, &puts, 30);
    }
}

fn record(directory: &Path) -> Result<(), String> {
    assert!(crc32(b"123456789") == 0xCBF4_3926);
    let mut recorder = Recorder::default();
    record_examples(&mut recorder);
    record_short_runs(&mut recorder);
    record_evictions(&mut recorder);
    record_holes(&mut recorder);
    record_readers(&mut recorder);
    record_rules(&mut recorder);
    record_bounds(&mut recorder);
    record_random(&mut recorder);

    let Recorder { files, tally } = recorder;
    let mut total = 0;
    for (name, text) in &files {
        if !text.is_ascii() || text.len() >= LARGEST_FILE {
            return Err(format!("{name}: not plain ASCII, or {} bytes", text.len()));
        }
        total += text.len();
        std::fs::write(directory.join(name), text).map_err(|error| error.to_string())?;
        let lines = |start: &str| text.lines().filter(|line| line.starts_with(start)).count();
        println!(
            "{name:<20} {:>7} bytes {:>5} runs {:>6} calls {:>3} panics",
            text.len(),
            lines("> open"),
            lines(">") - lines("> open"),
            lines("panic"),
        );
    }
    println!(
        "{:<20} {total:>7} bytes {:>5} runs {:>6} calls {:>3} panics (openings not counted as calls)",
        "total", tally.runs, tally.calls, tally.panics
    );
    println!(
        "longest line {} bytes, at most {} live entries, at most {} rows in one answer",
        tally.longest_line, tally.most_live, tally.most_rows
    );
    println!("\ncalls and answers by word");
    for (word, answers) in &tally.answers {
        let calls: u64 = answers.values().sum();
        let list: Vec<String> = answers.iter().map(|(a, n)| format!("{a}: {n}")).collect();
        println!("{word:<18} {calls:>5}   {}", list.join("; "));
    }

    let required = required_cases();
    let missing: Vec<&String> = required
        .iter()
        .filter(|case| !tally.cases.contains_key(*case))
        .collect();
    println!(
        "\ncases reached: {} of {} required; every call agreed with the model of document 01",
        required.len() - missing.len(),
        required.len()
    );
    if !missing.is_empty() {
        return Err(format!("never reached: {missing:#?}"));
    }
    if total >= LARGEST_TOTAL || tally.calls < FEWEST_CALLS {
        return Err(format!("{total} bytes, {} calls", tally.calls));
    }
    Ok(())
}

// ---------------------------------------------------------------------------------------
// Stress: random calls against the model, nothing recorded
// ---------------------------------------------------------------------------------------

#[derive(Clone)]
struct Run {
    opening: String,
    commands: Vec<String>,
}

impl Run {
    fn of(opening: Opening, commands: &[Command]) -> Self {
        Run {
            opening: opening.to_string(),
            commands: commands.iter().map(Command::to_string).collect(),
        }
    }

    fn lines(&self) -> impl Iterator<Item = &String> {
        std::iter::once(&self.opening).chain(&self.commands)
    }

    fn rewritten(&self, rewrite: impl Fn(usize, &str) -> String) -> Run {
        let mut lines = self.lines().enumerate().map(|(i, line)| rewrite(i, line));
        Run {
            opening: lines.next().expect("an opening"),
            commands: lines.collect(),
        }
    }

    /// The first step that is not agreed, or `None`, also for a run that may not be sent.
    fn failure(&self) -> Option<Step> {
        let opening: Opening = self.opening.parse().ok()?;
        let mut pair = Pair::open(opening);
        for line in &self.commands {
            let command: Command = line.parse().ok()?;
            if !command.fits(opening.kind) || pair.state().lacks_room(opening.room, &command) {
                return None;
            }
            match pair.step(&command) {
                Step::Agreed(_) => {}
                step => return Some(step),
            }
        }
        None
    }
}

impl Display for Run {
    fn fmt(&self, f: &mut Formatter<'_>) -> fmt::Result {
        f.write_str(&self.lines().cloned().collect::<Vec<_>>().join("; "))
    }
}

/// Leaves out commands and lowers numbers as long as the run still fails.
fn smallest(run: Run, fails: impl Fn(&Run) -> bool) -> Run {
    let mut run = without_idle_commands(run, &fails);
    while let Some(lower) = with_a_lower_number(&run).into_iter().find(&fails) {
        run = without_idle_commands(lower, &fails);
    }
    run
}

fn without_idle_commands(mut run: Run, fails: impl Fn(&Run) -> bool) -> Run {
    let mut length = run.commands.len();
    while length > 0 {
        let mut start = 0;
        while start + length <= run.commands.len() {
            let mut shorter = run.clone();
            shorter.commands.drain(start..start + length);
            if fails(&shorter) {
                run = shorter;
            } else {
                start += 1;
            }
        }
        length /= 2;
    }
    run
}

fn with_a_lower_number(run: &Run) -> Vec<Run> {
    let mut all = Vec::new();
    let numbers_in = |line: &str| -> BTreeSet<u64> {
        line.split(' ')
            .filter_map(|word| word.parse().ok())
            .collect()
    };
    let lower = |number: u64| {
        // Steps of one only where they soon come to an end.
        let one_less = if number < 20 { number.max(1) - 1 } else { 0 };
        let tries = BTreeSet::from([0, 1, 2, 3, 10, number / 2, one_less]);
        tries.into_iter().filter(move |less| *less < number)
    };
    let replace = |line: &str, number: u64, less: u64| {
        let word = number.to_string();
        let words = line.split(' ').map(|w| {
            if w == word {
                less.to_string()
            } else {
                w.into()
            }
        });
        words.collect::<Vec<_>>().join(" ")
    };
    let everywhere: BTreeSet<u64> = run.lines().flat_map(|line| numbers_in(line)).collect();
    for number in everywhere {
        for less in lower(number) {
            all.push(run.rewritten(|_, line| replace(line, number, less)));
        }
    }
    for (place, line) in run.lines().enumerate() {
        for number in numbers_in(line) {
            for less in lower(number) {
                all.push(run.rewritten(|i, line| {
                    if i == place {
                        replace(line, number, less)
                    } else {
                        line.into()
                    }
                }));
            }
        }
    }
    all
}

fn stress(calls: u64, seed: u64) -> Result<(), String> {
    const MOST_SHOWN: usize = 5;
    const MOST_SHRUNK: usize = 20;
    let mut random = Random(seed);
    let (mut made, mut runs, mut agreed, mut panics) = (0_u64, 0_u64, 0_u64, 0_u64);
    let mut messages: BTreeMap<String, u64> = BTreeMap::new();
    let mut panicking: BTreeMap<String, Vec<Run>> = BTreeMap::new();
    let mut unforetold: Vec<Run> = Vec::new();
    let mut differing: Vec<Run> = Vec::new();

    while made < calls {
        let kind = random.pick(&KINDS);
        let codes = random.pick(&CODE_CHOICES);
        let mut generator = random_generator(random.next(), kind, codes);
        if random.one_in(8) {
            generator.opening.room = 40;
            generator.taste.codes = codes.pool(40);
        }
        generator.taste.panics_one_in = random.pick(&[1, 20, 2000]);
        generator.taste.drastic_one_in = random.pick(&[1, 8, 40]);
        let opening = generator.opening;
        let length = random.between(1, 300);
        let mut pair = Pair::open(opening);
        let mut sent = Vec::new();
        runs += 1;
        while made < calls && (sent.len() as u64) < length {
            let command = generator.next_command(pair.state());
            let capacity = pair.state().capacity;
            sent.push(command);
            made += 1;
            match pair.step(&command) {
                Step::Agreed(_) => agreed += 1,
                Step::Panicked { message, foretold } => {
                    panics += 1;
                    *messages.entry(message).or_default() += 1;
                    let run = Run::of(opening, &sent);
                    if !foretold {
                        unforetold.push(run);
                    } else if let Command::Resize(to) = command {
                        let way = if to == capacity { "equal" } else { "growing" };
                        let shortest = panicking.entry(format!("{kind}, {way}")).or_default();
                        shortest.push(run);
                        shortest.sort_by_key(|run| run.commands.len());
                        shortest.truncate(MOST_SHRUNK);
                    }
                    break;
                }
                Step::Differs(_) => {
                    differing.push(Run::of(opening, &sent));
                    break;
                }
            }
        }
    }

    println!("seed {seed}: {made} calls in {runs} runs");
    println!("agreed in answer, rows, order, slots, stack, top, weight and capacity: {agreed}");
    println!("disagreements: {}", differing.len());
    for run in differing.iter().take(MOST_SHOWN) {
        let least = smallest(run.clone(), |run| {
            matches!(run.failure(), Some(Step::Differs(_)))
        });
        println!("  {least}");
        if let Some(Step::Differs(text)) = least.failure() {
            println!("    {}", text.replace('\n', "\n    "));
        }
    }
    println!("runs ended by a panic of the crate: {panics}");
    for (message, count) in &messages {
        println!("  {count} times {message}");
    }
    println!(
        "  an equal or growing resize with a hole below live: {}; any other: {}",
        panics - unforetold.len() as u64,
        unforetold.len()
    );
    for (name, shortest) in panicking {
        let panics_so = |run: &Run| {
            matches!(run.failure(), Some(Step::Panicked { foretold: true, .. }))
                && same_way(run, &name)
        };
        let least = shortest
            .into_iter()
            .map(|run| smallest(run, panics_so))
            .min_by_key(|run| (run.commands.len(), run.to_string().len()));
        if let Some(least) = least {
            println!("  smallest ({name}): {least}");
        }
    }
    for run in unforetold.iter().take(MOST_SHOWN) {
        let least = smallest(run.clone(), |run| {
            matches!(
                run.failure(),
                Some(Step::Panicked {
                    foretold: false,
                    ..
                })
            )
        });
        println!("  not foretold: {least}");
    }
    if differing.is_empty() && unforetold.is_empty() {
        Ok(())
    } else {
        Err("the crate and document 01 differ".into())
    }
}

/// Whether a panicking run's last resize is equal or growing, as the name says.
fn same_way(run: &Run, name: &str) -> bool {
    let capacities = run.lines().filter_map(|line| match line.split_once(' ') {
        Some(("open", rest)) => rest.split(' ').nth(1)?.parse::<u64>().ok(),
        Some(("resize", capacity)) => capacity.parse().ok(),
        _ => None,
    });
    let capacities: Vec<u64> = capacities.collect();
    match capacities[..] {
        [.., from, to] => name.ends_with("equal") == (from == to),
        _ => false,
    }
}

// ---------------------------------------------------------------------------------------
// Ask: a script on standard input
// ---------------------------------------------------------------------------------------

fn ask() -> Result<(), String> {
    let mut script = String::new();
    std::io::stdin()
        .read_to_string(&mut script)
        .map_err(|error| error.to_string())?;
    let mut open: Option<(Opening, Pair)> = None;
    for line in script.lines() {
        println!("> {line}");
        if line.starts_with("open ") {
            let opening: Opening = line.parse()?;
            let pair = Pair::open(opening);
            println!("ok\n{}", pair.state());
            open = Some((opening, pair));
            continue;
        }
        let command: Command = line.parse()?;
        let (opening, pair) = open.as_mut().ok_or("a call before `open`")?;
        if !command.fits(opening.kind) || pair.state().lacks_room(opening.room, &command) {
            return Err("refused by the port (3, 5 or 8); the crate has no such call".into());
        }
        match pair.step(&command) {
            Step::Agreed(reply) => println!("{reply}{}", pair.state()),
            Step::Panicked { message, .. } => {
                println!("panic");
                eprintln!("the crate's panic: {message}");
                open = None;
            }
            Step::Differs(difference) => return Err(difference),
        }
    }
    Ok(())
}

fn main() -> ExitCode {
    watch_panics();
    let arguments: Vec<String> = std::env::args().skip(1).collect();
    let words: Vec<&str> = arguments.iter().map(String::as_str).collect();
    let outcome = match words[..] {
        ["record", directory] => record(Path::new(directory)),
        ["stress", calls, seed] => {
            number(calls).and_then(|calls| number(seed).and_then(|seed| stress(calls, seed)))
        }
        ["ask"] => ask(),
        #[cfg(beside)]
        ["beside", calls, seed] => {
            number(calls).and_then(|calls| number(seed).and_then(|seed| beside::run(calls, seed)))
        }
        _ => Err("usage: oracle record DIR | stress CALLS SEED | ask".into()),
    };
    match outcome {
        Ok(()) => ExitCode::SUCCESS,
        Err(message) => {
            eprintln!("oracle: {message}");
            ExitCode::FAILURE
        }
    }
}
