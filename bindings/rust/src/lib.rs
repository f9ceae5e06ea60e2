//! A least-recently-used cache of claims whose every call is proved, with the method names of `clru`.
//!
//! An entry is a code, a stamp, a value and a weight. The code is the key; the stamp rides along. A cache is plain
//! (every weight is 0) or weighed, has a capacity, and never holds more than its entries and their weights fit in:
//! `len() + weight() <= capacity()`. It also has a number of slots, at most 4,096, which bounds its memory.
//!
//! Where `clru` drops an evicted entry, a call here returns it:
//!
//! ```
//! use weavestall::{ClaimsCache, Put};
//!
//! # fn main() -> Result<(), weavestall::Refusal> {
//! let mut cache = ClaimsCache::plain(2, 2)?;
//! assert!(cache.put(1, 7, 100)?.evicted().is_empty());
//! assert!(cache.put(2, 7, 200)?.evicted().is_empty());
//! assert_eq!(cache.get(1), Some(100));
//! let Put::New { evicted } = cache.put(3, 7, 300)? else { panic!("3 is new") };
//! assert_eq!(evicted.into_rows()[0].code, 2);
//! # Ok(())
//! # }
//! ```
//!
//! No call panics. What cannot be done is refused, with the reason:
//!
//! ```
//! use weavestall::{ClaimsCache, Refusal};
//!
//! # fn main() -> Result<(), weavestall::Refusal> {
//! let mut cache = ClaimsCache::weighed(10, 4)?;
//! assert_eq!(cache.put_with_weight(1, 7, 100, 10), Err(Refusal::TooHeavy));
//! assert_eq!(cache.put(1, 7, 100), Err(Refusal::WrongKind));
//! # Ok(())
//! # }
//! ```

#![deny(missing_docs)]

pub mod lists;

use lists::{ANSWER, COMMAND, Lists, RowLists};
use std::error::Error;
use std::fmt::{self, Debug, Display, Formatter};
use std::ops::Deref;

/// The largest capacity.
pub const MOST_CAPACITY: u64 = (1 << 63) - 1;
/// The largest number of slots.
pub const MOST_SLOTS: u32 = 4096;

/// Whether entries have weights.
#[derive(Clone, Copy, Debug, PartialEq, Eq, Hash)]
pub enum Kind {
    /// Every weight is 0: `clru` with its default scale.
    Plain,
    /// Entries come with their weight: `clru` with a `WeightScale`.
    Weighed,
}

/// An entry, as it is stored and as it is handed out.
#[derive(Clone, Copy, Debug, Default, PartialEq, Eq, Hash)]
pub struct Row {
    /// What keys are compared by.
    pub code: u64,
    /// Rides along with the code.
    pub stamp: u32,
    /// What is stored.
    pub value: u64,
    /// 0 on a plain cache.
    pub weight: u64,
}

/// Why a call was not carried out. Each is given for one cause, and leaves the cache as it was; only after
/// `OverCeiling` has a present entry moved to the front.
#[derive(Clone, Copy, Debug, PartialEq, Eq, Hash)]
pub enum Refusal {
    /// 1. Opening: a capacity of 0 or above [`MOST_CAPACITY`], or no slots, or more than [`MOST_SLOTS`].
    NotOpened,
    /// 2. The numbers are no sound cache, or a list is too short. A [`ClaimsCache`] owns its lists, so it never gives this.
    Unsound,
    /// 3. The call is not for this kind of cache.
    WrongKind,
    /// 4. The weight alone is the capacity or more.
    TooHeavy,
    /// 5. A new code, every slot is taken and nothing is to be pushed out.
    NoSlot,
    /// 6. More rows to hand out than the row lists hold. A [`ClaimsCache`] has room for all, so it never gives this.
    TooFewRows,
    /// 7. The sum is above the ceiling.
    OverCeiling,
    /// 8. A capacity of 0 or above [`MOST_CAPACITY`], a rule or a command that does not exist.
    NotUnderstood,
}

impl Refusal {
    /// The refusal with this number.
    pub fn of(number: u32) -> Option<Self> {
        Some(match number {
            1 => Refusal::NotOpened,
            2 => Refusal::Unsound,
            3 => Refusal::WrongKind,
            4 => Refusal::TooHeavy,
            5 => Refusal::NoSlot,
            6 => Refusal::TooFewRows,
            7 => Refusal::OverCeiling,
            8 => Refusal::NotUnderstood,
            _ => return None,
        })
    }

    /// Its number, 1 to 8.
    pub fn number(self) -> u32 {
        match self {
            Refusal::NotOpened => 1,
            Refusal::Unsound => 2,
            Refusal::WrongKind => 3,
            Refusal::TooHeavy => 4,
            Refusal::NoSlot => 5,
            Refusal::TooFewRows => 6,
            Refusal::OverCeiling => 7,
            Refusal::NotUnderstood => 8,
        }
    }

    /// What caused it, and what helps.
    pub fn explanation(self) -> &'static str {
        match self {
            Refusal::NotOpened => {
                "the cache was not opened: its capacity must be 1 to 2^63 - 1 and its slots 1 to 4,096; ask for less"
            }
            Refusal::Unsound => {
                "the numbers are no sound cache, or a list is too short: hand them over as the last call left them"
            }
            Refusal::WrongKind => {
                "the call is not for this kind of cache: on a weighed one use put_with_weight; on a plain one every weight is 0"
            }
            Refusal::TooHeavy => {
                "the weight alone is the capacity or more: take a lighter entry, or enlarge the cache"
            }
            Refusal::NoSlot => {
                "a new code, every slot is taken and nothing is to be pushed out: remove an entry, or open with more slots"
            }
            Refusal::TooFewRows => {
                "more rows to hand out than the row lists hold: lend longer ones"
            }
            Refusal::OverCeiling => {
                "the sum is above the ceiling: raise it, or take a smaller amount"
            }
            Refusal::NotUnderstood => {
                "a capacity of 0 or above 2^63 - 1, or a rule or a command that does not exist: mend the call"
            }
        }
    }
}

impl Display for Refusal {
    fn fmt(&self, f: &mut Formatter<'_>) -> fmt::Result {
        write!(f, "refusal {}: {}", self.number(), self.explanation())
    }
}

impl Error for Refusal {}

/// Rows that left the cache: oldest first after a put or a resize, front to back after `retain`.
#[must_use = "these entries have left the cache and are nowhere else"]
#[derive(Clone, Debug, Default, PartialEq, Eq)]
pub struct Evicted(Vec<Row>);

impl Evicted {
    /// The rows, to keep.
    pub fn into_rows(self) -> Vec<Row> {
        self.0
    }
}

impl Deref for Evicted {
    type Target = [Row];

    fn deref(&self) -> &[Row] {
        &self.0
    }
}

impl IntoIterator for Evicted {
    type Item = Row;
    type IntoIter = std::vec::IntoIter<Row>;

    fn into_iter(self) -> Self::IntoIter {
        self.0.into_iter()
    }
}

/// What a put answers.
#[must_use = "it holds the rows that left the cache"]
#[derive(Clone, Debug, PartialEq, Eq)]
pub enum Put {
    /// The code was absent and is now in front.
    New {
        /// What left to make room, oldest first.
        evicted: Evicted,
    },
    /// The code was present; its value was this.
    Was {
        /// The value that was replaced.
        value: u64,
        /// What left to make room, oldest first.
        evicted: Evicted,
    },
}

impl Put {
    /// The value that was replaced: what `clru`'s `put` returns.
    pub fn old(&self) -> Option<u64> {
        match self {
            Put::New { .. } => None,
            Put::Was { value, .. } => Some(*value),
        }
    }

    /// The rows that left, oldest first.
    pub fn evicted(&self) -> &[Row] {
        match self {
            Put::New { evicted } | Put::Was { evicted, .. } => evicted,
        }
    }

    /// The rows that left, to keep.
    pub fn into_evicted(self) -> Evicted {
        match self {
            Put::New { evicted } | Put::Was { evicted, .. } => evicted,
        }
    }
}

/// What a modifying call answers: the value held now, whether the code was new, and the rows that left.
#[must_use = "it holds the rows that left the cache"]
#[derive(Clone, Debug, PartialEq, Eq)]
pub struct Now {
    /// The value held now.
    pub value: u64,
    /// Whether the code was absent.
    pub new: bool,
    /// What left to make room, oldest first.
    pub evicted: Evicted,
}

/// Which entries `retain` keeps.
#[derive(Clone, Copy, Debug, PartialEq, Eq, Hash)]
pub enum Test {
    /// Codes from low to high, both included.
    Code(u64, u64),
    /// Values from low to high, both included.
    Value(u64, u64),
    /// Stamps of at least this.
    Stamp(u32),
    /// Weights of at most this.
    Weight(u64),
}

/// A test, or its opposite.
#[derive(Clone, Copy, Debug, PartialEq, Eq, Hash)]
pub struct Rule {
    /// What is tested.
    pub test: Test,
    /// Keep what fails the test instead.
    pub not: bool,
}

impl Rule {
    /// Keeps what passes the test.
    pub fn keeping(test: Test) -> Self {
        Rule { test, not: false }
    }

    /// Keeps what fails the test.
    pub fn dropping(test: Test) -> Self {
        Rule { test, not: true }
    }

    fn numbers(self) -> [u64; 4] {
        let not = u64::from(self.not);
        match self.test {
            Test::Code(low, high) => [0, not, low, high],
            Test::Value(low, high) => [1, not, low, high],
            Test::Stamp(least) => [2, not, u64::from(least), 0],
            Test::Weight(most) => [3, not, 0, most],
        }
    }
}

/// The numbers of the commands.
mod number {
    pub const LEN: u64 = 1;
    pub const CAPACITY: u64 = 2;
    pub const WEIGHT: u64 = 3;
    pub const IS_EMPTY: u64 = 4;
    pub const IS_FULL: u64 = 5;
    pub const FRONT: u64 = 6;
    pub const BACK: u64 = 7;
    pub const PEEK: u64 = 8;
    pub const CONTAINS: u64 = 9;
    pub const LIST: u64 = 10;
    pub const LIST_BACK: u64 = 11;
    pub const GET: u64 = 12;
    pub const POP: u64 = 13;
    pub const POP_FRONT: u64 = 14;
    pub const POP_BACK: u64 = 15;
    pub const PUT: u64 = 16;
    pub const PUT_WITH_WEIGHT: u64 = 17;
    pub const CLEAR: u64 = 18;
    pub const RETAIN: u64 = 19;
    pub const RESIZE: u64 = 20;
    pub const PUT_OR_MODIFY: u64 = 21;
    pub const TRY_PUT_OR_MODIFY: u64 = 22;
    pub const GET_MUT: u64 = 23;
    pub const PEEK_MUT: u64 = 24;
    pub const FRONT_MUT: u64 = 25;
    pub const BACK_MUT: u64 = 26;
}

/// The numbers of the words in an answer that the calls here tell apart.
mod word {
    pub const NEW: u64 = 1;
    pub const ABSENT: u64 = 5;
}

/// An answer's numbers.
struct Answer([u64; ANSWER]);

impl Answer {
    fn is_absent(&self) -> bool {
        self.0[1] == word::ABSENT
    }

    fn value(&self) -> u64 {
        self.0[2]
    }

    fn rows(&self) -> usize {
        self.0[3] as usize
    }

    fn flag(&self) -> bool {
        self.0[4] != 0
    }

    fn found(&self) -> Option<u64> {
        (!self.is_absent()).then(|| self.value())
    }

    fn entry(&self) -> Option<Row> {
        (!self.is_absent()).then(|| Row {
            code: self.0[5],
            stamp: self.0[6] as u32,
            value: self.value(),
            weight: self.0[7],
        })
    }
}

/// A cache that owns its lists. See the [crate's page](crate) for what it is.
///
/// Its lists are changed by the proved calls alone, so it is sound at all times, and the calls that can only be refused
/// for an unsound cache answer directly.
#[derive(Clone)]
pub struct ClaimsCache {
    lists: Lists,
    rows: RowLists,
}

impl ClaimsCache {
    /// A plain cache with as many slots as its capacity, at most 4,096: `clru`'s `new`.
    ///
    /// ```
    /// # use weavestall::{ClaimsCache, Refusal};
    /// assert_eq!(ClaimsCache::new(3)?.capacity(), 3);
    /// assert_eq!(ClaimsCache::new(0).unwrap_err(), Refusal::NotOpened);
    /// # Ok::<(), Refusal>(())
    /// ```
    pub fn new(capacity: u64) -> Result<Self, Refusal> {
        Self::plain(capacity, capacity.min(u64::from(MOST_SLOTS)) as u32)
    }

    /// A plain cache.
    pub fn plain(capacity: u64, slots: u32) -> Result<Self, Refusal> {
        Self::open(Kind::Plain, capacity, slots)
    }

    /// A weighed cache.
    pub fn weighed(capacity: u64, slots: u32) -> Result<Self, Refusal> {
        Self::open(Kind::Weighed, capacity, slots)
    }

    /// A cache of either kind. Refusal 1 where the capacity or the slots are out of bounds.
    pub fn open(kind: Kind, capacity: u64, slots: u32) -> Result<Self, Refusal> {
        // No more is set aside for a number of slots that will be refused.
        let held = slots.min(MOST_SLOTS);
        let mut cache = ClaimsCache {
            lists: Lists::for_slots(held),
            rows: RowLists::for_rows(held as usize),
        };
        let number = match kind {
            Kind::Plain => 0,
            Kind::Weighed => 1,
        };
        match lists::open(number, capacity, slots, &mut cache.lists) {
            0 => Ok(cache),
            number => Err(refusal(number)),
        }
    }

    fn read(&self, command: [u64; COMMAND]) -> Answer {
        let mut answer = Answer([0; ANSWER]);
        let mut none = RowLists::default();
        sure(lists::read(&self.lists, &mut none, &command, &mut answer.0));
        answer
    }

    fn list(&self, number: u64) -> Vec<Row> {
        let mut answer = Answer([0; ANSWER]);
        let mut rows = RowLists::for_rows(self.lists.codes.len());
        let command = [number, 0, 0, 0, 0];
        sure(lists::read(&self.lists, &mut rows, &command, &mut answer.0));
        written(&rows, answer.rows())
    }

    fn call(&mut self, command: [u64; COMMAND]) -> Result<Answer, Refusal> {
        let mut answer = Answer([0; ANSWER]);
        match lists::call(&mut self.lists, &mut self.rows, &command, &mut answer.0) {
            0 => Ok(answer),
            number => Err(refusal(number)),
        }
    }

    fn call_surely(&mut self, command: [u64; COMMAND]) -> Answer {
        let mut answer = Answer([0; ANSWER]);
        sure(lists::call(
            &mut self.lists,
            &mut self.rows,
            &command,
            &mut answer.0,
        ));
        answer
    }

    fn evicted(&self, answer: &Answer) -> Evicted {
        Evicted(written(&self.rows, answer.rows()))
    }

    fn put_answer(&self, answer: &Answer) -> Put {
        let evicted = self.evicted(answer);
        if answer.0[1] == word::NEW {
            Put::New { evicted }
        } else {
            Put::Was {
                value: answer.value(),
                evicted,
            }
        }
    }

    fn now(&self, answer: &Answer) -> Now {
        Now {
            value: answer.value(),
            new: answer.flag(),
            evicted: self.evicted(answer),
        }
    }

    /// Plain or weighed.
    pub fn kind(&self) -> Kind {
        if self.lists.head[0] == 0 {
            Kind::Plain
        } else {
            Kind::Weighed
        }
    }

    /// How many slots it has.
    pub fn slots(&self) -> u32 {
        self.lists.head[2] as u32
    }

    /// The numbers of the cache, to look at or to copy.
    pub fn lists(&self) -> &Lists {
        &self.lists
    }

    /// How many entries there are.
    pub fn len(&self) -> u64 {
        self.read([number::LEN, 0, 0, 0, 0]).value()
    }

    /// The capacity.
    pub fn capacity(&self) -> u64 {
        self.read([number::CAPACITY, 0, 0, 0, 0]).value()
    }

    /// What the entries weigh together.
    pub fn weight(&self) -> u64 {
        self.read([number::WEIGHT, 0, 0, 0, 0]).value()
    }

    /// Whether there is no entry.
    pub fn is_empty(&self) -> bool {
        self.read([number::IS_EMPTY, 0, 0, 0, 0]).flag()
    }

    /// Whether entries and weight fill the capacity.
    pub fn is_full(&self) -> bool {
        self.read([number::IS_FULL, 0, 0, 0, 0]).flag()
    }

    /// The most recent entry.
    pub fn front(&self) -> Option<Row> {
        self.read([number::FRONT, 0, 0, 0, 0]).entry()
    }

    /// The least recent entry.
    pub fn back(&self) -> Option<Row> {
        self.read([number::BACK, 0, 0, 0, 0]).entry()
    }

    /// The value of a code; it stays where it is.
    pub fn peek(&self, code: u64) -> Option<u64> {
        self.read([number::PEEK, code, 0, 0, 0]).found()
    }

    /// Whether the code is there; it stays where it is.
    pub fn contains(&self, code: u64) -> bool {
        self.read([number::CONTAINS, code, 0, 0, 0]).flag()
    }

    /// All entries, most recent first; `rev()` gives the least recent first.
    ///
    /// ```
    /// # use weavestall::ClaimsCache;
    /// # fn main() -> Result<(), weavestall::Refusal> {
    /// let mut cache = ClaimsCache::plain(3, 3)?;
    /// for code in [1, 2, 3] {
    ///     assert!(cache.put(code, 0, 10 * code)?.evicted().is_empty());
    /// }
    /// let codes: Vec<u64> = cache.iter().map(|row| row.code).collect();
    /// assert_eq!(codes, [3, 2, 1]);
    /// # Ok(())
    /// # }
    /// ```
    pub fn iter(&self) -> std::vec::IntoIter<Row> {
        self.list(number::LIST).into_iter()
    }

    /// All entries, least recent first: `clru`'s `iter().rev()` as one call.
    pub fn iter_back(&self) -> std::vec::IntoIter<Row> {
        self.list(number::LIST_BACK).into_iter()
    }

    /// The value of a code, which moves to the front.
    pub fn get(&mut self, code: u64) -> Option<u64> {
        self.call_surely([number::GET, code, 0, 0, 0]).found()
    }

    /// Removes a code and gives its value.
    pub fn pop(&mut self, code: u64) -> Option<u64> {
        self.call_surely([number::POP, code, 0, 0, 0]).found()
    }

    /// Removes the most recent entry.
    pub fn pop_front(&mut self) -> Option<Row> {
        self.call_surely([number::POP_FRONT, 0, 0, 0, 0]).entry()
    }

    /// Removes the least recent entry.
    pub fn pop_back(&mut self) -> Option<Row> {
        self.call_surely([number::POP_BACK, 0, 0, 0, 0]).entry()
    }

    /// Puts a value on a plain cache. A present code keeps its stamp; a new one pushes out the back of a full cache.
    ///
    /// A put whose answer is not looked at does not pass a build that denies warnings, since evicted rows are in it:
    ///
    /// ```compile_fail
    /// #![deny(unused_must_use)]
    /// # use weavestall::ClaimsCache;
    /// # fn main() -> Result<(), weavestall::Refusal> {
    /// let mut cache = ClaimsCache::plain(2, 2)?;
    /// cache.put(1, 7, 100)?;
    /// # Ok(())
    /// # }
    /// ```
    pub fn put(&mut self, code: u64, stamp: u32, value: u64) -> Result<Put, Refusal> {
        let answer = self.call([number::PUT, code, u64::from(stamp), value, 0])?;
        Ok(self.put_answer(&answer))
    }

    /// Puts an entry with its weight, 0 on a plain cache. A present code is removed first; then entries leave from the
    /// back until the new one fits.
    ///
    /// ```
    /// # use weavestall::{ClaimsCache, Put};
    /// # fn main() -> Result<(), weavestall::Refusal> {
    /// let mut cache = ClaimsCache::weighed(10, 4)?;
    /// assert!(cache.put_with_weight(1, 7, 100, 3)?.evicted().is_empty());
    /// assert!(cache.put_with_weight(2, 7, 200, 4)?.evicted().is_empty());
    /// let put = cache.put_with_weight(1, 8, 101, 5)?;
    /// assert_eq!(put.old(), Some(100));
    /// assert_eq!(put.evicted()[0].code, 2);
    /// # Ok(())
    /// # }
    /// ```
    pub fn put_with_weight(
        &mut self,
        code: u64,
        stamp: u32,
        value: u64,
        weight: u64,
    ) -> Result<Put, Refusal> {
        let answer = self.call([
            number::PUT_WITH_WEIGHT,
            code,
            u64::from(stamp),
            value,
            weight,
        ])?;
        Ok(self.put_answer(&answer))
    }

    /// On a plain cache: puts the amount under a new code, or adds it to a present one, modulo 2^64.
    pub fn put_or_modify(&mut self, code: u64, stamp: u32, amount: u64) -> Result<Now, Refusal> {
        let answer = self.call([number::PUT_OR_MODIFY, code, u64::from(stamp), amount, 0])?;
        Ok(self.now(&answer))
    }

    /// The same up to a ceiling. Above it the value stays, and a present entry has moved to the front.
    ///
    /// ```
    /// # use weavestall::{ClaimsCache, Refusal};
    /// # fn main() -> Result<(), Refusal> {
    /// let mut cache = ClaimsCache::plain(2, 2)?;
    /// assert_eq!(cache.try_put_or_modify(1, 7, 40, 50)?.value, 40);
    /// assert_eq!(cache.try_put_or_modify(1, 7, 20, 50), Err(Refusal::OverCeiling));
    /// assert_eq!(cache.peek(1), Some(40));
    /// # Ok(())
    /// # }
    /// ```
    pub fn try_put_or_modify(
        &mut self,
        code: u64,
        stamp: u32,
        amount: u64,
        ceiling: u64,
    ) -> Result<Now, Refusal> {
        let answer = self.call([
            number::TRY_PUT_OR_MODIFY,
            code,
            u64::from(stamp),
            amount,
            ceiling,
        ])?;
        Ok(self.now(&answer))
    }

    /// Removes every entry and gives their number.
    pub fn clear(&mut self) -> u64 {
        self.call_surely([number::CLEAR, 0, 0, 0, 0]).value()
    }

    /// Keeps the entries that pass the rule; the others are returned, front to back.
    pub fn retain(&mut self, rule: Rule) -> Evicted {
        let [test, not, low, high] = rule.numbers();
        let answer = self.call_surely([number::RETAIN, test, not, low, high]);
        self.evicted(&answer)
    }

    /// Sets the capacity; entries that no longer fit leave from the back.
    pub fn resize(&mut self, capacity: u64) -> Result<Evicted, Refusal> {
        let answer = self.call([number::RESIZE, capacity, 0, 0, 0])?;
        Ok(self.evicted(&answer))
    }

    /// Sets the value of a code, which moves to the front; gives the old value.
    pub fn get_mut(&mut self, code: u64, value: u64) -> Result<Option<u64>, Refusal> {
        Ok(self.call([number::GET_MUT, code, value, 0, 0])?.found())
    }

    /// Sets the value of a code, which stays where it is; gives the old value.
    pub fn peek_mut(&mut self, code: u64, value: u64) -> Result<Option<u64>, Refusal> {
        Ok(self.call([number::PEEK_MUT, code, value, 0, 0])?.found())
    }

    /// Sets the value of the most recent entry; gives the old value.
    pub fn front_mut(&mut self, value: u64) -> Result<Option<u64>, Refusal> {
        Ok(self.call([number::FRONT_MUT, value, 0, 0, 0])?.found())
    }

    /// Sets the value of the least recent entry; gives the old value.
    pub fn back_mut(&mut self, value: u64) -> Result<Option<u64>, Refusal> {
        Ok(self.call([number::BACK_MUT, value, 0, 0, 0])?.found())
    }
}

impl Debug for ClaimsCache {
    fn fmt(&self, f: &mut Formatter<'_>) -> fmt::Result {
        f.debug_struct("ClaimsCache")
            .field("kind", &self.kind())
            .field("capacity", &self.capacity())
            .field("slots", &self.slots())
            .field("weight", &self.weight())
            .field("rows", &self.iter().as_slice())
            .finish()
    }
}

impl IntoIterator for &ClaimsCache {
    type Item = Row;
    type IntoIter = std::vec::IntoIter<Row>;

    fn into_iter(self) -> Self::IntoIter {
        self.iter()
    }
}

fn written(rows: &RowLists, count: usize) -> Vec<Row> {
    (0..count)
        .map(|at| Row {
            code: rows.codes[at],
            stamp: rows.stamps[at],
            value: rows.values[at],
            weight: rows.weights[at],
        })
        .collect()
}

fn refusal(number: u32) -> Refusal {
    Refusal::of(number).expect("the proved functions answer 0 to 8")
}

/// For calls that only an unsound cache or a short row list has refused, neither of which an owner of its lists has.
fn sure(number: u32) {
    assert!(number == 0, "{}", refusal(number));
}
