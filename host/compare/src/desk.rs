//! The one desk where a queue of the library is held to its model: each call is made on both, and everything is compared and counted.

use models::{Causes, No};
use std::fmt::Debug;
use std::ops::{Deref, DerefMut};

/// A queue as the desk sees it: what its calls are, what they are made on, and how each side makes them.
pub trait Subject {
    /// All that a call is lent. The two sides have one each.
    type Store: Clone + Same;
    /// A call as data, with the length of the `out` that it is given.
    type Call: Debug;
    /// The calls that are counted apart, by their names.
    const CALLS: &'static [&'static str];

    /// Which of them this call is.
    fn kind(call: &Self::Call) -> usize;
    /// The length of its `out`, at most that of [`STALE`].
    fn out(call: &Self::Call) -> usize;
    /// The library's call: its number.
    fn library(call: &Self::Call, store: &mut Self::Store, out: &mut [u32]) -> u32;
    /// The model's call, and why it refused.
    fn model(call: &Self::Call, store: &mut Self::Store, out: &mut [u32]) -> Result<(), No>;
}

/// What two sides can be compared by.
pub trait Same {
    /// The first difference, if any.
    fn difference(&self, model: &Self) -> Option<String>;
}

/// Who makes a call: the library, or the model in its place.
#[derive(Clone, Copy, PartialEq, Eq, Debug)]
pub enum Who {
    Library,
    Model,
}

impl Who {
    /// Makes a call: its number.
    pub fn call<S: Subject>(self, call: &S::Call, store: &mut S::Store, out: &mut [u32]) -> u32 {
        match self {
            Who::Library => S::library(call, store, out),
            Who::Model => S::model(call, store, out).map_or_else(No::number, |()| 0),
        }
    }
}

/// What `out` holds before each call.
pub const STALE: [u32; 4] = [0xdead_0001, 0xdead_0002, 0xdead_0003, 0xdead_0004];

/// Words, or records, that stand behind those of a slice: nothing may touch them.
pub const GUARD: usize = 8;

/// A slice that calls are lent, with others behind it.
#[derive(Clone, PartialEq, Eq, Debug)]
pub struct Lent<T> {
    all: Vec<T>,
    len: usize,
}

/// What stands behind a slice.
pub trait Guard: Copy + PartialEq + Debug {
    const GUARD: Self;
}
impl Guard for u32 {
    const GUARD: u32 = 0x5a5a_5a5a;
}
impl Guard for u64 {
    const GUARD: u64 = 0x5a5a_5a5a_5a5a_5a5a;
}
impl<const N: usize> Guard for [u32; N] {
    const GUARD: [u32; N] = [0x5a5a_5a5a; N];
}

impl<T: Guard> From<Vec<T>> for Lent<T> {
    fn from(mut all: Vec<T>) -> Lent<T> {
        let len = all.len();
        all.resize(len + GUARD, T::GUARD);
        Lent { all, len }
    }
}

impl<T: Guard> Lent<T> {
    /// Lends so many fewer; what is cut off stands behind.
    pub fn shorten(&mut self, by: usize) {
        self.len -= by;
    }

    /// Lends so many more, of those that stand behind.
    pub fn lengthen(&mut self, by: usize) {
        self.len += by;
    }

    fn difference(&self, name: &str, model: &Lent<T>) -> Option<String> {
        first(name, &self.all, &model.all)
    }
}

impl<T> Deref for Lent<T> {
    type Target = [T];
    fn deref(&self) -> &[T] {
        &self.all[..self.len]
    }
}

impl<T> DerefMut for Lent<T> {
    fn deref_mut(&mut self) -> &mut [T] {
        &mut self.all[..self.len]
    }
}

/// Where two slices differ first.
pub fn first<T: PartialEq + Debug>(name: &str, a: &[T], b: &[T]) -> Option<String> {
    if a == b {
        return None;
    }
    let at = (0..a.len()).find(|&i| a[i] != b[i])?;
    Some(format!("{name} {at}: {:?}, the model says {:?}", a[at], b[at]))
}

/// What most queues are lent: the numbers of a shape, and slices of which a queue has some. A record is N numbers.
#[derive(Clone, Debug)]
pub struct Store<const N: usize = 0> {
    pub shape: [u32; 3],
    pub words: Lent<u32>,
    pub bits: Lent<u64>,
    pub state: Lent<u32>,
    pub records: Lent<[u32; N]>,
}

impl<const N: usize> Store<N> {
    /// Words of 32 bits alone, of a queue with two numbers of shape.
    pub fn of(shape: (u32, u32), words: Vec<u32>) -> Store<N> {
        let (bits, state, records) = (vec![].into(), vec![].into(), vec![].into());
        Store { shape: [shape.0, shape.1, 0], words: words.into(), bits, state, records }
    }
}

impl<const N: usize> Same for Store<N> {
    fn difference(&self, model: &Store<N>) -> Option<String> {
        let words = self.words.difference("word", &model.words);
        let bits = || self.bits.difference("word of bits", &model.bits);
        let state = || self.state.difference("word of the state", &model.state);
        words.or_else(bits).or_else(state).or_else(|| self.records.difference("record", &model.records))
    }
}

/// Makes a call of the library on records as structs in a host's memory. Behind them stand others, which the call may not touch.
pub fn as_structs<R, const N: usize>(records: &mut [[u32; N]], call: impl FnOnce(&mut [R]) -> u32) -> u32
where
    R: From<[u32; N]> + Into<[u32; N]> + Copy,
{
    let mut memory: Vec<R> = records.iter().map(|record| R::from(*record)).collect();
    memory.resize(records.len() + GUARD, R::from(Guard::GUARD));
    let number = call(&mut memory[..records.len()]);
    for (to, from) in records.iter_mut().zip(&memory) {
        *to = (*from).into();
    }
    let whole = memory[records.len()..].iter().all(|record| (*record).into() == <[u32; N]>::GUARD);
    assert!(whole, "a record behind the slice was written");
    number
}

/// What was answered by one of a queue's calls.
#[derive(Clone)]
pub struct Row {
    pub name: &'static str,
    /// How often each number.
    pub numbers: [u64; 13],
    /// How often one clause alone made it damaged, and how often a clause was among others.
    pub alone: [u64; 64],
    pub met: [u64; 64],
    /// How often one cause alone made it refuse 1.
    pub shapes: [u64; 64],
}

/// What was answered by all of them.
#[derive(Clone)]
pub struct Tally {
    pub rows: Vec<Row>,
    pub calls: u64,
}

/// The bits that were counted at least once.
fn bits(counts: &[u64; 64]) -> Causes {
    (0..64).filter(|&bit| counts[bit] > 0).map(|bit| 1 << bit).sum()
}

impl Row {
    /// The clauses that made it damaged by themselves.
    pub fn clauses_alone(&self) -> Causes {
        bits(&self.alone)
    }

    /// The clauses that were met, alone or among others.
    pub fn clauses(&self) -> Causes {
        bits(&self.met)
    }
}

impl Tally {
    pub fn of<S: Subject>() -> Tally {
        let row = |name: &&'static str| Row { name, numbers: [0; 13], alone: [0; 64], met: [0; 64], shapes: [0; 64] };
        Tally { rows: S::CALLS.iter().map(row).collect(), calls: 0 }
    }

    fn count(&mut self, kind: usize, refused: Option<No>) {
        let row = &mut self.rows[kind];
        self.calls += 1;
        row.numbers[refused.map_or(0, No::number) as usize] += 1;
        let sole = |causes: Causes| causes.count_ones() == 1;
        match refused {
            Some(No::Damaged(causes)) => {
                for bit in (0..64).filter(|bit| causes >> bit & 1 == 1) {
                    row.met[bit] += 1;
                    row.alone[bit] += u64::from(sole(causes));
                }
            }
            Some(No::BadShape(causes)) if sole(causes) => row.shapes[causes.trailing_zeros() as usize] += 1,
            _ => {}
        }
    }

    /// Adds what another has counted.
    pub fn add(&mut self, more: &Tally) {
        let sum = |a: &mut [u64], b: &[u64]| a.iter_mut().zip(b).for_each(|(a, b)| *a += b);
        self.calls += more.calls;
        for (a, b) in self.rows.iter_mut().zip(&more.rows) {
            sum(&mut a.numbers, &b.numbers);
            sum(&mut a.alone, &b.alone);
            sum(&mut a.met, &b.met);
            sum(&mut a.shapes, &b.shapes);
        }
    }

    /// Each call gave each of the numbers that it can give here, and no other.
    pub fn gave(&self, can: &[&[usize]]) {
        assert_eq!(self.rows.len(), can.len());
        for (row, can) in self.rows.iter().zip(can) {
            for (number, &times) in row.numbers.iter().enumerate() {
                assert_eq!(times > 0, can.contains(&number), "{}, number {number}: {times} times", row.name);
            }
        }
    }
}

/// A library's store beside the model's.
pub struct Desk<S: Subject> {
    pub library: S::Store,
    pub model: S::Store,
    /// What the last call left in `out` on either side.
    pub outs: [[u32; 4]; 2],
    /// Why the model refused it.
    pub refused: Option<No>,
    /// Who makes the library's calls: the model, where the desk is to be tested itself.
    pub who: Who,
}

impl<S: Subject> Clone for Desk<S> {
    fn clone(&self) -> Desk<S> {
        Desk { library: self.library.clone(), model: self.model.clone(), ..*self }
    }
}

impl<S: Subject> Desk<S> {
    pub fn new(store: S::Store) -> Desk<S> {
        Desk { library: store.clone(), model: store, outs: [STALE; 2], refused: None, who: Who::Library }
    }

    /// Changes both stores alike.
    pub fn change(&mut self, change: impl Fn(&mut S::Store)) {
        change(&mut self.library);
        change(&mut self.model);
    }

    /// Makes a call on both sides and compares the number and `out`, and, where it is asked for, everything. Gives the number.
    pub fn made(&mut self, tally: &mut Tally, call: &S::Call, everything: bool) -> Result<u32, String> {
        self.outs = [STALE; 2];
        let (len, [out, plain]) = (S::out(call), &mut self.outs);
        let number = self.who.call::<S>(call, &mut self.library, &mut out[..len]);
        self.refused = S::model(call, &mut self.model, &mut plain[..len]).err();
        tally.count(S::kind(call), self.refused);
        let expected = self.refused.map_or(0, No::number);
        if number != expected {
            return Err(format!("answered number {number}, the model says {expected}, {:?}", self.refused));
        }
        let told = first("out word", &self.outs[0], &self.outs[1]);
        let told = told.or_else(|| if everything { self.library.difference(&self.model) } else { None });
        told.map_or(Ok(number), |what| Err(format!("(number {number}): {what}")))
    }

    /// One call on both sides: the same number, the same `out`, and the same words afterwards. Gives the number and `out`.
    pub fn both(&mut self, tally: &mut Tally, call: S::Call) -> (u32, Vec<u32>) {
        match self.made(tally, &call, true) {
            Ok(number) => (number, self.outs[0][..S::out(&call)].to_vec()),
            Err(what) => panic!("call {} of the tally, {call:?} {what}", tally.calls),
        }
    }
}
