//! The same calls by eight threads at a time, on inputs that they share.

use crate::lent::{Inputs, Memory};
use crate::{place_of, Made};
use reference::generate::Random;
use reference::promises::ANSWERS;
use std::collections::BTreeSet;
use std::sync::Barrier;
use std::thread::scope;

/// So many threads make the calls, each of them so often.
const THREADS: usize = 8;
const TIMES: usize = 2;

/// One of the threads: all begin with the calls of an operation at the same time, each with another
/// call.
struct Thread<'a> {
    number: usize,
    memory: Memory,
    random: Random,
    start: &'a Barrier,
}

impl Thread<'_> {
    /// Whether a call gives something else than it gave by itself.
    fn differs(&mut self, made: &Made) -> bool {
        let Made { case, call, before, given } = made;
        self.memory.call(&mut self.random, *case, call, Inputs::Shared, before) != *given
    }

    /// The places of calls that give something else.
    fn differing(mut self, made: &[Made]) -> BTreeSet<usize> {
        let mut differing = BTreeSet::new();
        for operation in 0..ANSWERS.len() {
            let of = |place: &usize| place_of(made[*place].case) == operation;
            let mut places: Vec<usize> = (0..made.len()).filter(of).collect();
            let first = self.number % places.len().max(1);
            places.rotate_left(first);
            self.start.wait();
            let all = places.repeat(TIMES);
            differing.extend(all.into_iter().filter(|&place| self.differs(&made[place])));
        }
        differing
    }
}

/// The places of calls that give something else when eight threads make all of them at a time.
pub fn differing(made: &[Made]) -> BTreeSet<usize> {
    let barrier = Barrier::new(THREADS);
    let thread = |number| {
        let (memory, random) = (Memory::new(), Random::new(number as u64));
        Thread { number, memory, random, start: &barrier }
    };
    scope(|scope| {
        let start = |number| scope.spawn(move || thread(number).differing(made));
        let started: Vec<_> = (0..THREADS).map(start).collect();
        started.into_iter().flat_map(|thread| thread.join().expect("a thread ends")).collect()
    })
}
