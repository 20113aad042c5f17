//! Hands every function of the library inputs that are changed from the examples, each slice at a page
//! without access, and tests what is promised of every call; and makes the same calls by eight
//! threads at a time.
//!
//! Usage: fuzz [--seed N] [--seconds N] [--cases N] [--first N]

#![deny(unsafe_code)]

mod cases;
mod guard;
mod lent;
mod mutate;
mod seeds;
mod threads;
mod traps;

use cases::{call, with_room};
use lent::{access_wrongly, Given, Inputs, Memory, WRONG_ACCESSES};
use reference::call::{Answer, Buffers, Call, Input};
use reference::generate::Random;
use reference::promises::{broken, ANSWERS};
use seeds::Seeds;
use std::process::{Command, ExitCode};
use std::time::{Duration, Instant};
use threads::differing;

/// Numbers are counted by their place.
const NUMBERS: usize = 27;
/// So many cases are made between two looks at the clock, and of these so many are made by threads.
const ROUND: u64 = 1700;
const BY_THREADS: usize = 8 * ANSWERS.len();
/// One case in so many is compared with the reference too.
const COMPARED: usize = 4;
/// A round that takes longer than so many seconds does not end.
const LONGEST_ROUND: u32 = 120;
/// Failures are printed up to this number.
const SHOWN: usize = 5;
/// What declares the functions.
const HEADER: &str = include_str!("../../../include/algebra.h");
/// The option by which the program makes a wrong access on purpose.
const WRONG_ACCESS: &str = "--wrong-access";

/// A call that was made, with what it gave.
pub struct Made {
    pub case: u64,
    pub call: Call,
    pub before: Buffers,
    pub given: Given,
}

/// What was found of one operation: how often each number was answered, and what failed, of calls
/// by themselves and of calls by threads.
#[derive(Default)]
struct Found {
    numbers: [u64; NUMBERS],
    failed: u64,
    by_threads: u64,
    failed_by_threads: u64,
}

/// What the arguments ask for.
struct Request {
    seed: u64,
    seconds: u64,
    cases: u64,
    first: u64,
}

/// All that is found, and what is needed to find it.
struct Fuzzing {
    seed: u64,
    seeds: Seeds,
    memory: Memory,
    found: [Found; ANSWERS.len()],
    shown: usize,
}

/// The random numbers of a case.
fn random_of(seed: u64, case: u64) -> Random {
    Random::new(Random::new(seed).bits().wrapping_add(case.wrapping_mul(0xD134_2543_DE82_EF95)))
}

/// The place of the operation of a case in the list of all: each has its turn.
fn place_of(case: u64) -> usize {
    (case % ANSWERS.len() as u64) as usize
}

/// Bytes as two hexadecimal digits each; of many the first ones.
fn hexadecimal(bytes: &[u8]) -> String {
    bytes.iter().take(2000).map(|byte| format!("{byte:02X}")).collect()
}

/// What is wrong with a call that was made, if anything.
fn wrong(made: &Made, compared: bool) -> Option<String> {
    let Made { call, before, given, .. } = made;
    if let Some(what) = broken(call, &given.answer, before, &given.buffers) {
        return Some(what.to_string());
    }
    if !given.beside_kept {
        return Some("bytes beside what was lent are changed".to_string());
    }
    let mut buffers = before.clone();
    let expected = if compared { call.by_reference(&mut buffers) } else { given.answer };
    let alike = expected == given.answer && (!compared || buffers == given.buffers);
    (!alike).then(|| format!("the reference answers {expected:?}, or leaves other bytes"))
}

impl Fuzzing {
    /// Tells a failure with all that is needed to repeat it.
    fn tell(&mut self, made: &Made, what: &str) {
        self.shown += 1;
        if self.shown > SHOWN {
            return;
        }
        println!("FAILED: {}: {what}", made.call.operation());
        println!("  to repeat it: --seed {} --first {} --cases 1", self.seed, made.case);
        println!("  library: {:?}", made.given.answer);
        for (name, input) in made.call.inputs() {
            match input {
                Input::Bytes(bytes) => {
                    println!("  {name} ({} bytes): {}", bytes.len(), hexadecimal(bytes));
                }
                Input::Number(number) => println!("  {name}: {number}"),
            }
        }
    }

    /// Makes a call and tests what is promised of it.
    fn make(&mut self, random: &mut Random, case: u64, call: Call, compared: bool) -> Made {
        let before = call.buffers().marked(random);
        let given = self.memory.call(random, case, &call, Inputs::Guarded, &before);
        let made = Made { case, call, before, given };
        let found = &mut self.found[place_of(case)];
        if let Some(count) = found.numbers.get_mut(made.given.answer.number as usize) {
            *count += 1;
        }
        if let Some(what) = wrong(&made, compared) {
            found.failed += 1;
            self.tell(&made, &what);
        }
        made
    }

    /// Makes an accepted call again with an output of exactly the bytes of its result, which must
    /// give the same, and with one byte less, which must be refused.
    fn make_exactly(&mut self, random: &mut Random, made: &Made) {
        let Answer { length, index_length, .. } = made.given.answer;
        let (length, index_length) = (length as usize, index_length as usize);
        let shorter = [(length, index_length, 0)].into_iter();
        let short = length.checked_sub(1).map(|short| (short, index_length, 17));
        let short_index = index_length.checked_sub(1).map(|short| (length, short, 17));
        for (output, index, number) in shorter.chain(short).chain(short_index) {
            let Some(call) = with_room(&made.call, output, index) else { return };
            let again = self.make(random, made.case, call, false);
            let result = |given: &Given| given.buffers.output[..length].to_vec();
            let given = &again.given;
            if given.answer.number != number || number == 0 && result(given) != result(&made.given)
            {
                self.found[place_of(made.case)].failed += 1;
                self.tell(&again, "it is not as with a longer output, or as without enough");
            }
        }
    }

    /// Tries one case.
    fn try_case(&mut self, case: u64) -> Made {
        let mut random = random_of(self.seed, case);
        let call = call(&mut random, &self.seeds, place_of(case));
        let compared = random.below(COMPARED) == 0;
        let made = self.make(&mut random, case, call, compared);
        if made.given.answer.number == 0 && random.percent(50) {
            self.make_exactly(&mut random, &made);
        }
        made
    }

    /// Tries some cases one by one, and the first of them by eight threads at a time.
    fn try_round(&mut self, first: u64, end: u64) {
        traps::allow_seconds(LONGEST_ROUND);
        let made: Vec<Made> = (first..end).map(|case| self.try_case(case)).collect();
        let some = &made[..made.len().min(BY_THREADS)];
        for made in some {
            self.found[place_of(made.case)].by_threads += 1;
        }
        for place in differing(some) {
            self.found[place_of(some[place].case)].failed_by_threads += 1;
            self.tell(&some[place], "another thread's call gives something else");
        }
        traps::allow_seconds(0);
    }

    /// How many passed and failed of a few cases that were asked for.
    fn few(&self, cases: u64) -> (u64, u64) {
        let failed = self.found.iter().map(|found| found.failed + found.failed_by_threads).sum();
        (cases.saturating_sub(failed), failed)
    }

    /// Prints what was found of each operation; gives how many passed and failed, by themselves and
    /// by threads.
    fn print(&self) -> (u64, u64) {
        let mut failed = 0;
        for (found, (name, _)) in self.found.iter().zip(ANSWERS) {
            let calls: u64 = found.numbers.iter().sum();
            let numbers = (0..NUMBERS).filter(|&number| found.numbers[number] > 0);
            let told: Vec<String> =
                numbers.map(|number| format!("{number}: {}", found.numbers[number])).collect();
            println!("{name}: {calls} calls, answers {}", told.join(", "));
            println!("  by eight threads: {} calls by each", found.by_threads);
            let failures = [found.failed, found.failed_by_threads];
            let missing = found.numbers[0] == 0 || found.by_threads == 0;
            if missing || failures != [0, 0] {
                println!(
                    "FAILED: {name}: {failures:?}{}",
                    if missing { ", not tried" } else { "" }
                );
            }
            failed += u64::from(found.failed > 0 || found.numbers[0] == 0);
            failed += u64::from(found.failed_by_threads > 0 || found.by_threads == 0);
        }
        (2 * ANSWERS.len() as u64 - failed, failed)
    }
}

/// Tests that wrong accesses are seen and told: this program makes each in a process of its own.
fn wrong_accesses_told() -> (u64, u64) {
    let program = std::env::current_exe().expect("the program knows itself");
    let told = |which: &u32| {
        let which = which.to_string();
        let made = Command::new(&program).args([WRONG_ACCESS, &which]).output();
        let said = made.map_or(vec![], |made| made.stdout);
        let told = String::from_utf8_lossy(&said).contains("TRAP: signal 11");
        if !told {
            println!("FAILED: wrong access {which} is not told");
        }
        told
    };
    let passed = (0..WRONG_ACCESSES).filter(told).count() as u64;
    (passed, u64::from(WRONG_ACCESSES) - passed)
}

/// Tests that each function that the header declares is tried.
fn header_tried() -> (u64, u64) {
    let declared = HEADER.lines().filter_map(|line| line.strip_prefix("uint32_t algebra_"));
    let names = declared.filter_map(|line| line.split('(').next());
    let tried = |name: &&str| ANSWERS.iter().any(|(operation, _)| operation == name);
    let untried: Vec<&str> = names.filter(|name| !tried(name)).collect();
    untried.iter().for_each(|name| println!("FAILED: algebra_{name} is not tried"));
    (u64::from(untried.is_empty()), untried.len() as u64)
}

/// Reads the arguments, if they are right.
fn request(mut arguments: impl Iterator<Item = String>) -> Option<Request> {
    let mut request = Request { seed: 1, seconds: 40, cases: 2_000_000, first: 0 };
    while let Some(argument) = arguments.next() {
        let number = arguments.next()?.parse().ok()?;
        match argument.as_str() {
            "--seed" => request.seed = number,
            "--seconds" => request.seconds = number,
            "--cases" => request.cases = number,
            "--first" => request.first = number,
            WRONG_ACCESS => {
                traps::handle(0);
                access_wrongly(number as u32);
                return None;
            }
            _ => return None,
        }
    }
    Some(request)
}

/// Tries cases until there are enough or the time is over; gives what was found, and how many.
fn fuzz(request: &Request) -> (Fuzzing, u64) {
    let seeds = Seeds::read();
    assert!(seeds.counts().iter().all(|&count| count > 0), "the examples have all sorts");
    let found = std::array::from_fn(|_| Found::default());
    let mut fuzzing = Fuzzing { seed: request.seed, seeds, memory: Memory::new(), found, shown: 0 };
    let (start, end) = (Instant::now(), request.first + request.cases);
    let mut next = request.first;
    while next < end && start.elapsed() < Duration::from_secs(request.seconds) {
        let round_end = end.min(next + ROUND);
        fuzzing.try_round(next, round_end);
        next = round_end;
    }
    (fuzzing, next - request.first)
}

fn main() -> ExitCode {
    let Some(request) = request(std::env::args().skip(1)) else {
        eprintln!("usage: fuzz [--seed N] [--seconds N] [--cases N] [--first N]");
        return ExitCode::from(2);
    };
    traps::handle(request.seed);
    let start = Instant::now();
    let (fuzzing, cases) = fuzz(&request);
    let results = match cases < ANSWERS.len() as u64 {
        true => vec![fuzzing.few(cases)],
        false => vec![fuzzing.print(), wrong_accesses_told(), header_tried()],
    };
    println!("{cases} cases, seed {}, {:.1} s", request.seed, start.elapsed().as_secs_f64());
    let (passed, failed) = results.iter().fold((0, 0), |sum, two| (sum.0 + two.0, sum.1 + two.1));
    println!("{passed} passed, {failed} failed");
    ExitCode::from(u8::from(failed > 0))
}
