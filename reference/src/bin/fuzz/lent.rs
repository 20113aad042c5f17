//! Calls of the C interface on lent memory: inputs that can only be read, outputs, workspace and
//! figures, each at a page without access.
#![allow(unsafe_code)]

use crate::guard::{Guarded, Side};
use crate::traps;
use reference::call::{Answer, Buffers, Call};
use reference::generate::Random;
use reference::interface::*;
use std::ptr::{null, null_mut};

/// The most inputs and figures of a call.
const INPUTS: usize = 6;
const FIGURES: usize = 3;
/// So many bytes have room at first; there is more where it is needed.
const ROOM: usize = 1 << 17;
/// Figures hold this byte before a call.
const NOT_STORED: u8 = 0xC3;

/// A slice that is lent for reading, and one for writing.
type In = (*const u8, usize);
type Out = (*mut u8, usize);

/// What a function is handed.
struct Handed {
    inputs: [In; INPUTS],
    root: u32,
    number: u32,
    workspace: Out,
    output: Out,
    index: Out,
    figures: [*mut u8; FIGURES],
}

/// A figure of an answer.
#[derive(Clone, Copy)]
enum Figure {
    Length,
    IndexLength,
    Start,
    Kind,
    Name,
    Arguments,
    Position,
    Score,
    Least,
    Greatest,
    Cost,
}

/// A function of the C interface: the figures that it stores, in order, and how it is called.
struct Function {
    operation: &'static str,
    figures: &'static [Figure],
    call: unsafe fn(&Handed) -> u32,
}

/// All functions of the C interface.
const FUNCTIONS: [Function; 17] = [
    Function {
        operation: "check_language",
        figures: &[],
        call: |Handed { inputs: [a, ..], .. }| unsafe { algebra_check_language(a.0, a.1) },
    },
    Function {
        operation: "check_translation",
        figures: &[],
        call: |Handed { inputs: [a, ..], .. }| unsafe { algebra_check_translation(a.0, a.1) },
    },
    Function {
        operation: "check_tree",
        figures: &[],
        call: |Handed { inputs: [a, b, ..], root, .. }| unsafe {
            algebra_check_tree(a.0, a.1, *root, b.0, b.1)
        },
    },
    Function {
        operation: "reduce",
        figures: &[Figure::Length],
        call: |Handed { inputs: [a, ..], workspace: w, output: o, figures: [f, ..], .. }| unsafe {
            algebra_reduce(a.0, a.1, w.0, w.1, o.0, o.1, f.cast())
        },
    },
    Function {
        operation: "run",
        figures: &[Figure::Length, Figure::Cost],
        call: |Handed {
                   inputs: [a, b, ..], root, number, output: o, figures: [f, g, _], ..
               }| unsafe {
            algebra_run(a.0, a.1, *root, *number, b.0, b.1, o.0, o.1, f.cast(), g.cast())
        },
    },
    Function {
        operation: "score",
        figures: &[Figure::Score],
        call: |Handed { inputs: [a, b, c, ..], root, figures: [f, ..], .. }| unsafe {
            algebra_score(a.0, a.1, *root, b.0, b.1, c.0, c.1, f.cast())
        },
    },
    Function {
        operation: "score_loose",
        figures: &[Figure::Least, Figure::Greatest],
        call: |Handed { inputs: [a, b, c, ..], root, figures: [f, g, _], .. }| unsafe {
            algebra_score_loose(a.0, a.1, *root, b.0, b.1, c.0, c.1, f.cast(), g.cast())
        },
    },
    Function {
        operation: "join_table",
        figures: &[Figure::Length],
        call: |Handed { inputs: [a, b, ..], output: o, figures: [f, ..], .. }| unsafe {
            algebra_join_table(a.0, a.1, b.0, b.1, o.0, o.1, f.cast())
        },
    },
    Function {
        operation: "export",
        figures: &[Figure::Length],
        call: |Handed { inputs: [a, b, ..], root, output: o, figures: [f, ..], .. }| unsafe {
            algebra_export(a.0, a.1, *root, b.0, b.1, o.0, o.1, f.cast())
        },
    },
    Function {
        operation: "import",
        figures: &[Figure::Length],
        call: |Handed { inputs: [a, b, ..], root, output: o, figures: [f, ..], .. }| unsafe {
            algebra_import(a.0, a.1, *root, b.0, b.1, o.0, o.1, f.cast())
        },
    },
    Function {
        operation: "index",
        figures: &[Figure::Length],
        call: |Handed { inputs: [a, b, ..], root, output: o, figures: [f, ..], .. }| unsafe {
            algebra_index(a.0, a.1, *root, b.0, b.1, o.0, o.1, f.cast())
        },
    },
    Function {
        operation: "block",
        figures: &[Figure::Start, Figure::Length, Figure::Kind],
        call: |Handed { inputs: [a, b, c, d, ..], root, figures: [f, g, h], .. }| unsafe {
            let (start, length, kind) = (f.cast(), g.cast(), h.cast());
            algebra_block(a.0, a.1, *root, b.0, b.1, c.0, c.1, d.0, d.1, start, length, kind)
        },
    },
    Function {
        operation: "node",
        figures: &[Figure::Kind, Figure::Name, Figure::Arguments],
        call: |Handed { inputs: [a, b, c, d, ..], root, figures: [f, g, h], .. }| unsafe {
            let (kind, name, arguments) = (f.cast(), g.cast(), h.cast());
            algebra_node(a.0, a.1, *root, b.0, b.1, c.0, c.1, d.0, d.1, kind, name, arguments)
        },
    },
    Function {
        operation: "locate",
        figures: &[Figure::Position],
        call: |Handed { inputs: [a, b, ..], root, figures: [f, ..], .. }| unsafe {
            algebra_locate(a.0, a.1, *root, b.0, b.1, f.cast())
        },
    },
    Function {
        operation: "edit",
        figures: &[Figure::Length, Figure::IndexLength],
        call: |handed| unsafe {
            let Handed { inputs: [a, b, c, d, e, f], root, output: o, index: i, .. } = handed;
            let [length, index_length, _] = handed.figures.map(|figure| figure.cast());
            algebra_edit(
                a.0,
                a.1,
                *root,
                b.0,
                b.1,
                c.0,
                c.1,
                d.0,
                d.1,
                e.0,
                e.1,
                f.0,
                f.1,
                o.0,
                o.1,
                i.0,
                i.1,
                length,
                index_length,
            )
        },
    },
    Function {
        operation: "mask",
        figures: &[Figure::Length],
        call: |Handed { inputs: [a, b, c, ..], root, output: o, figures: [f, ..], .. }| unsafe {
            algebra_mask(a.0, a.1, *root, b.0, b.1, c.0, c.1, o.0, o.1, f.cast())
        },
    },
    Function {
        operation: "search",
        figures: &[Figure::Length],
        call: |handed| unsafe {
            let Handed { inputs: [a, b, ..], root, number, workspace: w, output: o, .. } = handed;
            let length = handed.figures[0].cast();
            algebra_search(a.0, a.1, *root, b.0, b.1, *number, w.0, w.1, o.0, o.1, length)
        },
    },
];

impl Figure {
    /// The bytes that it has.
    fn length(self) -> usize {
        match self {
            Figure::Kind | Figure::Name | Figure::Arguments | Figure::Cost => 4,
            _ => 8,
        }
    }

    /// Puts the figure that was stored into an answer.
    fn put(self, stored: &[u8], answer: &mut Answer) {
        let mut bytes = [0; 8];
        bytes[..stored.len()].copy_from_slice(stored);
        let number = u64::from_le_bytes(bytes);
        match self {
            Figure::Length => answer.length = number,
            Figure::IndexLength => answer.index_length = number,
            Figure::Start => answer.start = number,
            Figure::Kind => answer.kind = number as u32,
            Figure::Name => answer.name = number as u32,
            Figure::Arguments => answer.arguments = number as u32,
            Figure::Position => answer.position = number,
            Figure::Score => answer.score = number as i64,
            Figure::Least => answer.ends[0] = number as i64,
            Figure::Greatest => answer.ends[1] = number as i64,
            Figure::Cost => answer.cost = number as u32,
        }
    }
}

/// The function of an operation.
fn function(operation: &str) -> &'static Function {
    let found = FUNCTIONS.iter().find(|function| function.operation == operation);
    found.expect("each operation has a function")
}

/// Where the inputs of a call are.
#[derive(Clone, Copy, PartialEq, Eq)]
pub enum Inputs {
    /// Each in memory of its own, which can only be read, at a page without access.
    Guarded,
    /// Where the call has them, for all that make it at the same time.
    Shared,
}

/// What a call gave: the answer, the buffers, and whether all beside what was lent is as it was.
#[derive(Clone, Debug, PartialEq, Eq)]
pub struct Given {
    pub answer: Answer,
    pub buffers: Buffers,
    pub beside_kept: bool,
}

/// Memory for the calls of one thread.
pub struct Memory {
    inputs: [Guarded; INPUTS],
    workspace: Guarded,
    output: Guarded,
    index: Guarded,
    figures: [Guarded; FIGURES],
}

/// One side or the other.
fn side(random: &mut Random) -> Side {
    random.pick(&[Side::End, Side::End, Side::Start])
}

impl Memory {
    /// Memory in which nothing is lent.
    pub fn new() -> Memory {
        let room = || Guarded::new(ROOM);
        Memory {
            inputs: std::array::from_fn(|_| room()),
            workspace: room(),
            output: room(),
            index: room(),
            figures: std::array::from_fn(|_| Guarded::new(FIGURES)),
        }
    }

    /// Lends the inputs of a call. A pointer to nothing is null, or leads to a page without access.
    fn lend_inputs(
        &mut self,
        random: &mut Random,
        call: &Call,
        where_from: Inputs,
    ) -> [In; INPUTS] {
        let mut lent = [(null(), 0); INPUTS];
        for (place, (_, bytes)) in call.files().into_iter().enumerate() {
            let pointer = match where_from {
                _ if bytes.is_empty() && random.percent(50) => null(),
                Inputs::Shared => bytes.as_ptr(),
                Inputs::Guarded => self.inputs[place].lend(bytes, side(random)),
            };
            lent[place] = (pointer, bytes.len());
        }
        lent
    }

    /// Lends a buffer for writing.
    fn lend_buffer(random: &mut Random, memory: &mut Guarded, bytes: &[u8]) -> Out {
        let lent = memory.lend_written(bytes, side(random));
        let pointer = if bytes.is_empty() && random.percent(50) { null_mut() } else { lent };
        (pointer, bytes.len())
    }

    /// Lends the figures of a function; the others are not handed over.
    fn lend_figures(&mut self, random: &mut Random, function: &Function) -> [*mut u8; FIGURES] {
        let mut lent = [null_mut(); FIGURES];
        for (place, figure) in function.figures.iter().enumerate() {
            let bytes = [NOT_STORED; 8];
            lent[place] = self.figures[place].lend_written(&bytes[..figure.length()], side(random));
        }
        lent
    }

    /// Makes a call that belongs to a case, with buffers that hold these bytes before it. What the
    /// random numbers choose is on which sides of the lent memory there is no access.
    pub fn call(
        &mut self,
        random: &mut Random,
        case: u64,
        call: &Call,
        where_from: Inputs,
        before: &Buffers,
    ) -> Given {
        let function = function(call.operation());
        let handed = Handed {
            inputs: self.lend_inputs(random, call, where_from),
            root: call.root().unwrap_or_default(),
            number: call.number().map_or(0, |(_, number)| number),
            workspace: Memory::lend_buffer(random, &mut self.workspace, &before.workspace),
            output: Memory::lend_buffer(random, &mut self.output, &before.output),
            index: Memory::lend_buffer(random, &mut self.index, &before.index),
            figures: self.lend_figures(random, function),
        };
        traps::enter(function.operation, case);
        // SAFETY: pointers and lengths are those of memory that is lent for the call; what is lent
        // for writing overlaps nothing, and the figures have their lengths.
        let number = unsafe { (function.call)(&handed) };
        traps::leave();
        self.given(number, function)
    }

    /// What a call gave.
    fn given(&self, number: u32, function: &Function) -> Given {
        let mut answer = Answer { number, ..Answer::default() };
        let stored = self.figures.iter().zip(function.figures);
        stored.clone().for_each(|(memory, figure)| figure.put(memory.bytes(), &mut answer));
        let buffers = [&self.workspace, &self.output, &self.index];
        let lent = buffers.into_iter().chain(stored.map(|(memory, _)| memory));
        let beside_kept = lent.into_iter().all(Guarded::margins_kept);
        let [workspace, output, index] = buffers.map(|memory| memory.bytes().to_vec());
        Given { answer, buffers: Buffers { workspace, output, index }, beside_kept }
    }
}

/// Wrong accesses that are made on purpose, by number: each must end the program.
pub const WRONG_ACCESSES: u32 = 6;

/// Makes a wrong access as a call would, to show that it is seen.
pub fn access_wrongly(which: u32) {
    let [mut input, mut output] = [Guarded::new(ROOM), Guarded::new(ROOM)];
    let bytes = [1, 2, 3, 4, 5];
    traps::enter("a wrong access", u64::from(which));
    // SAFETY: these accesses are outside of what is lent; there is no access there, and the program
    // ends by a signal.
    unsafe {
        match which {
            0 => drop(input.lend(&bytes, Side::End).add(bytes.len()).read_volatile()),
            1 => drop(input.lend(&bytes, Side::Start).sub(1).read_volatile()),
            2 => input.lend(&bytes, Side::End).cast_mut().write_volatile(0),
            3 => output.lend_written(&bytes, Side::End).add(bytes.len()).write_volatile(0),
            4 => output.lend_written(&bytes, Side::Start).sub(1).write_volatile(0),
            _ => drop(input.lend(&[], Side::Start).read_volatile()),
        }
    }
    traps::leave();
}
