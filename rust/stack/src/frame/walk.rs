//! The way through a function's instructions, with the depth of the stack at each.

use super::{Call, Frame};
use crate::disassembly::step::{Movement, Next, Step, Target};
use crate::disassembly::{Disassembly, Function};
use crate::unfollowed::Unfollowed;

/// What is known before an instruction.
#[derive(Clone, Copy, Debug, PartialEq, Eq)]
struct State {
    /// How many bytes the stack has grown since the function was entered.
    depth: i64,
    /// The depth of the place that the frame pointer points to, where that is known.
    frame: Option<i64>,
}

/// Where a target is.
enum Place<'a> {
    /// At an instruction of the function itself, by its position.
    Within(usize),
    /// At a function's beginning, or outside of the archive: a name.
    Named(&'a str),
}

/// A function on the way through its instructions.
pub struct Walk<'a> {
    disassembly: &'a Disassembly,
    function: &'a Function,
    /// What is known before each instruction that has been reached.
    states: Vec<Option<State>>,
    /// The instructions from which the walk must go on.
    waiting: Vec<usize>,
    /// The depth of the jumps through a table, if there are any.
    table_depth: Option<i64>,
}

impl<'a> Walk<'a> {
    /// Walks through all of a function.
    ///
    /// Where a jump through a table leads is not read. All code that no other way reaches is taken as
    /// its target, with the depth at the jump, beginning at the first such instruction until there is
    /// none. Code that other ways reach may be its target too, and has the same depth there: from
    /// each place on the instructions change the depth by the same numbers whoever came there, and
    /// they all end in a return with depth 0; with another depth the code would return to nowhere.
    /// What would break this is refused beside such a jump (`is_sure_beside_table`), as is such a jump
    /// with depth 0, since that may lead into another function.
    pub fn through(
        disassembly: &'a Disassembly,
        function: &'a Function,
    ) -> Result<Walk<'a>, Unfollowed> {
        let mut walk = Walk {
            disassembly,
            function,
            states: vec![None; function.instructions.len()],
            waiting: Vec::new(),
            table_depth: None,
        };
        let entry = State {
            depth: 0,
            frame: None,
        };
        walk.arrive(0, 0, entry)?;
        walk.go_on()?;
        while let (Some(depth), Some(first)) = (walk.table_depth, walk.first_unreached()) {
            walk.arrive(first, first, State { depth, frame: None })?;
            walk.go_on()?;
        }
        Ok(walk)
    }

    /// What the walk has found.
    pub fn frame(&self) -> Result<Frame, Unfollowed> {
        let mut deepest = 0;
        let mut calls = Vec::new();
        for (at, state) in self.states.iter().enumerate() {
            let Some(state) = state else { continue };
            let step = self.step(at)?;
            if self.table_depth.is_some() && !is_sure_beside_table(&step) {
                return Err(self.refused(at, "not known to be sure beside a jump through a table"));
            }
            // What an instruction moves shows at the next one.
            deepest = deepest.max(state.depth);
            let (target, is_jump) = match &step.next {
                Next::Call(target) => (target, false),
                Next::Jump(target) | Next::Branch(target) => (target, true),
                _ => continue,
            };
            if let Place::Named(callee) = self.place(at, target, !is_jump)? {
                calls.push(Call {
                    callee: callee.into(),
                    depth: state.depth as usize,
                    is_jump,
                    instruction: self.function.instructions[at].text.clone(),
                });
            }
        }
        let deepest = deepest as usize + self.disassembly.processor.red_zone();
        Ok(Frame { deepest, calls })
    }

    /// Goes on from all waiting instructions until none is left.
    fn go_on(&mut self) -> Result<(), Unfollowed> {
        while let Some(at) = self.waiting.pop() {
            let Some(state) = self.states[at] else {
                continue;
            };
            let step = self.step(at)?;
            let after = self.after(at, state, &step)?;
            match &step.next {
                Next::Following | Next::Call(_) => self.arrive(at, at + 1, after)?,
                Next::Jump(target) => self.jump(at, target, after)?,
                Next::Branch(target) => {
                    self.jump(at, target, after)?;
                    self.arrive(at, at + 1, after)?;
                }
                Next::Table => self.jump_through_table(at, after.depth)?,
                Next::Return if after.depth != 0 => {
                    return Err(self.refused(at, "a return that does not find its address"))
                }
                Next::Return | Next::Nowhere => {}
            }
        }
        Ok(())
    }

    /// Follows a jump, unless it leads into another function.
    fn jump(&mut self, from: usize, target: &Target, state: State) -> Result<(), Unfollowed> {
        match self.place(from, target, false)? {
            Place::Within(to) => self.arrive(from, to, state),
            Place::Named(_) if state.depth == 0 => Ok(()),
            Place::Named(_) => Err(self.refused(from, "a jump that leaves a frame on the stack")),
        }
    }

    /// Notes the depth at a jump through a table.
    fn jump_through_table(&mut self, at: usize, depth: i64) -> Result<(), Unfollowed> {
        if depth == 0 {
            return Err(self.refused(at, "a jump that may lead into another function"));
        }
        match *self.table_depth.get_or_insert(depth) == depth {
            true => Ok(()),
            false => Err(self.refused(at, "jumps through tables with different depths")),
        }
    }

    /// Comes from one instruction to another, which waits unless nothing new is known there.
    fn arrive(&mut self, from: usize, to: usize, state: State) -> Result<(), Unfollowed> {
        let Some(known) = self.states.get(to).copied() else {
            return Err(self.refused(from, "the function's end is passed"));
        };
        let joined = match known {
            None => state,
            Some(known) if known.depth != state.depth => {
                return Err(self.refused(to, "reached with different depths"))
            }
            Some(known) => State {
                depth: known.depth,
                frame: known.frame.filter(|frame| state.frame == Some(*frame)),
            },
        };
        if known != Some(joined) {
            self.states[to] = Some(joined);
            self.waiting.push(to);
        }
        Ok(())
    }

    /// The first instruction that no way has reached and that does something.
    fn first_unreached(&self) -> Option<usize> {
        let processor = self.disassembly.processor;
        let mut both = self.function.instructions.iter().zip(&self.states);
        both.position(|(instruction, state)| state.is_none() && !processor.is_padding(instruction))
    }

    /// What an instruction does.
    fn step(&self, at: usize) -> Result<Step, Unfollowed> {
        let step = self
            .disassembly
            .processor
            .step(&self.function.instructions[at]);
        step.map_err(|why| self.refused(at, why))
    }

    /// What is known after an instruction.
    fn after(&self, at: usize, before: State, step: &Step) -> Result<State, Unfollowed> {
        let State { depth, frame } = before;
        let unknown = || self.refused(at, "a frame pointer that is not known");
        let (depth, frame) = match step.movement {
            Movement::None => (depth, frame),
            Movement::Grow(by) => (depth + by, frame),
            // The stack pointer is a multiple of 8 already.
            Movement::Align(alignment) => (depth + alignment - 8, frame),
            Movement::SetFrame(above) => (depth, Some(depth - above)),
            Movement::FromFrame(above) => (frame.ok_or_else(unknown)? - above, frame),
        };
        if depth < 0 {
            return Err(self.refused(at, "more is given back than was taken"));
        }
        let frame = frame.filter(|_| !step.loses_frame);
        Ok(State { depth, frame })
    }

    /// Where a target is. A call leads to a function's beginning only, be it its own.
    fn place<'b>(
        &'b self,
        at: usize,
        target: &'b Target,
        is_call: bool,
    ) -> Result<Place<'b>, Unfollowed> {
        let (section, address) = match target {
            Target::Here(address) => (self.function.section.as_str(), *address),
            Target::Symbol(name, offset) => {
                let functions = &self.disassembly.functions;
                let by_name = functions.iter().find(|function| function.name == *name);
                let is_section = functions.iter().any(|function| function.section == *name);
                match by_name {
                    Some(function) => (function.section.as_str(), function.start + offset),
                    None if is_section => (name.as_str(), *offset),
                    None if *offset == 0 => return Ok(Place::Named(name)),
                    None => return Err(self.refused(at, "a place in an unknown function")),
                }
            }
        };
        let is_own = section == self.function.section && !is_call;
        if let Some(within) = self.function.position(address).filter(|_| is_own) {
            return Ok(Place::Within(within));
        }
        match self.disassembly.at(section, address) {
            Some(function) => Ok(Place::Named(&function.name)),
            None => Err(self.refused(at, "leads to no function's beginning")),
        }
    }

    /// The refusal of an instruction.
    fn refused(&self, at: usize, why: &'static str) -> Unfollowed {
        let instruction = self.function.instructions.get(at);
        let text = instruction.map_or("no instruction", |instruction| &instruction.text);
        Unfollowed::new(&self.function.name, text, why)
    }
}

/// Whether a step leaves the depth by a number that is the same whoever came there, and does not end
/// the way before a return.
fn is_sure_beside_table(step: &Step) -> bool {
    !matches!(step.movement, Movement::FromFrame(_) | Movement::Align(_))
        && step.next != Next::Nowhere
}
