//! The deepest chain of calls from each exported function: the sum of what lies on the stack at each
//! call, and of what the last function uses.

use crate::disassembly::Disassembly;
use crate::frame::{Call, Frame};
use crate::unfollowed::Unfollowed;
use hainscope::MOST_REQUESTS;
use std::collections::BTreeMap;
use std::fmt;

/// So many frames of halving can lie on the stack: document 01 bounds its depth by d, the least number
/// with 2^d at least the number of requests, and the first frame comes to it.
const FRAMES_OF_HALVING: usize = MOST_REQUESTS.next_power_of_two().ilog2() as usize + 1;

/// The functions that may call themselves, and how many frames of each can lie on the stack.
const FRAMES: [(&str, usize); 2] = [
    ("explain::halving::halve_conflict", FRAMES_OF_HALVING),
    ("explain::halving::halve_relaxation", FRAMES_OF_HALVING),
];

/// The functions of the C library that may be called, and what each may use: they call nothing, and
/// hold nothing but a return address and a few saved registers.
const LIBRARY: [(&str, usize); 3] = [("memset", 256), ("memcpy", 256), ("memmove", 256)];

/// Some frames of one function in a chain.
#[derive(Clone, Debug, PartialEq, Eq)]
pub struct Link {
    /// The function's name.
    pub name: String,
    /// How many frames.
    pub times: usize,
    /// The bytes of each.
    pub bytes: usize,
}

/// A chain of calls, the first caller first.
#[derive(Clone, Debug, PartialEq, Eq)]
pub struct Chain {
    /// The functions of the chain.
    pub links: Vec<Link>,
}

impl Chain {
    /// The bytes of the whole chain.
    pub fn total(&self) -> usize {
        self.links.iter().map(|link| link.times * link.bytes).sum()
    }

    /// The chain of one frame, or this chain under that frame.
    fn under(name: &str, bytes: usize, below: Option<Chain>) -> Chain {
        let link = Link {
            name: name.into(),
            times: 1,
            bytes,
        };
        let below = below.map_or(Vec::new(), |below| below.links);
        let links = std::iter::once(link).chain(below).collect();
        Chain { links }
    }

    /// The chain with more frames of its first function before it.
    fn repeated(mut self, times: usize, bytes: usize) -> Chain {
        let first = &mut self.links[0];
        if first.bytes == bytes {
            first.times += times;
        } else {
            let name = first.name.clone();
            self.links.insert(0, Link { name, times, bytes });
        }
        self
    }
}

impl fmt::Display for Chain {
    fn fmt(&self, to: &mut fmt::Formatter) -> fmt::Result {
        let mut sum = 0;
        for Link { name, times, bytes } in &self.links {
            sum += times * bytes;
            writeln!(to, "  {name:<40} {times:>3} x {bytes:>5} {sum:>7}")?;
        }
        Ok(())
    }
}

/// The deepest chain from each exported function, by its name. All functions of the archive must be
/// such that they can be followed.
pub fn chains(disassembly: &Disassembly) -> Result<BTreeMap<String, Chain>, Unfollowed> {
    let mut frames = BTreeMap::new();
    for function in &disassembly.functions {
        frames.insert(function.name.as_str(), Frame::of(disassembly, function)?);
    }
    let mut search = Search {
        return_address: disassembly.processor.return_address(),
        frames: &frames,
        open: Vec::new(),
        found: BTreeMap::new(),
    };
    let mut chains = BTreeMap::new();
    for name in disassembly.exported() {
        chains.insert(name.into(), search.deepest_from(name)?);
    }
    Ok(chains)
}

/// The search for the deepest chains.
struct Search<'a> {
    return_address: usize,
    frames: &'a BTreeMap<&'a str, Frame>,
    /// The functions whose chains are being looked for, each called by the one before it.
    open: Vec<&'a str>,
    /// The chains that have been found.
    found: BTreeMap<&'a str, Chain>,
}

impl<'a> Search<'a> {
    /// The deepest chain that begins with a function of the archive.
    fn deepest_from(&mut self, name: &'a str) -> Result<Chain, Unfollowed> {
        if let Some(chain) = self.found.get(name) {
            return Ok(chain.clone());
        }
        let frame = &self.frames[name];
        let mut deepest = Chain::under(name, self.return_address + frame.deepest, None);
        let mut again = None;
        self.open.push(name);
        for call in &frame.calls {
            // A jump leaves the return address to the called function, which counts it.
            let own = if call.is_jump { 0 } else { self.return_address };
            let bytes = own + call.depth;
            if call.callee == name {
                again = again.max(Some((bytes, frames_of(name, call)?)));
                continue;
            }
            let below = self.deepest_below(name, call)?;
            let chain = Chain::under(name, bytes, Some(below));
            if chain.total() > deepest.total() {
                deepest = chain;
            }
        }
        self.open.pop();
        if let Some((bytes, frames)) = again {
            deepest = deepest.repeated(frames - 1, bytes);
        }
        self.found.insert(name, deepest.clone());
        Ok(deepest)
    }

    /// The deepest chain below a call of another function.
    fn deepest_below(&mut self, caller: &str, call: &'a Call) -> Result<Chain, Unfollowed> {
        let callee = call.callee.as_str();
        let refused = |why| Err(Unfollowed::new(caller, &call.instruction, why));
        if self.open.contains(&callee) {
            return refused("functions that call each other in a circle");
        }
        if self.frames.contains_key(callee) {
            return self.deepest_from(callee);
        }
        match LIBRARY.iter().find(|(name, _)| *name == callee) {
            Some((name, bytes)) => Ok(Chain::under(name, *bytes, None)),
            None => refused("a call of an unknown function outside of the archive"),
        }
    }
}

/// How many frames of a function that calls itself can lie on the stack, if that is known.
fn frames_of(name: &str, call: &Call) -> Result<usize, Unfollowed> {
    let known = FRAMES.iter().find(|(function, _)| *function == name);
    known.map(|(_, frames)| *frames).ok_or_else(|| {
        let why = "a function that calls itself, nobody knows how often";
        Unfollowed::new(name, &call.instruction, why)
    })
}
