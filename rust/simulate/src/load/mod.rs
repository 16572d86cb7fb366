//! The loads: made by a rule, or read from a trace.

mod pattern;
mod trace;

use std::rc::Rc;

pub use pattern::{Pattern, Shape};
pub use trace::Trace;

/// One step of a load.
#[derive(Clone, Copy, Debug, PartialEq, Eq)]
pub enum Step {
    /// A logical page is written.
    Write(u32),
    /// A logical page is read.
    Read(u32),
    /// What waits in the buffer is flushed.
    Sync,
}

/// A load.
#[derive(Clone, Debug)]
pub enum Load {
    /// Made by a rule.
    Made(Pattern),
    /// Read from a file, with its name.
    Traced(Rc<Trace>),
}

impl Load {
    /// Its name.
    pub fn name(&self) -> &str {
        match self {
            Load::Made(pattern) => pattern.name(),
            Load::Traced(trace) => &trace.name,
        }
    }

    /// How many pages it writes; for a load made by a rule that is the shape's.
    pub fn writes(&self, shape: Shape) -> u64 {
        match self {
            Load::Made(_) => shape.writes,
            Load::Traced(trace) => trace.writes(),
        }
    }

    /// Its steps; for a load made by a rule they are the same for the same shape.
    pub fn steps(&self, shape: Shape) -> Box<dyn Iterator<Item = Step> + '_> {
        match self {
            Load::Made(pattern) => Box::new(pattern.steps(shape)),
            Load::Traced(trace) => Box::new(trace.steps()),
        }
    }
}
