//! What is played: calls in batches. Everyone is given the same calls in the same order.

use kerb::Settings;
use std::rc::Rc;

/// The cells of a question or of a link.
pub type Pair = (u16, u16);

/// A body mask. The calls of a batch that are given the same one share it.
pub type Mask = Rc<[u8]>;

/// What the calls of a batch are, and so which line of the table they count for.
#[derive(Clone, Copy, PartialEq, Eq)]
pub enum Kind {
    Link,
    ChunkEnd,
    Joined,
    Chain,
    Lamps,
}

pub const KINDS: [Kind; 5] = [
    Kind::Link,
    Kind::ChunkEnd,
    Kind::Joined,
    Kind::Chain,
    Kind::Lamps,
];

impl Kind {
    pub const fn name(self) -> &'static str {
        match self {
            Kind::Link => "link",
            Kind::ChunkEnd => "clock over a chunk's end",
            Kind::Joined => "joined",
            Kind::Chain => "chain",
            Kind::Lamps => "lamps",
        }
    }
}

/// Calls that follow each other.
pub enum Calls {
    Clock(u32),
    /// Links of one tick.
    Links(u32, Vec<Pair>),
    Joined(Vec<Pair>),
    Chains(Vec<Pair>),
    Lamps(Vec<Mask>),
}

/// Calls that are timed together; those that only lead up to others count for no line.
pub struct Batch {
    pub calls: Calls,
    pub kind: Option<Kind>,
}

impl Batch {
    pub fn count(&self) -> usize {
        match &self.calls {
            Calls::Clock(_) => 1,
            Calls::Links(_, pairs) | Calls::Joined(pairs) | Calls::Chains(pairs) => pairs.len(),
            Calls::Lamps(masks) => masks.len(),
        }
    }
}

pub struct Workload {
    pub name: String,
    pub settings: Settings,
    pub batches: Vec<Batch>,
}
