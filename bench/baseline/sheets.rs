//! What a search of a piece returns.

use crate::lanes::Lane;
use crate::open::Node;

/// What is left of a walk: a node on the sheet's path.
pub struct Leaving<T> {
    pub length: u32,
    pub last: u16,
    pub bound: T,
}

pub struct Sheet<T> {
    /// The last word that was found, if one was, and the best makespan.
    pub found: Option<Vec<u16>>,
    pub best: T,
    /// How many nodes were counted.
    pub taken: u64,
    /// What the budget left of the last walk, and the path that all of it shares.
    pub path: Vec<u16>,
    pub left: Vec<Leaving<T>>,
    /// The nodes of the piece that were never taken. They come after what is left.
    pub untaken: Vec<Node<T>>,
}

impl<T: Lane> Sheet<T> {
    pub fn new(best: T) -> Self {
        Sheet { found: None, best, taken: 0, path: Vec::new(), left: Vec::new(), untaken: Vec::new() }
    }
}
