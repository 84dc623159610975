//! Open nodes, which share paths.

use crate::lanes::Lane;
use std::collections::BTreeMap;

/// No job: the node's word is only a beginning of its path.
pub const NO_JOB: u16 = u16::MAX;

/// An open node: the first `length` jobs of a path and then one more.
#[derive(Clone, Copy)]
pub struct Node<T> {
    pub path: u32,
    pub length: u32,
    pub last: u16,
    pub bound: T,
}

impl<T> Node<T> {
    /// The jobs of its word: those on its path, and then one more, if there is one.
    pub fn parts<'p>(&self, paths: &'p Paths) -> (&'p [u16], Option<u16>) {
        let last = (self.last != NO_JOB).then_some(self.last);
        (&paths.paths[self.path as usize][..self.length as usize], last)
    }
}

/// The paths of open nodes, and how many nodes share each.
#[derive(Default)]
pub struct Paths {
    paths: Vec<Box<[u16]>>,
    nodes: Vec<u32>,
    unused: Vec<u32>,
}

impl Paths {
    /// Adds a path, which no node has yet.
    pub fn add(&mut self, path: Vec<u16>) -> u32 {
        let number = self.unused.pop().unwrap_or_else(|| {
            self.paths.push(Box::default());
            self.nodes.push(0);
            self.nodes.len() as u32 - 1
        });
        self.paths[number as usize] = path.into_boxed_slice();
        number
    }

    pub fn hold(&mut self, path: u32) {
        self.nodes[path as usize] += 1;
    }

    pub fn release(&mut self, path: u32) {
        let nodes = &mut self.nodes[path as usize];
        *nodes -= 1;
        if *nodes == 0 {
            self.paths[path as usize] = Box::default();
            self.unused.push(path);
        }
    }
}

/// The open nodes in their order. What is left in a round comes before what was open, so they are kept as stacks: the
/// node to be taken first is the last one.
pub enum Open<T> {
    Kept(Vec<Node<T>>),
    ByBound(BTreeMap<T, Vec<Node<T>>>),
}

impl<T: Lane> Open<T> {
    pub fn len(&self) -> usize {
        match self {
            Open::Kept(nodes) => nodes.len(),
            Open::ByBound(stacks) => stacks.values().map(Vec::len).sum(),
        }
    }

    pub fn clear(&mut self) {
        match self {
            Open::Kept(nodes) => nodes.clear(),
            Open::ByBound(stacks) => stacks.clear(),
        }
    }

    pub fn least_bound(&self) -> Option<T> {
        match self {
            Open::Kept(nodes) => nodes.iter().map(|node| node.bound).min(),
            Open::ByBound(stacks) => stacks.keys().next().copied(),
        }
    }

    /// Puts a node before all others, or all others of its bound.
    pub fn push(&mut self, node: Node<T>) {
        match self {
            Open::Kept(nodes) => nodes.push(node),
            Open::ByBound(stacks) => stacks.entry(node.bound).or_default().push(node),
        }
    }

    fn pop(&mut self) -> Option<Node<T>> {
        match self {
            Open::Kept(nodes) => nodes.pop(),
            Open::ByBound(stacks) => {
                let mut stack = stacks.first_entry()?;
                let node = stack.get_mut().pop();
                if stack.get().is_empty() {
                    stack.remove();
                }
                node
            }
        }
    }

    /// Takes the first nodes, at most `most`.
    pub fn take(&mut self, most: usize) -> Vec<Node<T>> {
        std::iter::from_fn(|| self.pop()).take(most).collect()
    }

    /// Closes the nodes whose bound isn't below the limit.
    pub fn close(&mut self, limit: T, paths: &mut Paths) {
        match self {
            Open::Kept(nodes) => {
                for node in nodes.extract_if(.., |node| node.bound >= limit) {
                    paths.release(node.path);
                }
            }
            Open::ByBound(stacks) => {
                for node in stacks.split_off(&limit).into_values().flatten() {
                    paths.release(node.path);
                }
            }
        }
    }
}
