//! The document so far: every node that was ever opened, and refusals 3 to 6.

use crate::query::Axis;
use crate::records::Event;
use crate::{MOST_NODES, MOST_OPEN};

#[derive(Clone, Debug)]
pub struct Node {
    pub name: u16,
    /// The number of the node above; 0 is the document.
    pub parent: usize,
    /// The number of the accepted event that opened it.
    pub opened: usize,
    /// The number of the accepted event that closed it, if it is closed.
    pub closed: Option<usize>,
}

#[derive(Clone, Debug, Default)]
pub struct Tree {
    nodes: Vec<Node>,
    /// The open elements, outermost first.
    open: Vec<usize>,
    /// How many events were accepted.
    pub events: usize,
}

impl Tree {
    /// How many nodes were opened: the number of the newest.
    pub fn opened(&self) -> usize {
        self.nodes.len()
    }

    pub fn node(&self, number: usize) -> &Node {
        &self.nodes[number - 1]
    }

    pub fn is_open(&self, number: usize) -> bool {
        self.node(number).closed.is_none()
    }

    /// The document element has been closed.
    pub fn is_finished(&self) -> bool {
        self.opened() > 0 && !self.is_open(1)
    }

    /// The nodes above this one, nearest first, without the document.
    pub fn above(&self, number: usize) -> impl Iterator<Item = usize> + '_ {
        let parent = |n: &usize| Some(self.node(*n).parent).filter(|&p| p != 0);
        std::iter::successors(parent(&number), parent)
    }

    /// The nodes to which this node stands in the axis: those of which it is a child, or a descendant.
    pub fn stands_to(&self, axis: Axis, number: usize) -> impl Iterator<Item = usize> + '_ {
        let most = match axis {
            Axis::Child => 1,
            Axis::Descendant => usize::MAX,
        };
        self.above(number).take(most)
    }

    /// This node stands in the axis to the document.
    pub fn stands_to_document(&self, axis: Axis, number: usize) -> bool {
        match axis {
            Axis::Child => self.node(number).parent == 0,
            Axis::Descendant => true,
        }
    }

    /// The lowest of refusals 3 to 6 that applies to the event.
    pub fn refusal(&self, event: Event) -> Option<u8> {
        let innermost = self.open.last().map(|&n| self.node(n).name);
        match event {
            _ if self.is_finished() => Some(3),
            Event::Close(name) if innermost != Some(name) => Some(4),
            Event::Open(_) if self.open.len() == MOST_OPEN => Some(5),
            Event::Open(_) if self.opened() == MOST_NODES => Some(6),
            _ => None,
        }
    }

    /// Takes an event to which no refusal applies.
    pub fn take(&mut self, event: Event) {
        self.events += 1;
        match event {
            Event::Open(name) => {
                let parent = self.open.last().copied().unwrap_or(0);
                self.nodes.push(Node { name, parent, opened: self.events, closed: None });
                self.open.push(self.nodes.len());
            }
            Event::Close(_) => {
                let innermost = self.open.pop().expect("a close with nothing open is refused");
                self.nodes[innermost - 1].closed = Some(self.events);
            }
        }
    }
}
