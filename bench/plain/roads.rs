//! Routes, as the plain programs find them: a search with a binary heap, then a look at each exit.

use std::cmp::Reverse;
use std::collections::BinaryHeap;
use std::fmt::Write as _;

/// The source, the destination and the cost of an exit.
pub type Passage = (u32, u32, u32);

/// The least cost to a room, and the fewest exits at that cost.
type Label = (u32, u32);

/// The queries of a search about a world.
pub trait Map {
    /// Returns the number of objects.
    fn size(&self) -> usize;

    /// Returns the exits that leave a room, sorted by number.
    fn leaving(&self, room: u32) -> &[u32];

    /// Returns the passage of an exit.
    fn passage(&self, exit: u32) -> Passage;
}

/// A world, and which of its objects are unlocked for a player.
pub struct Roads<'a, M: Map> {
    pub map: &'a M,
    pub open: Vec<bool>,
}

impl<M: Map> Roads<'_, M> {
    fn passes(&self, exit: u32, to: u32) -> bool {
        self.open[exit as usize] && self.open[to as usize]
    }

    /// Returns the labels of all reachable rooms.
    fn labels(&self, from: u32) -> Vec<Option<Label>> {
        let mut labels: Vec<Option<Label>> = vec![None; self.map.size()];
        let mut heap = BinaryHeap::from([Reverse(((0u32, 0u32), from))]);
        labels[from as usize] = Some((0, 0));
        while let Some(Reverse((label, room))) = heap.pop() {
            if labels[room as usize] != Some(label) {
                continue;
            }
            for &exit in self.map.leaving(room) {
                let (_, to, cost) = self.map.passage(exit);
                let next = (label.0 + cost, label.1 + 1);
                if self.passes(exit, to) && labels[to as usize].is_none_or(|old| next < old) {
                    labels[to as usize] = Some(next);
                    heap.push(Reverse((next, to)));
                }
            }
        }
        labels
    }

    /// Returns for each room the lowest exit that ends a least walk there.
    fn last(&self, labels: &[Option<Label>]) -> Vec<Option<u32>> {
        let mut last: Vec<Option<u32>> = vec![None; labels.len()];
        for (room, label) in labels.iter().enumerate() {
            let Some(label) = label else { continue };
            for &exit in self.map.leaving(room as u32) {
                let (_, to, cost) = self.map.passage(exit);
                let ends = labels[to as usize] == Some((label.0 + cost, label.1 + 1));
                if ends && self.passes(exit, to) && last[to as usize].is_none_or(|old| exit < old) {
                    last[to as usize] = Some(exit);
                }
            }
        }
        last
    }

    /// Returns the answer to a question for the route to a room.
    pub fn route(&self, from: u32, target: u32) -> String {
        let labels = self.labels(from);
        let mut text = format!("route #{from} to #{target}");
        let Some((cost, _)) = labels[target as usize] else {
            return text + " no way";
        };
        let last = self.last(&labels);
        let mut walk = Vec::new();
        let mut at = target;
        while let Some(exit) = last[at as usize].filter(|_| at != from) {
            walk.push(exit);
            at = self.map.passage(exit).0;
        }
        write!(text, " cost {cost} by").expect("memory");
        if walk.is_empty() {
            text.push_str(" nothing");
        }
        for exit in walk.iter().rev() {
            write!(text, " #{exit}").expect("memory");
        }
        text
    }
}
