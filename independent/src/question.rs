//! A question: the six rules, and the walk of rules 5 and 6.

use crate::index::Index;
use std::fmt;

#[derive(Clone, Copy, Debug, PartialEq, Eq)]
pub struct Answer {
    pub yes: bool,
    /// The rule that decided, 1 to 6.
    pub reason: u32,
    /// The number of groups opened.
    pub opened: u32,
    /// The first deciding labelling, from 1. Under reasons 2 and 4 it is the first whose interval settled the question,
    /// under reason 5 the first whose inner interval contained the target's e at the child that ended the walk. 0
    /// under the other reasons.
    pub labelling: u32,
}

/// As the text program prints it.
impl fmt::Display for Answer {
    fn fmt(&self, f: &mut fmt::Formatter) -> fmt::Result {
        let word = if self.yes { "yes" } else { "no" };
        write!(f, "{word} {} {} {}", self.reason, self.opened, self.labelling)
    }
}

/// An answer with the groups that the walk opened, by their names, in the order of opening.
#[derive(Clone, Debug, PartialEq, Eq)]
pub struct Asked {
    pub answer: Answer,
    pub opened: Vec<usize>,
}

/// The walk so far.
struct Walk {
    /// By place: whether the group was opened.
    marked: Vec<bool>,
    /// The opened places, in the order of opening.
    opened: Vec<usize>,
    /// The opened groups whose children are being tried, each with the number of children tried.
    path: Vec<(usize, usize)>,
}

impl Walk {
    fn open(&mut self, group: usize) {
        self.marked[group] = true;
        self.opened.push(group);
        self.path.push((group, 0));
    }
}

impl Index {
    /// Whether source reaches target, both below n.
    pub fn question(&self, source: usize, target: usize) -> Asked {
        let x = self.groups.place(source);
        let t = self.groups.place(target);
        if x == t {
            return self.asked(true, 1, 0, &[]);
        }
        if let Some(labelling) = self.inside(x, t) {
            return self.asked(true, 2, labelling, &[]);
        }
        if self.not_above(x, t) {
            return self.asked(false, 3, 0, &[]);
        }
        if let Some(labelling) = self.outside(x, t) {
            return self.asked(false, 4, labelling, &[]);
        }
        self.walk(x, t)
    }

    /// Rule 2: the first labelling, from 1, in which x's inner interval contains t's e.
    fn inside(&self, x: usize, t: usize) -> Option<u32> {
        let found = self.labellings.iter().position(|l| l.inner_holds(x, t));
        found.map(|before| before as u32 + 1)
    }

    /// Rule 3: x's level is not above t's.
    fn not_above(&self, x: usize, t: usize) -> bool {
        self.groups.levels[x] <= self.groups.levels[t]
    }

    /// Rule 4: the first labelling, from 1, in which x's outer interval does not contain t's.
    fn outside(&self, x: usize, t: usize) -> Option<u32> {
        let found = self.labellings.iter().position(|l| !l.outer_holds(x, t));
        found.map(|before| before as u32 + 1)
    }

    /// Opens x: counts and marks it, then tries its children by rising place. Rule 2 on a child ends the whole walk
    /// with yes; a child already opened, or ruled out by 3 or 4, is passed over; any other child is opened in its
    /// turn. The path is kept in a list, so that the walk can go down a line of groups of any length.
    fn walk(&self, x: usize, t: usize) -> Asked {
        let mut walk = Walk {
            marked: vec![false; self.groups.list.len()],
            opened: Vec::new(),
            path: Vec::new(),
        };
        walk.open(x);
        while let Some((group, tried)) = walk.path.last_mut() {
            let Some(&child) = self.groups.children[*group].get(*tried) else {
                walk.path.pop();
                continue;
            };
            *tried += 1;
            if let Some(labelling) = self.inside(child, t) {
                return self.asked(true, 5, labelling, &walk.opened);
            }
            let ruled_out = self.not_above(child, t) || self.outside(child, t).is_some();
            if !walk.marked[child] && !ruled_out {
                walk.open(child);
            }
        }
        self.asked(false, 6, 0, &walk.opened)
    }

    fn asked(&self, yes: bool, reason: u32, labelling: u32, opened: &[usize]) -> Asked {
        Asked {
            answer: Answer {
                yes,
                reason,
                opened: opened.len() as u32,
                labelling,
            },
            opened: opened.iter().map(|&place| self.groups.list[place]).collect(),
        }
    }
}
