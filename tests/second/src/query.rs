//! Queries: the check (refusals 9 and 10) and the steps by their numbers.

use crate::MOST_STEPS;

#[derive(Clone, Copy, Debug, PartialEq, Eq)]
pub enum Axis {
    Child,
    Descendant,
}

#[derive(Clone, Copy, Debug, PartialEq, Eq)]
pub struct Step {
    pub axis: Axis,
    pub main: bool,
    /// The number of the step this one hangs on; 0 is the document.
    pub hangs_on: usize,
    /// The name number; 0 is `*`.
    pub name: u16,
}

/// An admitted query.
#[derive(Clone, Debug, PartialEq, Eq)]
pub struct Query {
    steps: Vec<Step>,
}

/// Why a query is refused.
#[derive(Clone, Copy, Debug, PartialEq, Eq)]
pub enum Refused {
    /// Refusal 9.
    Length,
    /// Refusal 10: "a step breaks a rule; comes with the first such step's number, and a reason". The reason is 1 for its
    /// axis, 2 for its role, 3 for what it hangs on and 4 for a byte that must be 0.
    Step { number: usize, reason: u8 },
}

impl Query {
    /// The query check.
    pub fn read(bytes: &[u8]) -> Result<Query, Refused> {
        if bytes.is_empty() || !bytes.len().is_multiple_of(8) || bytes.len() > 8 * MOST_STEPS {
            return Err(Refused::Length);
        }
        let mut steps: Vec<Step> = Vec::new();
        for record in bytes.chunks(8) {
            match step(record, &steps) {
                Ok(s) => steps.push(s),
                Err(reason) => return Err(Refused::Step { number: steps.len() + 1, reason }),
            }
        }
        Ok(Query { steps })
    }

    /// The step of this number, from 1.
    pub fn step(&self, number: usize) -> &Step {
        &self.steps[number - 1]
    }

    /// How many steps there are: the number of the last one.
    pub fn steps(&self) -> usize {
        self.steps.len()
    }

    /// The numbers of the main-path steps, in order. The last is the one whose nodes are listed.
    pub fn main_path(&self) -> Vec<usize> {
        (1..=self.steps()).filter(|&s| self.step(s).main).collect()
    }

    /// The numbers of the predicate steps that hang on this step.
    pub fn predicates(&self, number: usize) -> Vec<usize> {
        (1..=self.steps()).filter(|&s| !self.step(s).main && self.step(s).hangs_on == number).collect()
    }

    /// An element of this name passes the name test of this step.
    pub fn passes(&self, number: usize, name: u16) -> bool {
        let test = self.step(number).name;
        test == 0 || test == name
    }
}

/// The step of a record, `earlier` being the steps before it, or the reason why it is at fault. The bytes are read in the order
/// of the reasons, so the reason is the lowest that applies.
fn step(record: &[u8], earlier: &[Step]) -> Result<Step, u8> {
    let axis = match record[0] {
        1 => Axis::Child,
        2 => Axis::Descendant,
        _ => return Err(1),
    };
    let main = match record[1] {
        1 => true,
        // "Step 1 in a predicate is a fault of its role, whatever it hangs on."
        0 if !earlier.is_empty() => false,
        _ => return Err(2),
    };
    let step = Step { axis, main, hangs_on: record[2].into(), name: u16::from_be_bytes([record[4], record[5]]) };
    if !hangs_well(&step, earlier) {
        return Err(3);
    }
    if [3, 6, 7].iter().any(|&place| record[place] != 0) {
        return Err(4);
    }
    Ok(step)
}

/// The step hangs where it may, `earlier` being the steps before it.
fn hangs_well(step: &Step, earlier: &[Step]) -> bool {
    if step.main {
        // "Step 1 is on the main path and hangs on 0. Any later main-path step hangs on the nearest main-path step before it."
        step.hangs_on == earlier.iter().rposition(|s| s.main).map_or(0, |place| place + 1)
    } else {
        // "A predicate step hangs on any earlier step and never on 0."
        1 <= step.hangs_on && step.hangs_on <= earlier.len()
    }
}

/// The bytes of steps, admitted or not.
pub fn write(steps: &[Step]) -> Vec<u8> {
    let mut bytes = Vec::new();
    for s in steps {
        let [high, low] = s.name.to_be_bytes();
        let axis = match s.axis {
            Axis::Child => 1,
            Axis::Descendant => 2,
        };
        bytes.extend([axis, s.main as u8, s.hangs_on as u8, 0, high, low, 0, 0]);
    }
    bytes
}
