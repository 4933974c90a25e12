//! What a comparison has seen: how much, and what differed.

use crate::answers;
use crate::asked::Asked;
use crate::divides::Divides;
use crate::packed::loan;
use crate::refused_flags::Ruled;
use crate::registers;
use crate::roads;
use crate::sides::{self, digits, fields_apart, names_apart, Numbers, Side};
use crate::trap;

/// As many differences are shown as a reader can use; all are counted.
pub const MOST_SHOWN: usize = 20;

/// An answer, and whose it is.
type Named = (&'static str, Numbers);

#[derive(Clone, Debug)]
pub struct Tally {
    /// In place of the port's answers to raw numbers.
    pub ours: Side,
    /// In place of the port's functions on packed digits.
    pub packed: loan::Side,
    /// In place of the port's functions that read answer lines.
    pub answers: answers::loan::Side,
    /// In place of the port's function that tells what would trap.
    pub trap: trap::loan::Side,
    /// In place of the port's function over a register record.
    pub registers: registers::loan::Side,
    /// In place of the port's function that counts the roads.
    pub roads: roads::loan::Side,
    pub compared: u64,
    pub divides: Divides,
    /// How many answers differ. One is enough to fail.
    pub differing: u64,
    pub shown: Vec<String>,
}

impl Tally {
    pub fn new(ours: Side) -> Tally {
        Tally {
            ours,
            packed: loan::ours,
            answers: answers::loan::ours,
            trap: trap::loan::ours,
            registers: registers::loan::ours,
            roads: roads::loan::ours,
            compared: 0,
            divides: Divides::default(),
            differing: 0,
            shown: Vec::new(),
        }
    }

    /// The same, with another side for packed digits than the port.
    pub fn with_packed(self, packed: loan::Side) -> Tally {
        Tally { packed, ..self }
    }

    /// The same, with another side for answer lines than the port.
    pub fn with_answers(self, answers: answers::loan::Side) -> Tally {
        Tally { answers, ..self }
    }

    /// The same, with another side for what would trap than the port.
    pub fn with_trap(self, trap: trap::loan::Side) -> Tally {
        Tally { trap, ..self }
    }

    /// The same, with another side over a register record than the port.
    pub fn with_registers(self, registers: registers::loan::Side) -> Tally {
        Tally { registers, ..self }
    }

    /// The same, with another side for the roads than the port.
    pub fn with_roads(self, roads: roads::loan::Side) -> Tally {
        Tally { roads, ..self }
    }

    /// One that has seen nothing, with the same sides in place of the port.
    pub fn fresh(&self) -> Tally {
        Tally::new(self.ours)
            .with_packed(self.packed)
            .with_answers(self.answers)
            .with_trap(self.trap)
            .with_registers(self.registers)
            .with_roads(self.roads)
    }

    /// Asks both sides, and holds the port to MartyPC.
    #[inline]
    pub fn hold(&mut self, asked: Asked) {
        let [ours, theirs] = self.ask(asked);
        self.hold_pair(asked, ours, theirs);
    }

    /// Asks both sides for a divide that is refused, and holds each to the rule, which says nothing
    /// of the steps.
    #[inline]
    pub fn hold_to_rule(&mut self, asked: Asked, ruled: Ruled) {
        for given in self.ask(asked) {
            let expected = Numbers {
                flags: ruled.compare.flags(),
                steps: given.1.steps,
                ..sides::refused(ruled.why.status())
            };
            self.hold_pair(asked, given, ("the rule", expected));
        }
    }

    #[inline]
    fn ask(&mut self, asked: Asked) -> [Named; 2] {
        let (ours, theirs) = ((self.ours)(asked), sides::theirs(asked));
        self.compared += 1;
        self.divides.count(asked, &theirs);
        [("Hatchyarn", ours), ("MartyPC", theirs)]
    }

    #[inline]
    fn hold_pair(&mut self, asked: Asked, one: Named, other: Named) {
        if one.1 != other.1 {
            self.differ(asked, one, other);
        }
    }

    #[cold]
    fn differ(&mut self, asked: Asked, one: Named, other: Named) {
        self.fail(|| {
            format!(
                "{}  {} {}  {} {}  differ in {}",
                asked.line(),
                one.0,
                digits(&one.1),
                other.0,
                digits(&other.1),
                fields_apart(&one.1, &other.1)
            )
        });
    }

    /// Counts a call, and a difference if any part of what came of it differs from what should. The
    /// call is told only then.
    pub fn hold_call(&mut self, parts: &[(&str, bool)], told: impl FnOnce() -> String) {
        self.compared += 1;
        if parts.iter().any(|part| part.1) {
            self.fail(|| format!("{}: {} differ", told(), names_apart(parts)));
        }
    }

    /// Counts a difference.
    pub fn fail(&mut self, what: impl FnOnce() -> String) {
        self.differing += 1;
        if self.shown.len() < MOST_SHOWN {
            self.shown.push(what());
        }
    }

    /// What a full comparison is to meet and this one has not, each with what to do about it.
    pub fn unmet(&self) -> Vec<String> {
        let counted = self.divides.refused();
        let unmet = counted.filter(|(_, count)| *count == 0).map(|(why, _)| {
            format!(
                "no divide was refused with status {}, {why}; let src/plan.rs ask for one.",
                why.status()
            )
        });
        unmet.collect()
    }

    pub fn add(&mut self, other: Tally) {
        self.compared += other.compared;
        self.divides.add(other.divides);
        self.differing += other.differing;
        self.shown.extend(other.shown);
        self.shown.truncate(MOST_SHOWN);
    }
}
