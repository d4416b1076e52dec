//! Both sides, and beside them the library with each run by the other engine:
//! lists "alike in all but the engine of each run get the same replies and leave
//! the same logs, memories and ports", and the same journals.

use crate::call::{of_library, Answer, Call, Sides};
use crate::ffi::Lent;
use crate::world::{touched, Lengths, World};

#[derive(Clone)]
pub struct Twins {
    pub sides: Sides,
    other: World,
}

impl Twins {
    pub fn new(world: World) -> Twins {
        Twins {
            other: world.clone(),
            sides: Sides::new(world),
        }
    }

    /// Changes what all lend.
    pub fn change(&mut self, change: impl Fn(Lent)) {
        self.sides.change(&change);
        change(self.other.lend(&Lengths::right(0)));
    }

    /// Makes the call of both sides, and by the other engine: the answer, or the
    /// first difference.
    pub fn call(&mut self, call: &Call, lengths: &Lengths) -> Result<Answer, String> {
        let answer = self.sides.call(call, lengths)?;
        let found = of_library(&call.by_the_other_engine(), &mut self.other, lengths);
        if found != answer {
            return Err(format!("by the other engine:\n  {answer:?}\n  {found:?}"));
        }
        let library = self.sides.library();
        let place = library
            .difference(&self.other)
            .or_else(|| touched(library.journal(), self.other.journal(), 0..0));
        match place {
            Some(place) => Err(format!("by the other engine: {place}")),
            None => Ok(answer),
        }
    }

    /// The answer; panics with `at` where there is a difference.
    pub fn answer(&mut self, call: &Call, lengths: &Lengths, at: impl Fn() -> String) -> Answer {
        self.call(call, lengths).unwrap_or_else(|difference| {
            panic!(
                "{}, {call:?}, lent {lengths:?}\nfirst difference (reference, library): \
                 {difference}",
                at()
            )
        })
    }
}
