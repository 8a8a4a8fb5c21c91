//! Calls compared one after the other; the first difference stops, with the smallest call that shows it.

use crate::reading::{Buffers, Expected, expected};
use crate::smallest::{shown, smallest};
use oracle::refusal::Call;

/// How many calls were compared, and what was expected of them.
#[derive(Copy, Clone, Debug, Default)]
pub struct Tally {
    pub calls: u64,
    pub trees: u64,
    pub messages: u64,
    pub refused: u64,
}

/// The buffers and the count of a comparison.
#[derive(Default)]
pub struct Comparison {
    buffers: Buffers,
    pub tally: Tally,
}

impl Comparison {
    /// Compares a call with document 01's table and the Rust.
    pub fn call(&mut self, call: &Call) -> Result<(), String> {
        self.call_expecting(call, &expected(call))
    }

    /// Compares a call with an answer that is known.
    pub fn call_expecting(&mut self, call: &Call, wanted: &Expected) -> Result<(), String> {
        self.tally.calls += 1;
        match wanted {
            Expected::Tree(_) => self.tally.trees += 1,
            Expected::Messages(_) => self.tally.messages += 1,
            Expected::Refused(..) => self.tally.refused += 1,
            Expected::Something => {}
        }
        match self.buffers.call(call, wanted) {
            Ok(_) => Ok(()),
            Err(why) if matches!(expected(call), Expected::Something) => {
                Err(format!("{why}\n{}", shown(call)))
            }
            Err(_) => Err(self.told(call)),
        }
    }

    /// Compares all calls; `progress` is called for each.
    pub fn all(
        &mut self,
        calls: impl Iterator<Item = Call>,
        mut progress: impl FnMut(),
    ) -> Result<(), String> {
        for call in calls {
            self.call(&call)?;
            progress();
        }
        Ok(())
    }

    /// What differs on the smallest call that shows a difference.
    fn told(&mut self, call: &Call) -> String {
        let least = smallest(call.clone(), |call| {
            self.buffers.call(call, &expected(call)).is_err()
        });
        let why = self.buffers.call(&least, &expected(&least));
        let why = why.map_or_else(|why| why, |read| format!("{read:?}, once different"));
        format!("{why}\n{}", shown(&least))
    }
}
