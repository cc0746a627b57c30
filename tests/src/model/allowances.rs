//! The call for the smallest allowances (document 02, R-4).

use super::*;
use crate::checker::allowances::Pair;

impl Model {
    /// A refusal leaves the list as it was; the room holds zeros afterwards, unless a
    /// length is wrong.
    pub fn allowances(&self, row: u8, state: u8, list: &mut [u8], room: &mut [u8]) -> i32 {
        let found = self.smallest(row, state, list.len(), room).map(|pairs| {
            store(list, pairs.iter().flatten().copied());
            pairs.len() as u8
        });
        answer(found)
    }

    /// The pairs for a list of this length, or the refusal number.
    fn smallest(
        &self,
        number: u8,
        state: u8,
        list: usize,
        room: &mut [u8],
    ) -> Result<Vec<Pair>, u8> {
        if list != ALLOWANCES_BYTES {
            return Err(refusal::LENGTH);
        }
        self.clear(room)?;
        let (job, row) = (self.job()?, self.strategic(number)?);
        if usize::from(state) >= job.structure.states {
            return Err(refusal::POSITION);
        }
        let try_all = || Trials::of(&job.block, number.into(), &job.sets);
        Ok(row.trials.get_or_init(try_all).smallest(state.into()))
    }
}
