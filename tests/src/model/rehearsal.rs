//! The rehearsal (document 02, R-6).

use super::*;
use crate::checker::aim::Aim;
use crate::play::Play;

impl Model {
    /// A refusal leaves the report as it was; the room holds zeros afterwards, unless a
    /// length is wrong.
    pub fn rehearse(
        &self,
        row: u8,
        state: u8,
        script: &[u8],
        report: &mut [u8],
        room: &mut [u8],
    ) -> i32 {
        if script.len() > SCRIPT_BYTES || report.len() != REPORT_BYTES {
            return answer(Err(refusal::LENGTH));
        }
        let found = self.clear(room).and_then(|()| {
            let stock = self.strategic(row)?.largest;
            let found = self.report(At { row, state, stock }, script)?;
            store(report, found.into_iter());
            Ok(0)
        });
        answer(found)
    }

    /// The report of a rehearsal from the position, or the refusal number.
    fn report(&self, start: At, script: &[u8]) -> Result<[u8; REPORT_BYTES], u8> {
        self.move_at(start)?;
        let row = self.strategic(start.row)?;
        let mut play = Play::from(start);
        let mut replies = script.iter();
        let finished = loop {
            if row.game.ends(&play.states) {
                break true;
            }
            let Some(&reply) = replies.next() else {
                break matches!(row.game.aim(), Aim::Always { .. });
            };
            let mv = row.table.moves[row.position(play.at)];
            if !row.game.try_go(&mut play, mv, reply) {
                return Err(refusal::REPLY);
            }
        };
        let [low, high] = (row.position(play.at) as u16).to_le_bytes();
        let moves = play.states.len() - 1;
        Ok([finished.into(), moves as u8, low, high])
    }
}
