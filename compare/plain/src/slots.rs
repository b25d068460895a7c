//! Which waiting packet leaves in a slot.

use crate::packet::Packet;
use crate::Slave;

enum Turn {
    Answer,
    List(usize),
}

impl Slave {
    /// What is to be sent now; it is noted as what was sent last.
    pub(crate) fn next_to_send(&mut self) -> Option<&mut Packet> {
        match self.turn()? {
            Turn::Answer => {
                self.last_was_answer = true;
                Some(&mut self.answer)
            }
            Turn::List(number) => {
                self.last_was_answer = false;
                self.session.pool.serve(number)
            }
        }
    }

    /// Answers and lists take turns, so that neither can hold up the other.
    fn turn(&self) -> Option<Turn> {
        if self.answer.waits() && !self.last_was_answer {
            return Some(Turn::Answer);
        }
        match self.session.pool.next_in_turn() {
            Some(number) => Some(Turn::List(number)),
            None => self.answer.waits().then_some(Turn::Answer),
        }
    }
}
