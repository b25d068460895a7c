//! Session, status, seed and key.

use super::{at_least, check, number32, Outcome, LOCKED, RANGE, SEQUENCE, SHORT};
use crate::line::MAX_PACKET;
use crate::packet::Packet;
use crate::seed::{Generator, Resource, WrongKeys};
use crate::session::Session;

const KEY_LENGTH: u8 = 4;
/// SYNCH is answered as an error by its nature; it is no refusal.
const SYNCHED: u8 = 0x00;

impl Session {
    pub(super) fn connect(&mut self, packet: &[u8], answer: &mut Packet) -> Outcome {
        at_least(packet, 2)?;
        check(packet[1] == 0, RANGE)?;
        self.end();
        self.open = true;
        let longest = MAX_PACKET as u8;
        answer.extend(&[0x05, 0x00, longest, longest, 0x00, 0x01, 0x01]);
        Ok(())
    }

    pub(super) fn disconnect(&mut self) -> Outcome {
        self.end();
        Ok(())
    }

    pub(super) fn get_status(&self, answer: &mut Packet) -> Outcome {
        let any_runs = self.pool.lists().iter().any(|list| list.runs());
        let status = if any_runs { 0x40 } else { 0x00 };
        answer.extend(&[status, self.locked_mask(), 0, 0, 0]);
        Ok(())
    }

    pub(super) fn synch(&self) -> Outcome {
        Err(SYNCHED)
    }

    pub(super) fn get_seed(
        &mut self,
        packet: &[u8],
        generator: &mut Generator,
        wrong_keys: WrongKeys,
        answer: &mut Packet,
    ) -> Outcome {
        at_least(packet, 3)?;
        // It stays shut whatever is asked for, so this comes before the mode.
        check(!wrong_keys.shut(), LOCKED)?;
        check(packet[1] != 1, SEQUENCE)?;
        check(packet[1] == 0, RANGE)?;
        let resource = Resource::from_mask(packet[2]).ok_or(RANGE)?;
        if !*self.lock(resource) {
            answer.extend(&[0]);
            return Ok(());
        }
        let seed = generator.step();
        self.seed = Some((resource, seed));
        answer.extend(&[KEY_LENGTH]);
        answer.extend(&seed.to_le_bytes());
        Ok(())
    }

    pub(super) fn unlock(
        &mut self,
        packet: &[u8],
        wrong_keys: &mut WrongKeys,
        answer: &mut Packet,
    ) -> Outcome {
        at_least(packet, 2)?;
        let (resource, seed) = self.seed.ok_or(SEQUENCE)?;
        check(packet[1] == KEY_LENGTH, RANGE)?;
        check(packet.len() >= 2 + KEY_LENGTH as usize, SHORT)?;
        if number32(packet, 2) != resource.key(seed) {
            // The one refusal that changes something: a wrong key counts and ends the session.
            wrong_keys.count();
            self.end();
            return Err(LOCKED);
        }
        *self.lock(resource) = false;
        self.seed = None;
        answer.extend(&[self.locked_mask()]);
        Ok(())
    }
}
