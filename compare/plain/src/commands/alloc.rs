//! Taking lists, then ODTs, then entries out of the pool, and giving all of them back.

use super::{at_least, check, number16, Outcome, LIST_RUNS, POOL_PASSED, RANGE, SEQUENCE};
use crate::lists::Pointer;
use crate::pool::{Phase, LISTS};
use crate::session::Session;

impl Session {
    pub(super) fn free_daq(&mut self) -> Outcome {
        self.lists_unlocked()?;
        self.pool.free();
        self.pointer = Pointer::Unset;
        Ok(())
    }

    pub(super) fn alloc_daq(&mut self, packet: &[u8]) -> Outcome {
        at_least(packet, 4)?;
        self.lists_unlocked()?;
        check(self.pool.phase() == Phase::Freed, SEQUENCE)?;
        let count = number16(packet, 2) as usize;
        check(count > 0, RANGE)?;
        check(count <= LISTS, POOL_PASSED)?;
        self.pool.add_lists(count);
        Ok(())
    }

    pub(super) fn alloc_odt(&mut self, packet: &[u8]) -> Outcome {
        at_least(packet, 5)?;
        self.lists_unlocked()?;
        let (number, count) = (number16(packet, 2) as usize, packet[4] as usize);
        let in_order = matches!(self.pool.phase(), Phase::Lists | Phase::Odts);
        check(in_order, SEQUENCE)?;
        // A list that is not there has no ODTs yet: it is out of range, not out of order.
        let list = self.pool.lists().get(number);
        check(list.map_or(true, |l| l.odts().is_empty()), SEQUENCE)?;
        check(list.is_some() && count > 0, RANGE)?;
        // Whether the list runs is not asked: no list does before there are entries.
        check(count <= self.pool.odts_left(), POOL_PASSED)?;
        self.pool.add_odts(number, count);
        Ok(())
    }

    pub(super) fn alloc_odt_entry(&mut self, packet: &[u8]) -> Outcome {
        at_least(packet, 6)?;
        self.lists_unlocked()?;
        let (number, odt) = (number16(packet, 2) as usize, packet[4] as usize);
        let count = packet[5] as usize;
        let in_order = matches!(self.pool.phase(), Phase::Odts | Phase::Entries);
        check(in_order, SEQUENCE)?;
        let entries = self.pool.entries_of(number, odt);
        check(entries.unwrap_or(0) == 0, SEQUENCE)?;
        check(entries.is_some() && count > 0, RANGE)?;
        check(!self.pool.lists()[number].runs(), LIST_RUNS)?;
        check(count <= self.pool.entries_left(), POOL_PASSED)?;
        self.pool.add_entries(number, odt, count);
        Ok(())
    }
}
