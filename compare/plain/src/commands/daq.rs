//! Setting up, starting and stopping the lists.

use super::{
    at_least, check, number16, number32, Outcome, LIST_RUNS, LOCKED, NOT_INSIDE, RANGE, SEQUENCE,
    UNFIT,
};
use crate::lists::{Entry, Pointer, EVENTS};
use crate::memory::{block, Extension};
use crate::packet::Packet;
use crate::session::Session;

const STOP: u8 = 0;
const START: u8 = 1;
const SELECT: u8 = 2;

const STOP_ALL: u8 = 0;
const START_SELECTED: u8 = 1;
const STOP_SELECTED: u8 = 2;

impl Session {
    pub(super) fn lists_unlocked(&self) -> Outcome {
        check(!self.lists_locked, LOCKED)
    }

    pub(super) fn clear_daq_list(&mut self, packet: &[u8]) -> Outcome {
        at_least(packet, 4)?;
        self.lists_unlocked()?;
        let number = self.list_number(packet)?;
        check(!self.pool.lists()[number].runs(), LIST_RUNS)?;
        self.pool.clear(number);
        Ok(())
    }

    pub(super) fn set_daq_ptr(&mut self, packet: &[u8]) -> Outcome {
        at_least(packet, 6)?;
        self.lists_unlocked()?;
        let list = self.list_number(packet)?;
        let (odt, entry) = (packet[4] as usize, packet[5] as usize);
        let entries = self.pool.entries_of(list, odt).ok_or(RANGE)?;
        check(entry < entries, RANGE)?;
        self.pointer = Pointer::At { list, odt, entry };
        Ok(())
    }

    pub(super) fn write_daq(&mut self, packet: &[u8], cal: &[u8], meas: &[u8]) -> Outcome {
        at_least(packet, 8)?;
        self.lists_unlocked()?;
        let (list, odt, entry) = match self.pointer {
            Pointer::At { list, odt, entry } => (list, odt, entry),
            Pointer::Unset => return Err(SEQUENCE),
        };
        let size = packet[2];
        check(packet[1] == 0xFF && size <= 4, RANGE)?;
        let extension = Extension::from_byte(packet[3]).ok_or(RANGE)?;
        check(!self.pool.lists()[list].runs(), LIST_RUNS)?;
        let address = number32(packet, 4);
        // An entry of size 0 reads nothing, so any address will do for it.
        let memory = extension.of(cal, meas);
        let inside = size == 0 || block(memory, address, u32::from(size)).is_some();
        check(inside, NOT_INSIDE)?;
        let written = Entry {
            size,
            extension,
            address,
        };
        self.pool.set_entry(list, odt, entry, written);
        self.pointer = match self.pool.entries_of(list, odt) {
            Some(entries) if entry + 1 < entries => Pointer::At {
                list,
                odt,
                entry: entry + 1,
            },
            _ => Pointer::Unset,
        };
        Ok(())
    }

    pub(super) fn set_daq_list_mode(&mut self, packet: &[u8]) -> Outcome {
        at_least(packet, 8)?;
        self.lists_unlocked()?;
        check(packet[1] == 0x10, RANGE)?;
        let number = self.list_number(packet)?;
        let list = &mut self.pool.lists_mut()[number];
        let event = u32::from(number16(packet, 4));
        let (prescaler, priority) = (packet[6], packet[7]);
        check(event < EVENTS && prescaler == 1 && priority == 0, RANGE)?;
        check(!list.runs(), LIST_RUNS)?;
        list.event = Some(event);
        Ok(())
    }

    pub(super) fn start_stop_daq_list(&mut self, packet: &[u8], answer: &mut Packet) -> Outcome {
        at_least(packet, 4)?;
        self.lists_unlocked()?;
        let mode = packet[1];
        check(mode <= SELECT, RANGE)?;
        let number = self.list_number(packet)?;
        check(mode != START || self.pool.may_start(number), UNFIT)?;
        let list = &mut self.pool.lists_mut()[number];
        match mode {
            STOP => list.stop(),
            START => list.start(),
            _ => list.selected = true,
        }
        answer.extend(&[list.first as u8]);
        Ok(())
    }

    pub(super) fn start_stop_synch(&mut self, packet: &[u8]) -> Outcome {
        at_least(packet, 2)?;
        self.lists_unlocked()?;
        let mode = packet[1];
        check(mode <= STOP_SELECTED, RANGE)?;
        if mode == START_SELECTED {
            // All are judged before the first is started: all or none.
            let mut lists = self.pool.lists().iter().enumerate();
            let all_fit = lists.all(|(number, l)| !l.selected || self.pool.may_start(number));
            check(all_fit, UNFIT)?;
        }
        for list in self.pool.lists_mut() {
            match (mode, list.selected) {
                (STOP_ALL, _) | (STOP_SELECTED, true) => list.stop(),
                (START_SELECTED, true) => list.start(),
                _ => {}
            }
            list.selected = false;
        }
        Ok(())
    }

    pub(super) fn get_daq_processor_info(&self, answer: &mut Packet) -> Outcome {
        self.lists_unlocked()?;
        let count = self.pool.lists().len() as u8;
        answer.extend(&[0x11, count, 0, 0x02, 0, 0, 0]);
        Ok(())
    }

    pub(super) fn get_daq_resolution_info(&self, answer: &mut Packet) -> Outcome {
        self.lists_unlocked()?;
        answer.extend(&[0x01, 0x04, 0, 0, 0x6A, 0x01, 0]);
        Ok(())
    }

    /// The list number at byte 2; both of its bytes are judged.
    fn list_number(&self, packet: &[u8]) -> Result<usize, u8> {
        let number = number16(packet, 2) as usize;
        check(number < self.pool.lists().len(), RANGE)?;
        Ok(number)
    }
}
