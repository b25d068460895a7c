//! The proved slave linked into this program, lent its state at another address with every call.

use crate::effect::{written, Effect, Memory, ROOM, UNTOUCHED};
use crate::proved::{Proved, NO_STATE, STATE};
use crate::step::{Call, Step};

const GUARD: u8 = 0xA5;
const MARGIN: usize = 16;

pub struct Linked;

/// What a slice returned, how many bytes it took, and the state and the calibration bytes behind it.
type OneByOne = (u32, u32, Vec<u8>, Vec<u8>);

/// One run: its own state and memories.
struct Run {
    state: [u8; STATE],
    turn: usize,
    cal: Memory,
    meas: Memory,
}

impl Proved for Linked {
    fn way(&self) -> String {
        "linked".to_string()
    }

    fn state_size(&mut self) -> usize {
        ffi::state_size()
    }

    fn run(&mut self, steps: &[Step]) -> Vec<Effect> {
        let mut run = Run {
            state: [0; STATE],
            turn: 0,
            cal: Memory::new(),
            meas: Memory::new(),
        };
        steps.iter().map(|step| run.make(step)).collect()
    }
}

impl Run {
    fn make(&mut self, step: &Step) -> Effect {
        if let Call::Measure(at, bytes) = &step.call {
            self.meas.put(*at, bytes);
            return Effect::default();
        }
        let one_by_one = self.one_by_one(step);
        let mut bytes = [GUARD; MARGIN + STATE + MARGIN];
        // The address moves on, so that every alignment is met.
        self.turn = (self.turn + 1) % MARGIN;
        let (from, to) = (self.turn, self.turn + STATE);
        bytes[from..to].copy_from_slice(&self.state);
        let mut room = [UNTOUCHED; ROOM];
        let (result, taken) = self.call(step, &mut bytes[from..from + step.state], &mut room);
        let mut beside = bytes[..from].iter().chain(&bytes[to..]);
        let kept = beside.all(|b| *b == GUARD);
        if step.state == STATE && result >> 16 < 8 {
            self.state.copy_from_slice(&bytes[from..to]);
        }
        let same = one_by_one.map_or(true, |expected| {
            expected == (result, taken, self.state.to_vec(), self.cal.now.clone())
        });
        Effect {
            result,
            taken,
            wrote: written(&room),
            cal: self.cal.change(),
            meas: self.meas.change(),
            strayed: !kept || !same || bytes[from..to] != self.state,
        }
    }

    /// Of a slice: what the same bytes do to a copy, one by one up to the first whose number is not 0.
    fn one_by_one(&self, step: &Step) -> Option<OneByOne> {
        let bytes = match &step.call {
            Call::Slice(bytes) if step.state == STATE => bytes,
            _ => return None,
        };
        let (mut state, mut cal) = (self.state.to_vec(), self.cal.now.clone());
        let (mut result, mut taken) = (0, 0);
        for byte in bytes {
            let meas = &self.meas.now[..step.meas];
            result = ffi::receive_byte(&mut state, &mut cal[..step.cal], meas, *byte);
            // A state that is not consistent takes none.
            taken += u32::from(result != NO_STATE);
            if result != 0 {
                break;
            }
        }
        // Of no bytes only the slave itself can say whether its state is consistent.
        (!bytes.is_empty()).then_some((result, taken, state, cal))
    }

    /// What it returned, and how many bytes of a slice it took.
    fn call(&mut self, step: &Step, state: &mut [u8], room: &mut [u8; ROOM]) -> (u32, u32) {
        let (cal, meas) = (&mut self.cal.now[..step.cal], &self.meas.now[..step.meas]);
        let result = match &step.call {
            Call::Slice(bytes) => {
                let took = ffi::receive(state, cal, meas, bytes);
                return (took as u32, (took >> 32) as u32);
            }
            Call::PowerUp(start) => ffi::power_up(state, *start),
            Call::Byte(byte) => ffi::receive_byte(state, cal, meas, *byte),
            Call::Event(event, clock) => ffi::event(state, cal, meas, *event, *clock),
            Call::Slot(len) => ffi::slot(state, &mut room[..*len]),
            Call::Measure(..) => 0,
        };
        (result, 0)
    }
}
