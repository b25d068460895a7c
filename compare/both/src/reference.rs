//! The plain slave with memories of its own: what each call should do.

use crate::effect::{written, Effect, Memory, ROOM, UNTOUCHED};
use crate::proved::{NO_STATE, STATE};
use crate::step::{Call, Step};
use plain::Slave;

pub struct Reference {
    slave: Slave,
    powered: bool,
    cal: Memory,
    meas: Memory,
}

impl Reference {
    pub fn new() -> Reference {
        Reference {
            slave: Slave::power_up(1),
            powered: false,
            cal: Memory::new(),
            meas: Memory::new(),
        }
    }

    /// Calibration and measured bytes as they are now, so many of each.
    pub fn lent(&self, cal: usize, meas: usize) -> [&[u8]; 2] {
        [&self.cal.now[..cal], &self.meas.now[..meas]]
    }

    pub fn make(&mut self, step: &Step) -> Effect {
        if let Call::Measure(at, bytes) = &step.call {
            self.meas.put(*at, bytes);
            return Effect::default();
        }
        let powers_up = matches!(step.call, Call::PowerUp(_));
        let mut room = [UNTOUCHED; ROOM];
        let (result, taken) = if step.state != STATE || !(self.powered || powers_up) {
            (NO_STATE, 0)
        } else {
            self.powered = true;
            self.call(step, &mut room)
        };
        Effect {
            result,
            taken,
            wrote: written(&room),
            cal: self.cal.change(),
            meas: self.meas.change(),
            strayed: false,
        }
    }

    /// What the plain slave makes of it, in the form that C gets, and how many bytes of a slice it took.
    fn call(&mut self, step: &Step, room: &mut [u8; ROOM]) -> (u32, u32) {
        let (cal, meas) = (&mut self.cal.now[..step.cal], &self.meas.now[..step.meas]);
        let result = match &step.call {
            Call::Slice(bytes) => {
                let (number, taken) = self.slave.receive(cal, meas, bytes);
                return (65_536 * number, taken as u32);
            }
            Call::PowerUp(start) => {
                self.slave = Slave::power_up(*start);
                0
            }
            Call::Byte(byte) => 65_536 * self.slave.receive_byte(cal, meas, *byte),
            Call::Event(event, clock) => self.slave.event(cal, meas, *event, *clock),
            Call::Slot(len) => self.slave.slot(&mut room[..*len]),
            Call::Measure(..) => 0,
        };
        (result, 0)
    }
}

/// What these steps should do, from the beginning on.
pub fn expected(steps: &[Step]) -> Vec<Effect> {
    let mut reference = Reference::new();
    steps.iter().map(|step| reference.make(step)).collect()
}
