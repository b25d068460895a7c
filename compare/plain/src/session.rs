//! What belongs to one session and is gone with it.

use crate::lists::Pointer;
use crate::memory::Mta;
use crate::pool::Pool;
use crate::seed::Resource;

#[derive(Clone, Debug, PartialEq, Eq)]
pub struct Session {
    pub open: bool,
    pub calibration_locked: bool,
    pub lists_locked: bool,
    /// The seed that is out and the resource it is for; there is never more than one.
    pub seed: Option<(Resource, u32)>,
    pub mta: Mta,
    pub pointer: Pointer,
    pub pool: Pool,
}

impl Session {
    /// No session: all as in a fresh one, but not open.
    pub fn closed() -> Session {
        Session {
            open: false,
            calibration_locked: true,
            lists_locked: true,
            seed: None,
            mta: Mta::Unset,
            pointer: Pointer::Unset,
            pool: Pool::fresh(),
        }
    }

    /// Ends it: the same as a closed one, but the pool is made a fresh one where it is.
    pub fn end(&mut self) {
        self.open = false;
        self.calibration_locked = true;
        self.lists_locked = true;
        self.seed = None;
        self.mta = Mta::Unset;
        self.pointer = Pointer::Unset;
        self.pool.end();
    }

    pub fn locked_mask(&self) -> u8 {
        u8::from(self.calibration_locked) | u8::from(self.lists_locked) << 2
    }

    /// The lock of a resource.
    pub fn lock(&mut self, resource: Resource) -> &mut bool {
        match resource {
            Resource::Calibration => &mut self.calibration_locked,
            Resource::Lists => &mut self.lists_locked,
        }
    }
}
