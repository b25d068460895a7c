//! The slaves that are timed, behind one face.

use plain::Slave;

pub const STATE: usize = 1486;
pub const LENGTH: usize = 4096;
pub const ROOM: usize = 135;

pub struct Memories {
    pub cal: Vec<u8>,
    pub meas: Vec<u8>,
    /// For a slot that is timed.
    pub room: [u8; ROOM],
}

impl Memories {
    pub fn new() -> Memories {
        Memories {
            cal: vec![0; LENGTH],
            meas: (0..LENGTH).map(|i| (i * 7 + i / 64) as u8).collect(),
            room: [0; ROOM],
        }
    }
}

pub trait Subject: Clone + Send {
    fn power_up(start: u32) -> Self;
    fn byte(&mut self, memories: &mut Memories, byte: u8) -> u32;
    /// A slice: the paper's number, and how many bytes it took.
    fn slice(&mut self, memories: &mut Memories, bytes: &[u8]) -> (u32, usize);
    fn event(&mut self, memories: &Memories, event: u32, clock: u16) -> u32;
    fn slot(&mut self, out: &mut [u8]) -> u32;
    /// The paper's number in what `byte` has returned.
    fn number(result: u32) -> u32;
}

/// The archive, called as C calls it.
#[derive(Clone)]
pub struct Proved([u8; STATE]);

impl Subject for Proved {
    fn power_up(start: u32) -> Proved {
        let mut state = [0; STATE];
        ffi::power_up(&mut state, start);
        Proved(state)
    }

    #[inline(always)]
    fn byte(&mut self, memories: &mut Memories, byte: u8) -> u32 {
        ffi::receive_byte(&mut self.0, &mut memories.cal, &memories.meas, byte)
    }

    #[inline(always)]
    fn slice(&mut self, memories: &mut Memories, bytes: &[u8]) -> (u32, usize) {
        let took = ffi::receive(&mut self.0, &mut memories.cal, &memories.meas, bytes);
        (took as u32 >> 16, (took >> 32) as usize)
    }

    #[inline(always)]
    fn event(&mut self, memories: &Memories, event: u32, clock: u16) -> u32 {
        ffi::event(&mut self.0, &memories.cal, &memories.meas, event, clock)
    }

    #[inline(always)]
    fn slot(&mut self, out: &mut [u8]) -> u32 {
        ffi::slot(&mut self.0, out)
    }

    fn number(result: u32) -> u32 {
        result >> 16
    }
}

/// The plain slave: each byte or slice is a call, or the host's loop has the slave's reader inside.
#[derive(Clone)]
pub struct Plain<const INLINED: bool>(Slave);

pub type Called = Plain<false>;
pub type Inlined = Plain<true>;

impl<const INLINED: bool> Subject for Plain<INLINED> {
    fn power_up(start: u32) -> Self {
        Plain(Slave::power_up(start))
    }

    #[inline(always)]
    fn byte(&mut self, memories: &mut Memories, byte: u8) -> u32 {
        if INLINED {
            self.0
                .receive_byte_inlined(&mut memories.cal, &memories.meas, byte)
        } else {
            self.0.receive_byte(&mut memories.cal, &memories.meas, byte)
        }
    }

    #[inline(always)]
    fn slice(&mut self, memories: &mut Memories, bytes: &[u8]) -> (u32, usize) {
        if INLINED {
            self.0
                .receive_inlined(&mut memories.cal, &memories.meas, bytes)
        } else {
            self.0.receive(&mut memories.cal, &memories.meas, bytes)
        }
    }

    #[inline(always)]
    fn event(&mut self, memories: &Memories, event: u32, clock: u16) -> u32 {
        self.0.event(&memories.cal, &memories.meas, event, clock)
    }

    #[inline(always)]
    fn slot(&mut self, out: &mut [u8]) -> u32 {
        self.0.slot(out)
    }

    fn number(result: u32) -> u32 {
        result
    }
}
