//! The calls that are made to both slaves, and what is lent to each.

/// The longest memory lent; bytes past 4,096 can never be addressed.
pub const MEMORY: usize = 5000;

#[derive(Clone, Debug, PartialEq, Eq)]
pub enum Call {
    PowerUp(u32),
    Byte(u8),
    /// A slice of received bytes in one call.
    Slice(Vec<u8>),
    Event(u32, u16),
    /// A slot with that much room.
    Slot(usize),
    /// The host's own work: measured bytes change.
    Measure(u16, Vec<u8>),
}

/// A call and what is lent to it.
#[derive(Clone, Debug, PartialEq, Eq)]
pub struct Step {
    pub call: Call,
    /// The size of the state; the plain slave has no such thing, so only `STATE` is for both.
    pub state: usize,
    pub cal: usize,
    pub meas: usize,
}
