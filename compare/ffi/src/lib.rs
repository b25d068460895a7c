//! The proved slave's C interface. All unsafe code of compare/ is here.

use std::ptr;

extern "C" {
    fn xcp_power_up(state: *mut u8, state_len: u64, start: u32) -> u32;
    fn xcp_receive_byte(
        state: *mut u8,
        state_len: u64,
        cal: *mut u8,
        cal_len: u64,
        meas: *const u8,
        meas_len: u64,
        byte: u8,
    ) -> u32;
    fn xcp_receive(
        state: *mut u8,
        state_len: u64,
        cal: *mut u8,
        cal_len: u64,
        meas: *const u8,
        meas_len: u64,
        bytes: *const u8,
        bytes_len: u64,
    ) -> u64;
    fn xcp_event(
        state: *mut u8,
        state_len: u64,
        cal: *const u8,
        cal_len: u64,
        meas: *const u8,
        meas_len: u64,
        event: u32,
        clock: u16,
    ) -> u32;
    fn xcp_slot(state: *mut u8, state_len: u64, out: *mut u8, out_len: u64) -> u32;
    fn xcp_state_size() -> u32;
}

/// NULL where nothing is lent, as a C host may well do.
#[inline]
fn front(bytes: &[u8]) -> *const u8 {
    if bytes.is_empty() {
        ptr::null()
    } else {
        bytes.as_ptr()
    }
}

#[inline]
fn front_mut(bytes: &mut [u8]) -> *mut u8 {
    if bytes.is_empty() {
        ptr::null_mut()
    } else {
        bytes.as_mut_ptr()
    }
}

/// Lengths have 64 bits in the interface.
#[inline]
fn length(bytes: &[u8]) -> u64 {
    bytes.len() as u64
}

// Each call below lends slices that Rust knows to be real and apart, all that the slave asks for. They
// are marked inline so that a loop in another crate calls the archive and nothing in between.

#[inline]
pub fn power_up(state: &mut [u8], start: u32) -> u32 {
    unsafe { xcp_power_up(front_mut(state), length(state), start) }
}

#[inline]
pub fn receive_byte(state: &mut [u8], cal: &mut [u8], meas: &[u8], byte: u8) -> u32 {
    let (state_len, cal_len) = (length(state), length(cal));
    unsafe {
        xcp_receive_byte(
            front_mut(state),
            state_len,
            front_mut(cal),
            cal_len,
            front(meas),
            length(meas),
            byte,
        )
    }
}

/// As the byte call's result in the lower half, how many bytes it took in the upper.
#[inline]
pub fn receive(state: &mut [u8], cal: &mut [u8], meas: &[u8], bytes: &[u8]) -> u64 {
    let (state_len, cal_len) = (length(state), length(cal));
    unsafe {
        xcp_receive(
            front_mut(state),
            state_len,
            front_mut(cal),
            cal_len,
            front(meas),
            length(meas),
            front(bytes),
            length(bytes),
        )
    }
}

#[inline]
pub fn event(state: &mut [u8], cal: &[u8], meas: &[u8], event: u32, clock: u16) -> u32 {
    unsafe {
        xcp_event(
            front_mut(state),
            length(state),
            front(cal),
            length(cal),
            front(meas),
            length(meas),
            event,
            clock,
        )
    }
}

#[inline]
pub fn slot(state: &mut [u8], out: &mut [u8]) -> u32 {
    let out_len = length(out);
    unsafe { xcp_slot(front_mut(state), length(state), front_mut(out), out_len) }
}

#[inline]
pub fn state_size() -> usize {
    unsafe { xcp_state_size() as usize }
}
