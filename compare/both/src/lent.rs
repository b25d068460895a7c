//! What is lent to a call where its length matters: each of these is lent, and has to be seen.

use crate::proved::STATE;
use crate::wire::FRAME;

/// Of a memory.
pub const LENGTHS: [usize; 5] = [0, 1, 4095, 4096, 5000];
/// Room for a slot: none, what was enough while packets had 8 bytes, around what is, and more.
pub const ROOMS: [usize; 7] = [0, 22, 23, FRAME - 1, FRAME, FRAME + 1, FRAME + 7];
/// Of a state, which is refused.
pub const WRONG_SIZES: [usize; 5] = [0, 3, 4, STATE - 1, STATE + 1];
