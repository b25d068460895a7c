//! Sequences built for what chance would seldom meet.

mod access;
mod allocation;
mod commands;
mod lists;
mod session;
mod shapes;
mod sizes;
mod slices;
mod wire;
mod wrong_keys;

use crate::rig::Rig;

pub fn run(rig: &mut Rig) {
    without_state(rig);
    session::run(rig);
    wrong_keys::run(rig);
    access::run(rig);
    sizes::run(rig);
    lists::run(rig);
    shapes::run(rig);
    allocation::run(rig);
    wire::run(rig);
    slices::run(rig);
    commands::run(rig);
}

/// Calls that find no state between calls that do.
fn without_state(rig: &mut Rig) {
    rig.begin(1, true);
    rig.open();
    for _ in 0..100 {
        rig.wrong_size();
        rig.ask(&[0xFD]);
    }
}
