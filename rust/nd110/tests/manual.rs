//! Worked examples of the manuals, of docs/ARITHMETIC.md, of docs/ROTATIONS.md and of docs/FLOATING.md through the
//! archive, by crate `manual`: the proved engine is held to what is written there, with no other engine between.

use manual::Machine;
use nd110::{Refusal, State, long_to_short, short_to_long, step};

/// A step of an example's machine; the devices' words that it does not have are 0.
fn proved_step(machine: &mut Machine) {
    let mut state = State::new();
    let known = machine.state.len();
    state.0[..known].copy_from_slice(&machine.state);
    let interrupt = step(&mut state, &mut machine.memory, &mut machine.tables);
    machine.interrupt = interrupt.expect("in range");
    machine.state.copy_from_slice(&state.0[..known]);
}

#[test]
fn examples() {
    let lines = manual::differences(proved_step);
    assert!(lines.is_empty(), "{}", lines.join("\n"));
}

#[test]
fn floating() {
    let lines = manual::floating::differences(
        |short| short_to_long(short).map_err(Refusal::number),
        |long| long_to_short(long).map_err(Refusal::number),
    );
    assert!(lines.is_empty(), "{}", lines.join("\n"));
}
