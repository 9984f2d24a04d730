//! A call run by the given Rust, through its public dispatchers.
use crate::calls::{Call, Gate};
use spinoza::core::State;
use spinoza::gates::{self, apply, c_apply, mc_apply};
use spinoza::measurement::measure_qubit;

pub fn gate_of(gate: Gate, target: usize) -> gates::Gate {
    match gate {
        Gate::H => gates::Gate::H,
        Gate::X => gates::Gate::X,
        Gate::Y => gates::Gate::Y,
        Gate::Z => gates::Gate::Z,
        Gate::P(angle) => gates::Gate::P(angle),
        Gate::Rx(angle) => gates::Gate::RX(angle),
        Gate::Ry(angle) => gates::Gate::RY(angle),
        Gate::Rz(angle) => gates::Gate::RZ(angle),
        Gate::U(theta, phi, lambda) => gates::Gate::U(theta, phi, lambda),
        Gate::Swap(second) => gates::Gate::SWAP(target, second as usize),
        Gate::BitFlip(prob, _) => gates::Gate::BitFlipNoise(prob),
        Gate::Measure(..) => unreachable!("measured by measure_qubit"),
    }
}

/// No control and one go through `apply` and `c_apply`, more through `mc_apply`.
pub fn run(call: &Call, state: &mut State) {
    let target = call.target as usize;
    match call.gate {
        Gate::Measure(outcome, reset) => {
            measure_qubit(state, target, reset == 1, Some(outcome));
            return;
        }
        Gate::BitFlip(_, k) => spinoza::set_draw(k),
        _ => {}
    }
    let gate = gate_of(call.gate, target);
    match call.controls[..] {
        [] => apply(gate, state, target),
        [control] => c_apply(gate, state, control as usize, target),
        _ => {
            let controls: Vec<usize> = call.controls.iter().map(|&c| c as usize).collect();
            mc_apply(gate, state, &controls, None, target)
        }
    }
}
