//! Z gates (02, request f): by hand, every polynomial of one position a colour, every position and every CNOT of
//! sixteen, and the law of source document 001 that moves them to the end of a circuit.

mod by_hand;
mod every_polynomial;
mod every_position;
mod moved;

use crate::Checks;
use crate::starts::carried;
use waitfield_checks::gates::{COLOURS, Gate, Strings, added, z};
use waitfield_checks::random::Random;

/// "the Pauli-Z gates can be flushed to the right side of the circuit" and "turned into bit flips" (001, section II):
/// the bits of the output string that they turn. A Z on a CNOT's target comes to its control too. The sum at s is that
/// of the circuit without its Z gates at s with this string added; the reference and the elimination do not know it.
pub fn flushed(gates: &[Gate]) -> Strings {
    let mut strings = [0; 3];
    for gate in gates {
        match gate {
            Gate::Z(spot) => strings[spot.colour.number()] ^= 1 << (spot.position - 1),
            _ => strings = carried(strings, std::slice::from_ref(gate)),
        }
    }
    strings
}

/// What start and Z gates shift the sums of a circuit by: the sum at s is that of zeros without the Z gates at s with
/// this string added. So the sum at this string is theirs at zeros.
pub fn shift(start: Strings, gates: &[Gate]) -> Strings {
    added(carried(start, gates), flushed(gates))
}

pub fn without_z(gates: &[Gate]) -> Vec<Gate> {
    let mut others = gates.to_vec();
    others.retain(|gate| !matches!(gate, Gate::Z(_)));
    others
}

/// A Z on every position that has a one.
pub fn on_ones(strings: Strings) -> Vec<Gate> {
    let places = |word: u32| (0..32).filter(move |place| word >> place & 1 == 1);
    let on_each = |(colour, word)| places(word).map(move |place| z(colour, place + 1));
    COLOURS.into_iter().zip(strings).flat_map(on_each).collect()
}

pub fn check(checks: &mut Checks) {
    by_hand::check(checks);
    for seed in checks.seeds.clone() {
        let mut random = Random::new(seed);
        every_polynomial::check(checks, &mut random, seed);
        every_position::check(checks, &mut random, seed);
        moved::check(checks, &mut random, seed);
    }
}
