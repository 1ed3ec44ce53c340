//! The order of a listing (02, requests d and f): by hand, by loops in the words of the requests, and where two
//! circuits have one polynomial.

use crate::Checks;
use crate::circuits::in_layers;
use crate::refusals::model_agrees;
use waitfield_checks::circuits;
use waitfield_checks::elimination::Polynomial;
use waitfield_checks::gates::Colour::{Blue, Green, Red};
use waitfield_checks::gates::{COLOURS, Gate, cz, z};
use waitfield_checks::model::{Answer, HISTORY, listing};
use waitfield_checks::random::Random;
use waitfield_checks::script::Script;

/// At 16 positions numbers of two digits come behind those of one.
const SIZES: [usize; 5] = [1, 2, 3, 5, 16];

/// Sets of terms, and polynomials by two circuits, of each m for a seed.
const SETS: usize = 8;
const POLYNOMIALS: usize = 4;

/// Gates as an operator may give them, and their listing, both written by hand.
const GIVEN: [&str; 24] = [
    "(z (g 2))",
    "(cz (g 10) (b 11))",
    "(z (b 12))",
    "(ccz 10 1 12)",
    "(cz (b 1) (r 10))",
    "(cz (r 12) (g 1))",
    "(ccz 2 10 9)",
    "(cz (r 9) (b 12))",
    "(cz (g 4) (b 1))",
    "(ccz 2 3 11)",
    "(z (r 10))",
    "(cz (g 12) (r 1))",
    "(cz (b 3) (r 9))",
    "(z (g 1))",
    "(ccz 10 1 2)",
    "(cz (b 11) (g 2))",
    "(cz (g 11) (r 3))",
    "(cz (r 2) (b 10))",
    "(ccz 2 10 1)",
    "(z (b 3))",
    "(cz (r 3) (g 2))",
    "(z (r 2))",
    "(cz (b 2) (g 10))",
    "(z (g 11))",
];

const LISTED: [&str; 24] = [
    "(ccz 2 3 11)",
    "(ccz 2 10 1)",
    "(ccz 2 10 9)",
    "(ccz 10 1 2)",
    "(ccz 10 1 12)",
    "(cz (r 2) (b 10))",
    "(cz (r 9) (b 3))",
    "(cz (r 9) (b 12))",
    "(cz (r 10) (b 1))",
    "(cz (r 1) (g 12))",
    "(cz (r 3) (g 2))",
    "(cz (r 3) (g 11))",
    "(cz (r 12) (g 1))",
    "(cz (b 1) (g 4))",
    "(cz (b 2) (g 10))",
    "(cz (b 11) (g 2))",
    "(cz (b 11) (g 10))",
    "(z (r 2))",
    "(z (r 10))",
    "(z (b 3))",
    "(z (b 12))",
    "(z (g 1))",
    "(z (g 2))",
    "(z (g 11))",
];

fn by_hand(checks: &mut Checks) {
    let mut script = Script::default();
    script.case("a listing written by hand");
    script.say("(circuit 12)", "(ok)");
    GIVEN.iter().for_each(|gate| script.say(gate, "(ok)"));
    let answer = Answer {
        first: "(terms 24)".into(),
        later: LISTED.map(String::from).to_vec(),
    };
    script.line("(terms)", answer);
    checks.run(&script);
    model_agrees(checks, &script, "a listing written by hand");
}

/// Every term of m positions, in the words of document 02: "First the CCZ terms by red, then blue, then green position.
/// Then CZ terms red-blue, red-green, blue-green, each by first and then second position, colours written in the order
/// r, b, g"; terms of one position "last, by colour and position".
pub fn every_term(m: usize) -> Vec<Gate> {
    let mut terms = Vec::new();
    for red in 1..=m {
        for blue in 1..=m {
            for green in 1..=m {
                terms.push(Gate::Ccz { red, blue, green });
            }
        }
    }
    for (first, second) in [(Red, Blue), (Red, Green), (Blue, Green)] {
        for i in 1..=m {
            for j in 1..=m {
                terms.push(cz(first, i, second, j));
            }
        }
    }
    for colour in COLOURS {
        for i in 1..=m {
            terms.push(z(colour, i));
        }
    }
    terms
}

/// A term with its place among all terms of m positions.
type Placed = (usize, Gate);

fn in_any_order(random: &mut Random, m: usize) -> Vec<Placed> {
    let terms: Vec<Placed> = every_term(m).into_iter().enumerate().collect();
    random.shuffled(&terms)
}

fn gates(terms: &[Placed]) -> Vec<Gate> {
    terms.iter().map(|&(_, term)| term).collect()
}

/// The listing of the terms by their places.
fn listed(terms: &[Placed]) -> Answer {
    let mut terms = terms.to_vec();
    terms.sort_by_key(|&(place, _)| place);
    Answer::of_terms(&gates(&terms))
}

/// Gates a line each, every CZ with its colours in either order.
fn give(script: &mut Script, random: &mut Random, gates: &[Gate]) {
    for &gate in gates {
        script.say(random.either_way(gate).to_string(), "(ok)");
    }
}

/// Every term, by CNOTs: at m = 16 there are more than the history holds. Then gates that take some of the terms away,
/// and are taken back.
fn every_term_by_cnots(script: &mut Script, random: &mut Random, m: usize) {
    let made = circuits::every_term(m);
    let terms = in_any_order(random, m);
    let most = terms.len().min(HISTORY - made.len());
    let (gone, left) = terms.split_at(1 + random.below(most));
    script.say(format!("(circuit {m})"), "(ok)");
    in_layers(script, &made);
    script.line("(terms)", listed(&terms));
    give(script, random, &gates(gone));
    script.line("(terms)", listed(left));
    script.say(format!("(undo {})", gone.len()), "(ok)");
    script.line("(terms)", listed(&terms));
}

/// So many of the terms given as gates, and some of these taken back.
fn set(script: &mut Script, random: &mut Random, m: usize, count: usize) {
    let terms = &in_any_order(random, m)[..count];
    let fewer = random.below(count);
    script.say(format!("(circuit {m})"), "(ok)");
    give(script, random, &gates(terms));
    script.line("(terms)", listed(terms));
    script.say(format!("(undo {})", count - fewer), "(ok)");
    script.line("(terms)", listed(&terms[..fewer]));
}

/// Sets of terms, the first of them of all terms, or of as many as the history holds.
fn sets(script: &mut Script, random: &mut Random, seed: u64, m: usize) {
    let most = every_term(m).len().min(HISTORY);
    for number in 0..SETS {
        let count = if number == 0 { most } else { 1 + random.below(most) };
        script.case(format!("{count} terms as gates, seed {seed}, m = {m}, set {number}"));
        set(script, random, m, count);
    }
}

/// Lines that leave the polynomial as it is: a gate twice, and gates that are taken back.
fn way_round(script: &mut Script, random: &mut Random, m: usize) {
    if random.once_in(8) {
        let gate = random.gate(m);
        give(script, random, &[gate, gate]);
    }
    if random.once_in(8) {
        let several = random.gates(m, 3);
        give(script, random, &several);
        script.say("(undo 3)", "(ok)");
    }
}

/// One polynomial by two circuits: by random gates, CNOTs among them, and by its terms as gates in any order, with
/// CNOTs and undos between them. The same bytes are expected of both.
fn two_circuits(script: &mut Script, random: &mut Random, m: usize) {
    let gates = random.gates(m, 8 * m);
    let terms = Polynomial::of(m, &gates).terms();
    let listed = listing(&terms);
    script.say(format!("(circuit {m})"), "(ok)");
    in_layers(script, &gates);
    script.line("(terms)", listed.clone());
    script.say(format!("(circuit {m})"), "(ok)");
    for term in random.shuffled(&terms) {
        way_round(script, random, m);
        give(script, random, &[term]);
    }
    script.line("(terms)", listed);
}

pub fn check(checks: &mut Checks) {
    by_hand(checks);
    for seed in checks.seeds.clone() {
        let mut random = Random::new(seed);
        let mut script = Script::default();
        for m in SIZES {
            script.case(format!("every term by CNOTs, seed {seed}, m = {m}"));
            every_term_by_cnots(&mut script, &mut random, m);
            sets(&mut script, &mut random, seed, m);
            for number in 0..POLYNOMIALS {
                script.case(format!("two circuits, seed {seed}, m = {m}, polynomial {number}"));
                two_circuits(&mut script, &mut random, m);
            }
        }
        checks.run(&script);
    }
}
