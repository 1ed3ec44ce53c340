//! Colours, gates and strings in the words of documents 01 and 02, and their spelling in a line.

use std::cmp::Reverse;
use std::fmt;

#[derive(Clone, Copy, PartialEq, Eq, PartialOrd, Ord, Debug)]
pub enum Colour {
    Red,
    Blue,
    Green,
}

pub const COLOURS: [Colour; 3] = [Colour::Red, Colour::Blue, Colour::Green];

impl Colour {
    pub fn number(self) -> usize {
        self as usize
    }

    /// The other two colours, in order r, b, g.
    pub fn others(self) -> [Colour; 2] {
        match self {
            Colour::Red => [Colour::Blue, Colour::Green],
            Colour::Blue => [Colour::Red, Colour::Green],
            Colour::Green => [Colour::Red, Colour::Blue],
        }
    }

    /// The third colour beside this one and another.
    pub fn third(self, other: Colour) -> Colour {
        let [first, second] = self.others();
        if other == first { second } else { first }
    }

    /// Strings of the other two colours, in order: one of a colour named, and one of the third.
    pub fn beside(self, named: Colour, string: u32, of_third: u32) -> [u32; 2] {
        self.others()
            .map(|colour| if colour == named { string } else { of_third })
    }
}

impl fmt::Display for Colour {
    fn fmt(&self, f: &mut fmt::Formatter) -> fmt::Result {
        f.write_str(["r", "b", "g"][self.number()])
    }
}

/// A position of a colour. Positions run from 1.
#[derive(Clone, Copy, PartialEq, Eq, PartialOrd, Ord, Debug)]
pub struct Spot {
    pub colour: Colour,
    pub position: usize,
}

pub fn spot(colour: Colour, position: usize) -> Spot {
    Spot { colour, position }
}

impl fmt::Display for Spot {
    fn fmt(&self, f: &mut fmt::Formatter) -> fmt::Result {
        write!(f, "({} {})", self.colour, self.position)
    }
}

#[derive(Clone, Copy, PartialEq, Eq, Debug)]
pub enum Gate {
    Ccz {
        red: usize,
        blue: usize,
        green: usize,
    },
    Cz(Spot, Spot),
    Cnot {
        colour: Colour,
        control: usize,
        target: usize,
    },
    Z(Spot),
}

impl Gate {
    /// The positions that the gate touches.
    pub fn spots(&self) -> Vec<Spot> {
        match *self {
            Gate::Ccz { red, blue, green } => vec![
                spot(Colour::Red, red),
                spot(Colour::Blue, blue),
                spot(Colour::Green, green),
            ],
            Gate::Cz(first, second) => vec![first, second],
            Gate::Cnot {
                colour,
                control,
                target,
            } => vec![spot(colour, control), spot(colour, target)],
            Gate::Z(spot) => vec![spot],
        }
    }

    /// The same gate with other positions, each by the one that it is put in the place of.
    pub fn moved(&self, to: impl Fn(Spot) -> usize) -> Gate {
        match *self {
            Gate::Ccz { red, blue, green } => Gate::Ccz {
                red: to(spot(Colour::Red, red)),
                blue: to(spot(Colour::Blue, blue)),
                green: to(spot(Colour::Green, green)),
            },
            Gate::Cz(first, second) => cz(first.colour, to(first), second.colour, to(second)),
            Gate::Cnot {
                colour,
                control,
                target,
            } => cnot(colour, to(spot(colour, control)), to(spot(colour, target))),
            Gate::Z(spot) => z(spot.colour, to(spot)),
        }
    }

    /// The same gate, a CZ with its two positions in the other order.
    pub fn turned(self) -> Gate {
        match self {
            Gate::Cz(first, second) => Gate::Cz(second, first),
            _ => self,
        }
    }

    /// The term of a CCZ, CZ or Z as it is listed: "colours written in the order r, b, g" (02, request d).
    pub fn listed(self) -> Gate {
        match self {
            Gate::Cz(first, second) if second.colour < first.colour => self.turned(),
            _ => self,
        }
    }

    /// What a term is placed by in a listing, compared from the left (02, requests d and f): its kind, CCZ with three
    /// positions before CZ with two before Z with one; its colours as listed, which puts CZ in the order red-blue,
    /// red-green, blue-green; its positions as listed.
    pub fn listing_key(self) -> impl Ord {
        let spots = self.listed().spots();
        let kind = Reverse(spots.len());
        let colours: Vec<Colour> = spots.iter().map(|spot| spot.colour).collect();
        let positions: Vec<usize> = spots.iter().map(|spot| spot.position).collect();
        (kind, colours, positions)
    }
}

impl fmt::Display for Gate {
    fn fmt(&self, f: &mut fmt::Formatter) -> fmt::Result {
        match self {
            Gate::Ccz { red, blue, green } => write!(f, "(ccz {red} {blue} {green})"),
            Gate::Cz(first, second) => write!(f, "(cz {first} {second})"),
            Gate::Cnot {
                colour,
                control,
                target,
            } => write!(f, "(cnot {colour} {control} {target})"),
            Gate::Z(spot) => write!(f, "(z {spot})"),
        }
    }
}

pub fn cz(first: Colour, position: usize, second: Colour, other: usize) -> Gate {
    Gate::Cz(spot(first, position), spot(second, other))
}

pub fn cnot(colour: Colour, control: usize, target: usize) -> Gate {
    Gate::Cnot {
        colour,
        control,
        target,
    }
}

pub fn z(colour: Colour, position: usize) -> Gate {
    Gate::Z(spot(colour, position))
}

/// One bit to every position of every colour: bit p - 1 of a word is position p of that colour.
pub type Strings = [u32; 3];

/// Two strings added position by position, modulo 2.
pub fn added(first: Strings, second: Strings) -> Strings {
    [0, 1, 2].map(|colour| first[colour] ^ second[colour])
}

/// A bit string of m digits, position 1 first.
pub fn digits(m: usize, word: u32) -> String {
    (0..m)
        .map(|place| if word >> place & 1 == 1 { '1' } else { '0' })
        .collect()
}

/// The word of a bit string of at most 32 digits.
pub fn word(digits: &str) -> u32 {
    digits
        .bytes()
        .enumerate()
        .map(|(place, digit)| u32::from(digit == b'1') << place)
        .sum()
}

/// Three bit strings as `amp` and `start` have them.
pub fn spelled(m: usize, strings: Strings) -> String {
    strings.map(|word| digits(m, word)).join(" ")
}

/// The strings that are spelled so.
pub fn strings(spelled: &str) -> Strings {
    let words: Vec<u32> = spelled.split(' ').map(word).collect();
    words.try_into().expect("three strings")
}
