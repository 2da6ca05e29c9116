//! A refusal: its number, and its place where it has one.

use std::fmt;

#[derive(Clone, Copy, Debug, PartialEq, Eq)]
pub struct Refusal {
    pub number: u8,
    pub place: Option<usize>,
}

impl Refusal {
    pub fn plain(number: u8) -> Refusal {
        Refusal { number, place: None }
    }

    pub fn at(number: u8, place: usize) -> Refusal {
        Refusal { number, place: Some(place) }
    }
}

impl fmt::Display for Refusal {
    fn fmt(&self, f: &mut fmt::Formatter) -> fmt::Result {
        match self.place {
            None => write!(f, "refused {}", self.number),
            Some(place) => write!(f, "refused {} at {}", self.number, place),
        }
    }
}
