//! A formula as the list of its parts, inner before outer and left before right; the last part is the whole.

#[derive(Clone, Copy, Debug, PartialEq, Eq)]
pub enum Connective {
    And,
    Or,
    Implies,
    Equal,
}

#[derive(Clone, Copy, Debug, PartialEq, Eq)]
pub enum Part {
    False,
    Letter(u8),
    /// A connective with the indices of its two parts.
    Join(Connective, usize, usize),
}

pub type Formula = Vec<Part>;
