//! The three kinds of term, and the bytes that stand for them.

#[derive(Clone, Copy, Debug, PartialEq, Eq)]
pub enum Term {
    Label(u8),
    Variable(u8),
    Dash,
}

impl Term {
    pub fn decode(byte: u8) -> Option<Term> {
        match byte {
            0x00..=0x0F => Some(Term::Label(byte)),
            0x10..=0x1F => Some(Term::Variable(byte - 0x10)),
            0xFF => Some(Term::Dash),
            _ => None,
        }
    }

    pub fn encode(self) -> u8 {
        match self {
            Term::Label(label) => label,
            Term::Variable(name) => 0x10 + name,
            Term::Dash => 0xFF,
        }
    }

    pub fn is_variable(self) -> bool {
        matches!(self, Term::Variable(_))
    }
}
