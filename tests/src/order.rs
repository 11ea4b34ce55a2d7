// order.rs: the two rules of what a transaction depends on beside what it names. Cards have the new one; the old one is a wrong card's,
// and that of cards before request (c).

use crate::layout::Name;

#[derive(Clone, Copy, PartialEq, Eq, Debug, Default)]
pub enum Order {
    /// Paper 01: on nothing more.
    Unordered,
    /// Paper 02, request c: on the one before it on its core since the card came up.
    #[default]
    InSequence,
}

impl Order {
    /// The one before on the same core, where the rule asks for it. It is met as a name is: in the set or below its core's tail.
    pub fn before(self, name: Name) -> Option<Name> {
        match self {
            Order::Unordered => None,
            Order::InSequence => Some(Name { number: name.number.checked_sub(1)?, ..name }),
        }
    }
}
