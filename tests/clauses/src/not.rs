//! `not` of clauses.capnp, made by capnpc_rattle.

ghost use Rattle.std.specs.Prelude.{◌≡◌};
ghost use Rattle.cp_words.specs.declared.pointer.ElementSize.TheVariants as sizes;
ghost use Rattle.cp_fields.specs.Numbers.{plain};
ghost use Rattle.clauses.specs.Not.{not_of, not_number};

use cp_fields::{Element, StructReader, UnknownEnumerant};

/// `enum Not`.
#[derive(Clone, Copy, PartialEq, Eq, Debug)]
pub enum Not {
    On,
    Blank,
    None,
    /// A number that a newer schema has.
    Unknown(UnknownEnumerant<2>),
}

impl Not {
    /// The value of this number.
    pub fn of(number: u16) -> Not
        ensures { result ≡ not_of number }
    {
        match number {
            0 => Not::On,
            1 => Not::Blank,
            2 => Not::None,
            _ => match UnknownEnumerant::new(number) {
                Some(number) => Not::Unknown(number),
                None => unreachable!(),
            },
        }
    }

    /// Its number.
    pub fn number(self) -> u16
        ensures { result ≡ not_number self }
    {
        match self {
            Not::On => 0,
            Not::Blank => 1,
            Not::None => 2,
            Not::Unknown(number) => number.number(),
        }
    }
}

impl<'a> Element<'a> for Not {
    ghost SIZE = { sizes.TwoBytes };

    ghost read = { λ t. not_of (plain t 16 0) };

    fn size() -> cp_words::ElementSize {
        cp_words::ElementSize::TwoBytes
    }

    fn of_element(item: StructReader<'a>) -> Not {
        Not::of(item.u16(0))
    }
}

impl cp_builder::Enumerant for Not {
    ghost number = { not_number };

    fn as_number(&self) -> u16 {
        self.number()
    }
}
