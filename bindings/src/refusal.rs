//! Why a call is refused.
use std::error::Error;
use std::fmt;

/// From the one table of refusals: the enum, and the way from a number to it and back.
macro_rules! refusals {
    ($($number:literal $name:ident $({ $place:ident })? $words:literal;)*) => {
        /// Why a call was refused: the numbers of documents 01 and 02.
        #[derive(Clone, Copy, Debug, PartialEq, Eq, Hash)]
        pub enum Refusal {
            $(
                #[doc = concat!($number, ": ", $words)]
                $name $({ $place: u32 })?,
            )*
            /// any other number: the archive is not of this wrapper's version
            Unknown { number: u32 },
        }

        impl Refusal {
            /// The refusal that a number other than 0 stands for; a place is named by number 10 alone.
            pub(crate) fn of(number: u32, place: u32) -> Refusal {
                match number {
                    $($number => Refusal::$name $({ $place: place })?,)*
                    _ => Refusal::Unknown { number },
                }
            }

            /// The paper's number.
            pub fn number(self) -> u32 {
                match self {
                    $(Refusal::$name $({ $place: _ })? => $number,)*
                    Refusal::Unknown { number } => number,
                }
            }

            fn words(self) -> &'static str {
                match self {
                    $(Refusal::$name $({ $place: _ })? => $words,)*
                    Refusal::Unknown { .. } => "refused by a number that is not known here",
                }
            }
        }
    };
}

refusals! {
    1 Trailer "the trailer is not good";
    2 OutOfRange "no such slot, no such code, or a coordinate off the grid";
    3 Empty "the slot is empty";
    4 Spoiled "the slot is spoiled";
    5 NotOffered "the rule doesn't offer the move";
    6 NoRoom "the queue has no empty slot";
    7 AllTaken "all serials are given out";
    8 Sizes "width, height, depth or profile is not accepted";
    9 Buffer "the buffer has the wrong length";
    10 Fault { place } "the full check failed";
    11 NothingHeld "no slot is held";
    12 GivesWay "a packet in the node's B queue goes first on the link";
}

impl fmt::Display for Refusal {
    fn fmt(&self, f: &mut fmt::Formatter<'_>) -> fmt::Result {
        f.write_str(self.words())?;
        match self {
            Refusal::Fault { place } => write!(f, " at {place}"),
            Refusal::Unknown { number } => write!(f, ": {number}"),
            _ => Ok(()),
        }
    }
}

impl Error for Refusal {}

#[cfg(test)]
mod tests {
    use super::*;

    #[test]
    fn every_number_has_its_refusal_and_back() {
        let all = [
            Refusal::Trailer,
            Refusal::OutOfRange,
            Refusal::Empty,
            Refusal::Spoiled,
            Refusal::NotOffered,
            Refusal::NoRoom,
            Refusal::AllTaken,
            Refusal::Sizes,
            Refusal::Buffer,
            Refusal::Fault { place: 5 },
            Refusal::NothingHeld,
            Refusal::GivesWay,
        ];
        for (number, refusal) in (1..).zip(all) {
            assert_eq!(Refusal::of(number, 5), refusal);
            assert_eq!(refusal.number(), number);
        }
    }

    #[test]
    fn a_number_that_is_not_known_is_a_refusal_too() {
        for number in [13, u32::MAX] {
            let refusal = Refusal::of(number, 5);
            assert_eq!(refusal, Refusal::Unknown { number });
            assert_eq!(refusal.number(), number);
        }
        assert_eq!(
            Refusal::of(13, 5).to_string(),
            "refused by a number that is not known here: 13"
        );
    }

    #[test]
    fn words_name_the_place_of_a_fault() {
        assert_eq!(Refusal::of(10, 5).to_string(), "the full check failed at 5");
        assert_eq!(Refusal::of(11, 5).to_string(), "no slot is held");
        assert_eq!(
            Refusal::of(12, 5).to_string(),
            "a packet in the node's B queue goes first on the link"
        );
    }
}
