//! Why a call is refused.

use std::error::Error;
use std::fmt;

/// Makes [`Refusal`] of a table: the name of each reason, its number, and the words that say what
/// was refused.
macro_rules! refusals {
    ($($name:ident = $number:literal, $text:literal;)*) => {
        /// Why a call is refused. Of the reasons that apply, a call gives the one with the lowest
        /// number, but that [`NoWordLeft`](Self::NoWordLeft) and
        /// [`LastTryRejected`](Self::LastTryRejected) go by which comes first.
        ///
        /// ```
        /// use valwydr::{Refusal, Stake, StakeWeightedSampler, Words};
        ///
        /// let sampler = StakeWeightedSampler::new(vec![Stake::new(0); 3]);
        /// let refusal = sampler.sample(&mut Words::new(&[13])).unwrap_err();
        /// assert_eq!(refusal, Refusal::TotalZero);
        /// assert_eq!(refusal.number(), 9);
        /// assert_eq!(refusal.to_string(), "the stakes sum to 0");
        /// ```
        #[non_exhaustive]
        #[derive(Clone, Copy, Debug, PartialEq, Eq, Hash)]
        pub enum Refusal {
            $(
                #[doc = concat!(stringify!($number), ": ", $text, ".")]
                $name,
            )*
            /// A number that this crate has no name for, as a newer library may give it.
            Unknown(u64),
        }

        impl Refusal {
            /// The number of the reason.
            pub const fn number(self) -> u64 {
                match self {
                    $(Self::$name => $number,)*
                    Self::Unknown(number) => number,
                }
            }

            /// What the result of a function of the library says: 0 is an answer, any other number
            /// a refusal.
            ///
            /// ```
            /// use valwydr::Refusal;
            ///
            /// assert_eq!(Refusal::from_result(0), Ok(()));
            /// assert_eq!(Refusal::from_result(11), Err(Refusal::EmptyBin));
            /// assert_eq!(Refusal::from_result(99), Err(Refusal::Unknown(99)));
            /// ```
            pub const fn from_result(result: u64) -> Result<(), Self> {
                match result {
                    0 => Ok(()),
                    $($number => Err(Self::$name),)*
                    number => Err(Self::Unknown(number)),
                }
            }
        }

        impl fmt::Display for Refusal {
            fn fmt(&self, f: &mut fmt::Formatter<'_>) -> fmt::Result {
                match self {
                    $(Self::$name => f.write_str($text),)*
                    Self::Unknown(number) => write!(f, "refusal {number}, which has no name here"),
                }
            }
        }
    };
}

refusals! {
    ListLength = 1, "the list is longer than 4,096, or empty";
    Size = 2, "there are more than 1,024 seats or bins, or none for FA1";
    TriesAllowed = 3, "the tries allowed for a seat are 0 or more than 100,000";
    MaxSamples = 4, "max_samples is NaN or not above 0";
    Fanout = 5, "the fanout is 0 or above 4,096";
    NotBelow = 6, "the own id is not in the list, or no seat is at the shred's position";
    ShortBuffer = 7, "a buffer is shorter than needed, as fewer counts than stakes are";
    SumPast = 8, "the stakes sum past 2^64 - 1";
    TotalZero = 9, "the stakes sum to 0";
    CountLimit = 10, "a count might pass 4,294,967,295";
    EmptyBin = 11, "a bin would be empty";
    NoWordLeft = 12, "a word is needed and none is left";
    LastTryRejected = 13, "the last try that is allowed for a seat is rejected";
}

impl Error for Refusal {}
