//! Why a call is refused.

use core::error::Error;
use core::fmt::{self, Display, Formatter};

/// Makes the enum, the list of its named refusals, their numbers and their words
/// out of one list.
macro_rules! refusals {
    (
        $(#[$attribute:meta])*
        pub enum Refusal {
            $($(#[$doc:meta])* $name:ident = $number:literal: $reason:literal,)+
        }
    ) => {
        $(#[$attribute])*
        pub enum Refusal {
            $($(#[$doc])* $name,)+
            /// Another number: the linked archive knows a refusal that this version of
            /// the wrapper has no name for.
            Other(u8),
        }

        impl Refusal {
            /// The refusals that have names, by number.
            pub const ALL: &'static [Refusal] = &[$(Refusal::$name),+];

            /// The number of the refusal, from 1 on.
            pub const fn number(self) -> u32 {
                match self {
                    $(Refusal::$name => $number,)+
                    Refusal::Other(number) => number as u32,
                }
            }

            /// The refusal of a number, which is not 0.
            pub(crate) const fn of_number(number: u8) -> Refusal {
                match number {
                    $($number => Refusal::$name,)+
                    other => Refusal::Other(other),
                }
            }

            const fn reason(self) -> &'static str {
                match self {
                    $(Refusal::$name => $reason,)+
                    Refusal::Other(_) => "a refusal of a newer archive",
                }
            }
        }
    };
}

refusals! {
    /// Why a call is refused. A refused call changes nothing.
    ///
    /// ```
    /// use hedjosur::{Device, Refusal};
    ///
    /// // A state that was never formatted has no device numbers.
    /// let refusal = Device { state: [0; 8], spare: [0; 8] }.lookup(5).unwrap_err();
    /// assert_eq!(refusal, Refusal::BadNumbers);
    /// assert_eq!(refusal.number(), 1);
    /// assert_eq!(
    ///     refusal.to_string(),
    ///     "refused 1: the device numbers are missing or outside their limits"
    /// );
    /// ```
    ///
    /// Later archives may refuse for other reasons, so a `match` needs a last arm:
    ///
    /// ```
    /// # use hedjosur::Refusal;
    /// fn a_collection_helps(refusal: Refusal) -> bool {
    ///     match refusal {
    ///         Refusal::NoFreeBlock => true,
    ///         _ => false,
    ///     }
    /// }
    /// assert_eq!(Refusal::ALL.iter().filter(|r| a_collection_helps(**r)).count(), 1);
    /// ```
    #[derive(Clone, Copy, Debug, PartialEq, Eq, PartialOrd, Ord, Hash)]
    #[non_exhaustive]
    pub enum Refusal {
        /// 1: the state is too short to hold the device numbers, or one of them is
        /// outside its limits.
        BadNumbers = 1: "the device numbers are missing or outside their limits",
        /// 2: a lent slice hasn't the length that the device numbers give.
        BadLength = 2: "a lent slice has a length that doesn't fit the device numbers",
        /// 3: the state, or the group looked at, is not sound: no list of calls makes
        /// it. In a [`Plain`](crate::Plain) device it is an entry that is neither
        /// 4,294,967,295 nor a written page, for a lookup or a discard their own; for a
        /// flush or a collection also two entries naming one page, or a count above B.
        NotSound = 3: "the table's bytes are damaged (not sound)",
        /// 4: a logical page is N or more, or there is no such group.
        OutOfRange = 4: "there is no such logical page or group",
        /// 5: the batch is empty or longer than a block.
        BadBatch = 5: "the batch is empty or longer than a block",
        /// 6: too few blocks are free; a collection may help.
        NoFreeBlock = 6: "too few blocks are free",
        /// 7: the spare area doesn't name the logical page where the table expects it.
        /// A [`Plain`](crate::Plain) device has no spare area and never refuses this.
        NotNamed = 7: "the spare area doesn't name the logical page",
        /// 8: a collection would free no block.
        NothingToGain = 8: "a collection would free no block",
    }
}

impl Display for Refusal {
    fn fmt(&self, f: &mut Formatter<'_>) -> fmt::Result {
        write!(f, "refused {}: {}", self.number(), self.reason())
    }
}

impl Error for Refusal {}
