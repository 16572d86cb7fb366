//! The refusals.

/// Makes the enum and the list of all refusals out of one list.
macro_rules! refusals {
    (
        $(#[$attribute:meta])*
        pub enum Refusal {
            $($(#[$doc:meta])* $name:ident = $number:literal,)+
        }
    ) => {
        $(#[$attribute])*
        pub enum Refusal {
            $($(#[$doc])* $name = $number,)+
        }

        impl Refusal {
            /// All refusals, by number.
            pub const ALL: [Refusal; [$($number),+].len()] = [$(Refusal::$name),+];
        }
    };
}

refusals! {
    /// Why a call is refused.
    #[derive(Clone, Copy, Debug, PartialEq, Eq, PartialOrd, Ord)]
    pub enum Refusal {
        /// 1: no device numbers, or some outside their limits.
        BadNumbers = 1,
        /// 2: a lent slice has a wrong length.
        BadLength = 2,
        /// 3: the state, or the group looked at, is not sound.
        NotSound = 3,
        /// 4: no such logical page, or no such group.
        OutOfRange = 4,
        /// 5: the batch is empty or longer than B.
        BadBatch = 5,
        /// 6: too few free blocks.
        NoFreeBlock = 6,
        /// 7: the predicted page doesn't exist or doesn't name the logical page.
        NotNamed = 7,
        /// 8: nothing to gain from a collection.
        NothingToGain = 8,
    }
}

impl Refusal {
    /// The number of the refusal.
    pub fn number(self) -> u32 {
        self as u32
    }
}
