//! The operations that a case can ask for, by name.

/// Makes the enumeration and its reading from the number of a case's header.
macro_rules! operations {
    ($($number:literal $name:ident)*) => {
        /// An operation of tests/operations.py, which names the same numbers. 13 and 15 are of other programs.
        #[derive(Clone, Copy, Debug, PartialEq, Eq)]
        pub enum Operation {
            $($name),*
        }

        impl Operation {
            /// The operation of that number.
            pub fn numbered(number: u64) -> Option<Operation> {
                match number {
                    $($number => Some(Operation::$name),)*
                    _ => None,
                }
            }
        }
    };
}

operations! {
    1 Sha256
    2 Commitment
    3 Numbers
    4 Make
    5 Read
    6 Find
    7 Book
    8 Build
    9 Check
    10 Settle
    11 SettleDeal
    12 Fields
    14 Audit
    16 Stream
    17 Pad
    18 Unpad
    19 Tally
    20 TreeFill
    21 BookWithTree
    22 BuildWithTree
    23 SettleWithTree
    24 Cancel
    25 CancelWithTree
    26 Collect
    27 CollectWithTree
    28 TreeRow
    29 Playback
}

impl Operation {
    /// The names of the arguments that are lent to be written; all others must stay as they were.
    pub fn written(self) -> &'static str {
        use Operation::*;
        match self {
            Book | Cancel => "ad",
            BookWithTree | CancelWithTree => "acd",
            Collect => "be",
            CollectWithTree => "bce",
            Audit | Build | BuildWithTree | Pad | Unpad | TreeRow => "b",
            TreeFill => "c",
            _ => "",
        }
    }
}
