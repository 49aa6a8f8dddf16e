use core::fmt;

/// The kinds, with all that depends on them. A further kind is a further line where this is used, below.
macro_rules! refusals {
    ($($number:literal $kind:ident $text:literal $($more:literal)?,)+) => {
        /// Why a call is refused. The numbers are those of the specification and of `recon.h`, in the order in which a call checks them, save
        /// that 13 is checked right after 2, 14 right after 3, 18 right after 4, 15 and then 16 right after 5, and 17 in the place of 11.
        ///
        /// A refused call has changed nothing. So after [`NeededFull`](Refusal::NeededFull), [`NoRoom`](Refusal::NoRoom) and, unless there
        /// are too many items, [`TableFull`](Refusal::TableFull) the call can be made again with a larger buffer.
        ///
        /// ```
        /// use recon::{answer_query, Cut, Refusal, Table};
        ///
        /// let table = Table { times: &[5, 4], ids: &[0; 64] };
        /// let refusal = answer_query(table, Cut::default(), b"a", &mut []).unwrap_err();
        /// assert_eq!(refusal, Refusal::TableOrder);
        /// assert_eq!(refusal.number(), 2);
        /// assert_eq!(
        ///     refusal.to_string(),
        ///     "refused (2): the items do not rise strictly by time and id, or a time is 2^64 - 1"
        /// );
        /// ```
        #[derive(Clone, Copy, Debug, PartialEq, Eq, Hash, PartialOrd, Ord)]
        #[non_exhaustive]
        pub enum Refusal {
            $(
                #[doc = concat!($number, ": ", $text, ".")]
                $(#[doc = ""] #[doc = $more])?
                $kind,
            )+
            /// A number that this version of the crate has no kind for, from a library that is newer. A later version may have one, so match
            /// it by a last arm `_`.
            Unknown(u64),
        }

        impl Refusal {
            /// The kinds that this version of the crate knows, in the order of their numbers.
            pub const ALL: &'static [Refusal] = &[$(Refusal::$kind),+];

            /// Its number.
            pub const fn number(self) -> u64 {
                match self {
                    $(Refusal::$kind => $number,)+
                    Refusal::Unknown(number) => number,
                }
            }

            /// The refusal that has this number; none for 0, by which the calls for C say that they have not refused.
            ///
            /// ```
            /// use recon::Refusal;
            ///
            /// assert_eq!(Refusal::from_number(12), Some(Refusal::NoRoom));
            /// assert_eq!(Refusal::from_number(0), None);
            /// let unknown = Refusal::from_number(1 << 60).unwrap();
            /// assert_eq!(unknown.number(), 1 << 60);
            /// ```
            pub const fn from_number(number: u64) -> Option<Refusal> {
                match number {
                    0 => None,
                    $($number => Some(Refusal::$kind),)+
                    _ => Some(Refusal::Unknown(number)),
                }
            }

            const fn text(self) -> &'static str {
                match self {
                    $(Refusal::$kind => $text,)+
                    Refusal::Unknown(_) => "this version of the crate does not know the number, so the library is newer",
                }
            }
        }
    };
}

refusals! {
    1 TableSize "the id bytes are not 32 for each time, or there are more than 1,048,576 items",
    2 TableOrder "the items do not rise strictly by time and id, or a time is 2^64 - 1",
    3 CutLimits "the cut is outside its limits: parts 2 to 64, list limit from the parts to 4,096",
    4 WrongState "marks, needed buffer and session do not fit the table or each other",
    5 SessionDone "the session is done",
    6 WrongVersion "the message is empty or begins with no protocol version that is spoken here",
    7 Truncated "the message ends inside a range",
    8 BadVarint "a number in the message has a leading zero or passes 2^64 - 1",
    9 BadBound "a bound has a time or a prefix that it cannot have, or is not above the one before it",
    10 BadMode "a range of the message has an unknown mode",
    11 NeededFull "the needed buffer is too small for the ids that are lacking"
        "Nothing has changed: make the call again with a larger buffer.",
    12 NoRoom "the out buffer is too small for the message"
        "Nothing has changed: make the call again with a larger buffer.",
    13 WrongTree "the tree is not as long as one over these items is, or has no free place"
        "Nothing has changed. After an append to a full tree, build one over all the items: it has twice the places.",
    14 ByteLimit "the byte limit is below 4,096",
    15 SessionOpen "the session is not done",
    16 NotDue "an id of the batch is not on the needed list, or its item is already in the table",
    17 TableFull "the table's buffers cannot hold the merge, or it exceeds 1,048,576 items"
        "Nothing has changed. Unless it exceeds 1,048,576 items, make the call again with longer buffers.",
    18 OtherTable "the table is not the one that the session was opened with"
        "It has changed since the opening. Hand over the table of the opening again, or open a new session.",
}

impl fmt::Display for Refusal {
    fn fmt(&self, f: &mut fmt::Formatter<'_>) -> fmt::Result {
        write!(f, "refused ({}): {}", self.number(), self.text())
    }
}

#[cfg(feature = "std")]
impl std::error::Error for Refusal {}
