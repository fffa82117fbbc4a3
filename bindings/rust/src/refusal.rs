//! The table of refusals, as docs/RULES.md and include/residual_refusals.h have it.
use std::fmt;

/// Declares the enum with number, text and place of each row: `()` names none, `(cell)` a row and a column, `(at)` one number.
macro_rules! table {
    ($($number:literal $name:ident $place:tt $text:literal)*) => {
        table!(@enum [] $($name $place $text)*);

        impl Refusal {
            /// The row's text.
            pub fn text(&self) -> &'static str {
                match self.number() {
                    $($number => $text,)*
                    _ => "a refusal that this version does not know",
                }
            }

            pub(crate) fn from_parts(number: u32, row: u8, column: u8, place: usize) -> Refusal {
                match number {
                    $($number => table!(@make $name $place row column place),)*
                    _ => Refusal::Unknown { number },
                }
            }

            /// The row's number.
            pub fn number(&self) -> u32 {
                match self {
                    $(table!(@pattern $name $place) => $number,)*
                    Refusal::Unknown { number } => *number,
                }
            }

            /// Every row's number and text.
            pub const ROWS: &'static [(u32, &'static str)] = &[$(($number, $text)),*];
        }
    };
    (@enum [$($made:tt)*] $name:ident () $text:literal $($rest:tt)*) => {
        table!(@enum [$($made)* #[doc = $text] $name,] $($rest)*);
    };
    (@enum [$($made:tt)*] $name:ident (cell) $text:literal $($rest:tt)*) => {
        table!(@enum [$($made)* #[doc = $text] $name { row: u8, column: u8 },] $($rest)*);
    };
    (@enum [$($made:tt)*] $name:ident (at) $text:literal $($rest:tt)*) => {
        table!(@enum [$($made)* #[doc = $text] $name { at: usize },] $($rest)*);
    };
    (@enum [$($made:tt)*]) => {
        /// Why a call was refused: a variant for each row of the table, with the place where the row names one.
        ///
        /// Later versions add rows, so a match has an arm for the others.
        ///
        /// ```
        /// use foxentu::Refusal;
        /// let why = foxentu::qp_prime(30, 17).unwrap_err();
        /// assert_eq!(why, Refusal::DepthInvalid);
        /// assert_eq!(why.number(), 2);
        /// assert_eq!(why.to_string(), "refused 2: the depth is below 8 or above 16");
        /// ```
        #[derive(Clone, Copy, Debug, PartialEq, Eq)]
        #[non_exhaustive]
        #[allow(missing_docs)]
        pub enum Refusal {
            $($made)*
            /// A number of a later version of the archive.
            Unknown { number: u32 },
        }
    };
    (@make $name:ident () $row:ident $column:ident $place:ident) => { Refusal::$name };
    (@make $name:ident (cell) $row:ident $column:ident $place:ident) => { Refusal::$name { row: $row, column: $column } };
    (@make $name:ident (at) $row:ident $column:ident $place:ident) => { Refusal::$name { at: $place } };
    (@pattern $name:ident ()) => { Refusal::$name };
    (@pattern $name:ident (cell)) => { Refusal::$name { .. } };
    (@pattern $name:ident (at)) => { Refusal::$name { .. } };
}

table! {
    1 SizeInvalid () "the size is none of 4, 8, 16, 32"
    2 DepthInvalid () "the depth is below 8 or above 16"
    3 WidthTooNarrow () "16-bit output, and the depth is above 9 or precision is extended"
    4 DstSizeInvalid () "edited block, search for edits, contributions, feed or rounding bound: DST with a size other than 4"
    5 ListLengthInvalid () "the list, or a default list, does not have 64 entries; lists to write are fewer than 20"
    6 InputTooShort () "fewer than n * n levels or coefficients, residuals or prediction samples, targets or bytes that say what is wanted"
    7 OutputTooShort () "an output or work buffer has fewer than n * n elements; for scaling lists fewer than 1,280 entries or 20 DC numbers have room, or fewer bytes than the bits take; a table of lists is too short"
    8 PlaceOutside () "an edit's or a sample's row or column is not below n; m is looked up at an index not below n * n"
    9 CoefficientAbove (cell) "a coefficient is above its range"
    10 WayMismatched () "a coefficient is edited in a block that was opened on levels, or a level in one that was opened on coefficients; it comes before 8"
    11 LevelMissing (cell) "search for levels: no level gives a coefficient"
    12 SampleOutside (at) "a prediction sample is above 2^B - 1"
    13 PictureInvalid () "a width or height is outside 1 .. 16,384; the stride is under the width or above 65,536; a block is not wholly inside the picture; the plane has fewer than stride * height elements"
    14 BitsEnded (at) "scaling list data: the bits end before or in a code"
    15 ReferenceMissing (at) "scaling list data: a reference to a list that is not there"
    16 ListValueInvalid (at) "scaling list data: a DC outside 1 .. 255, a delta outside -128 .. 127, or a coded entry of 0; lists to write: a used entry or DC of 0"
    17 StreamFull () "storing a list where the stream holds 12 already"
    18 ListMissing () "a stream that is not one of the two, or a number that it does not hold"
    19 CoefficientBelow (cell) "a coefficient is below its range"
    20 KindUnknown () "feed: the kind byte is not known"
    21 BodyTooShort () "feed: the body ends too early"
    22 LevelsBeforeParameters () "feed: levels come before any parameters"
    23 ParameterInvalid () "feed: the extended flag is above 1, or the mode is above 2"
    24 BlockMissing () "feed: an edit or a reading where no block is held"
    25 RotationSizeInvalid () "rotation at a size other than 4; it comes after 3"
}

impl Refusal {
    /// The row and column of the coefficient that the refusal names.
    pub fn cell(&self) -> Option<(usize, usize)> {
        match *self {
            Refusal::CoefficientAbove { row, column } | Refusal::CoefficientBelow { row, column } | Refusal::LevelMissing { row, column } => Some((row.into(), column.into())),
            _ => None,
        }
    }
}

impl fmt::Display for Refusal {
    fn fmt(&self, f: &mut fmt::Formatter<'_>) -> fmt::Result {
        write!(f, "refused {}: {}", self.number(), self.text())?;
        match *self {
            Refusal::SampleOutside { at } => write!(f, " (index {at})"),
            Refusal::BitsEnded { at } | Refusal::ReferenceMissing { at } | Refusal::ListValueInvalid { at } => write!(f, " (bit {at})"),
            _ => self.cell().map_or(Ok(()), |(row, column)| write!(f, " (row {row}, column {column})")),
        }
    }
}

impl std::error::Error for Refusal {}

/// An answer's number and place as a result.
macro_rules! told {
    ($answer:expr) => {{
        let a = $answer;
        if a.number == 0 {
            Ok(a)
        } else {
            Err($crate::Refusal::from_parts(a.number, a.row, a.column, a.place))
        }
    }};
}
pub(crate) use told;
