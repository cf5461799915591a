//! Document 01's refusals.

use std::error::Error;
use std::fmt;

/// Why a call gave no answer. Each call tests in the order of the numbers, and gives the first that applies; what it was lent stays as it was.
///
/// ```
/// use velomitra::Refusal;
/// assert_eq!(Refusal::TooManyColors.to_string(), "refused 13: more than 128 distinct colours, or distinct × 2 > n");
/// ```
#[derive(Clone, Copy, Debug, PartialEq, Eq, PartialOrd, Ord, Hash)]
#[repr(u8)]
pub enum Refusal {
    /// 1: component count and format disagree, or depth or QP outside the domain
    Config = 1,
    /// 2: size, picture side, origin or evenness outside the domain
    Geometry = 2,
    /// 3: a plane in use is shorter than width × height (target: shorter than stride × height, or its stride is below its width)
    Plane = 3,
    /// 4: a sample the block reads exceeds its depth
    Sample = 4,
    /// 5: predictor over 128 entries or an entry over its depth; update limit over 128; colour counter with a stamp above its generation
    Predictor = 5,
    /// 6: one of the 18 rates is not a number from 0 to 64
    Rate = 6,
    /// 7: the block does not hold together; a tolerance outside 0 to 16
    Block = 7,
    /// 8: the run list does not replay to the block's indices under the run rules
    Runs = 8,
    /// 9: the lent list is shorter than the runs or bins to be put in it
    Room = 9,
    /// 10: the bins end where one is due
    BinsEnd = 10,
    /// 11: a bin is of another class than the one due
    BinClass = 11,
    /// 12: a value read is outside its range
    Value = 12,
    /// 13: more than 128 distinct colours, or distinct × 2 > n
    TooManyColors = 13,
    /// 14: escapes × 4 > n
    TooManyEscapes = 14,
    /// 15: smoothing asked of a transposed or lossless block
    Smoothing = 15,
    /// 16: the program's input file is malformed; no call gives it
    InputFile = 16,
}

impl Refusal {
    /// All of them, by number.
    pub const ALL: [Refusal; 16] = {
        use Refusal::*;
        [
            Config,
            Geometry,
            Plane,
            Sample,
            Predictor,
            Rate,
            Block,
            Runs,
            Room,
            BinsEnd,
            BinClass,
            Value,
            TooManyColors,
            TooManyEscapes,
            Smoothing,
            InputFile,
        ]
    };

    /// Document 01's number.
    ///
    /// ```
    /// assert_eq!(velomitra::Refusal::TooManyEscapes.number(), 14);
    /// ```
    pub fn number(self) -> u8 {
        self as u8
    }

    /// The refusal of a number.
    ///
    /// ```
    /// use velomitra::Refusal;
    /// assert_eq!(Refusal::from_number(9), Some(Refusal::Room));
    /// assert_eq!(Refusal::from_number(0), None);
    /// ```
    pub fn from_number(number: u8) -> Option<Refusal> {
        Refusal::ALL.get(usize::from(number).checked_sub(1)?).copied()
    }

    /// Document 01's text.
    ///
    /// ```
    /// assert_eq!(velomitra::Refusal::BinsEnd.text(), "the bins end where one is due");
    /// ```
    pub fn text(self) -> &'static str {
        match self {
            Refusal::Config => "component count and format disagree, or depth or QP outside the domain",
            Refusal::Geometry => "size, picture side, origin or evenness outside the domain",
            Refusal::Plane => {
                "a plane in use is shorter than width × height (target: shorter than stride × height, or its stride is below its width)"
            }
            Refusal::Sample => "a sample the block reads exceeds its depth",
            Refusal::Predictor => {
                "predictor over 128 entries or an entry over its depth; update limit over 128; colour counter with a stamp above its generation"
            }
            Refusal::Rate => "one of the 18 rates is not a number from 0 to 64",
            Refusal::Block => "the block does not hold together",
            Refusal::Runs => "the run list does not replay to the block's indices under the run rules",
            Refusal::Room => "the lent list is shorter than the runs or bins to be put in it; at the reader, shorter than n runs",
            Refusal::BinsEnd => "the bins end where one is due",
            Refusal::BinClass => "a bin is of another class than the one due",
            Refusal::Value => "a value read is outside its range",
            Refusal::TooManyColors => "more than 128 distinct colours, or distinct × 2 > n",
            Refusal::TooManyEscapes => "escapes × 4 > n",
            Refusal::Smoothing => "smoothing asked of a transposed or lossless block",
            Refusal::InputFile => "the program's input file is malformed",
        }
    }

    /// What a call's number means: 0 is an answer.
    pub(crate) fn of(number: u8) -> Result<(), Refusal> {
        match number {
            0 => Ok(()),
            number => Err(Refusal::from_number(number).expect("a refusal's number is proved to be one of document 01's")),
        }
    }
}

impl fmt::Display for Refusal {
    fn fmt(&self, f: &mut fmt::Formatter) -> fmt::Result {
        write!(f, "refused {}: {}", self.number(), self.text())
    }
}

impl Error for Refusal {}

/// A refusal of the reader with its place: for 10 the list's length, for 11 the bin, for 12 the value's first bin or the next unread bin, else 0.
///
/// ```
/// use velomitra::{Refusal, RefusedAt};
/// let refused = RefusedAt { refusal: Refusal::BinsEnd, place: 28 };
/// assert_eq!(refused.to_string(), "refused 10 at 28: the bins end where one is due");
/// ```
#[derive(Clone, Copy, Debug, PartialEq, Eq, Hash)]
pub struct RefusedAt {
    pub refusal: Refusal,
    pub place: usize,
}

impl fmt::Display for RefusedAt {
    fn fmt(&self, f: &mut fmt::Formatter) -> fmt::Result {
        write!(f, "refused {} at {}: {}", self.refusal.number(), self.place, self.refusal.text())
    }
}

impl Error for RefusedAt {}

/// A list of numbers that is not as long as its layout.
///
/// ```
/// let short = velomitra::PaletteCu::from_numbers(&[0; 3]).unwrap_err();
/// assert_eq!(short.to_string(), "3 numbers where 4432 are due");
/// ```
#[derive(Clone, Copy, Debug, PartialEq, Eq, Hash)]
pub struct WrongLength {
    pub due: usize,
    pub given: usize,
}

impl fmt::Display for WrongLength {
    fn fmt(&self, f: &mut fmt::Formatter) -> fmt::Result {
        write!(f, "{} numbers where {} are due", self.given, self.due)
    }
}

impl Error for WrongLength {}
