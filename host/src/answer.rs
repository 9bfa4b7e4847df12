//! What a call answers: number, place and figure, and the numbers in words.

use std::error::Error;
use std::fmt;

/// The answer of a call: its number, place and figure, which is signed for the estimate of a signed meter alone.
///
/// Number 0 is acceptance. Its figure is the estimate, the widest level, the layout code, a feed head's payload or the count of an
/// image's words, else 0. Of a call that is refused the figure is 0, and the place is an index into the lent words where the
/// number speaks of a word, else 0.
#[derive(Clone, Copy, Debug, PartialEq, Eq, Hash)]
pub struct Answer<F = u64> {
    /// 0 for an accepted call, else the number of the reason why it was refused.
    pub number: u32,
    /// The index of the faulty word where the number speaks of one, else 0.
    pub place: u64,
    /// What an accepted call found, else 0.
    pub figure: F,
}

impl<F> Answer<F> {
    /// The figure of an accepted call, or why it was refused.
    ///
    /// ```
    /// use meter::{Answer, Reason};
    ///
    /// let answer = |number| Answer { number, place: 2, figure: 7 };
    /// assert_eq!(answer(0).result(), Ok(7));
    /// assert_eq!(answer(9).result().unwrap_err().reason, Reason::Payload);
    /// assert_eq!(answer(77).result().unwrap_err().reason, Reason::Unknown(77));
    /// ```
    pub fn result(self) -> Result<F, Refused> {
        match Reason::from_number(self.number) {
            None => Ok(self.figure),
            Some(reason) => Err(Refused {
                reason,
                place: self.place,
            }),
        }
    }
}

/// Why a call was refused, by number.
#[derive(Clone, Copy, Debug, PartialEq, Eq, Hash)]
pub enum Reason {
    /// 1: the depth is not 1 to 8.
    Depth,
    /// 2: the width is not a power of two from 32 to 16,384.
    Width,
    /// 3: a lent memory has another length than d * w * 9 / 8, or a watch list another than 4,673.
    Length,
    /// 4: the key length is not 1 to 64.
    KeyLength,
    /// 5: a merge byte that the call reads is not valid, or a watch list breaks its layout.
    Content,
    /// 6: a counter of 64 bits would overflow: 2^64 or more, in a signed meter a magnitude of 2^63 or more.
    CounterFull,
    /// 7: the lent words are fewer than the image's.
    TooFewWords,
    /// 8: a word is missing, has a kind that is not due there, or follows an image's end.
    Word,
    /// 9: a payload breaks a rule of its kind, or a layout code is 456,976 or more.
    Payload,
    /// 10: an image or a source meter is of another depth or width.
    OtherGeometry,
    /// 11: the threshold is 0. It is tested after 5 and before 6.
    ZeroThreshold,
    /// 12: the depth of a signed meter is even. It is tested after 2 and before 3.
    EvenDepth,
    /// 13: a counter of a signed meter that the call reads holds minus zero. It is tested after 5 and before 6.
    MinusZero,
    /// A number that no call of this library gives: what was linked is another version.
    Unknown(u32),
}

impl Reason {
    /// The reason that a number stands for; none for 0, which is acceptance.
    #[must_use]
    pub fn from_number(number: u32) -> Option<Reason> {
        Some(match number {
            0 => return None,
            1 => Reason::Depth,
            2 => Reason::Width,
            3 => Reason::Length,
            4 => Reason::KeyLength,
            5 => Reason::Content,
            6 => Reason::CounterFull,
            7 => Reason::TooFewWords,
            8 => Reason::Word,
            9 => Reason::Payload,
            10 => Reason::OtherGeometry,
            11 => Reason::ZeroThreshold,
            12 => Reason::EvenDepth,
            13 => Reason::MinusZero,
            _ => Reason::Unknown(number),
        })
    }

    /// The number of a reason: 1 to 13, and an unknown one as it was given.
    #[must_use]
    pub fn number(self) -> u32 {
        match self {
            Reason::Depth => 1,
            Reason::Width => 2,
            Reason::Length => 3,
            Reason::KeyLength => 4,
            Reason::Content => 5,
            Reason::CounterFull => 6,
            Reason::TooFewWords => 7,
            Reason::Word => 8,
            Reason::Payload => 9,
            Reason::OtherGeometry => 10,
            Reason::ZeroThreshold => 11,
            Reason::EvenDepth => 12,
            Reason::MinusZero => 13,
            Reason::Unknown(number) => number,
        }
    }
}

impl fmt::Display for Reason {
    fn fmt(&self, f: &mut fmt::Formatter<'_>) -> fmt::Result {
        f.write_str(match self {
            Reason::Depth => "the depth is not 1 to 8",
            Reason::Width => "the width is not a power of two from 32 to 16,384",
            Reason::Length => "a memory's length is not d * w * 9 / 8, or a watch list's not 4,673",
            Reason::KeyLength => "the key length is not 1 to 64",
            Reason::Content => "a merge byte or a watch list is not valid",
            Reason::CounterFull => "a counter of 64 bits would overflow",
            Reason::TooFewWords => "the lent words are too few for the image",
            Reason::Word => "a word is missing, not due there, or follows the end",
            Reason::Payload => "a payload breaks a rule of its kind",
            Reason::OtherGeometry => "an image or a source is of another depth or width",
            Reason::ZeroThreshold => "the threshold is 0",
            Reason::EvenDepth => "the depth of a signed meter is even",
            Reason::MinusZero => "a counter of a signed meter holds minus zero",
            Reason::Unknown(_) => "no number of this library",
        })
    }
}

/// A call that was refused: the reason, and the index of the faulty word where the reason speaks of one, else 0.
///
/// A call that is refused has changed nothing.
#[derive(Clone, Copy, Debug, PartialEq, Eq, Hash)]
pub struct Refused {
    /// Why.
    pub reason: Reason,
    /// The index of the faulty word where the reason speaks of one, else 0. A missing word's is the number of words lent.
    pub place: u64,
}

impl Refused {
    /// The number of the reason.
    #[must_use]
    pub fn number(self) -> u32 {
        self.reason.number()
    }
}

impl fmt::Display for Refused {
    fn fmt(&self, f: &mut fmt::Formatter<'_>) -> fmt::Result {
        write!(f, "{} (number {}, place {})", self.reason, self.number(), self.place)
    }
}

impl Error for Refused {}
