use std::ops::{Range, RangeFrom, RangeFull, RangeTo};

use crate::{Error, Session};

position! {
    /// A position in characters (Unicode scalar values) from the start of a text.
    CharPos
}
position! {
    /// A position in bytes of UTF-8 from the start of a text, such as an index into a `str`.
    BytePos
}
position! {
    /// A position in UTF-16 code units from the start of a text, as the Language Server Protocol counts.
    Utf16Pos
}

/// A position in a text: [`CharPos`], [`BytePos`] or [`Utf16Pos`].
///
/// A plain number is not a position, so units cannot be mixed up:
///
/// ```compile_fail,E0277
/// # fn of(session: &hordguli::Session) -> Result<(), hordguli::Error> {
/// session.caret(3)?;
/// # Ok(())
/// # }
/// ```
///
/// ```compile_fail,E0308
/// # use hordguli::{BytePos, CharPos};
/// let is_before = BytePos(3) < CharPos(4);
/// ```
///
/// Methods that take a [`BytePos`] or [`Utf16Pos`] first convert it as [`Session::position_of_byte`] or
/// [`Session::position_of_utf16`] do, at their cost. Such methods fail with [`Error::OutOfRange`] if the position is
/// past the end of the text, and with [`Error::NotCharBoundary`] if it is inside a character.
pub trait Position: Copy + sealed::Resolve {}

/// A range of a text: `a..b`, `a..`, `..b` or `..`, where `a` and `b` are [`Position`]s of one type.
///
/// Methods that take a range fail with [`Error::OutOfRange`] if it ends past the end of the text or before it starts.
pub trait TextRange: sealed::ResolveRange {}

pub(crate) mod sealed {
    use super::*;

    pub trait Resolve {
        /// Converts the position to characters. A `CharPos` may be past the end; the call to which it is passed checks
        /// this.
        fn resolve(self, session: &Session) -> Result<CharPos, Error>;
    }

    pub trait ResolveRange {
        fn resolve(self, session: &Session) -> Result<Range<CharPos>, Error>;
    }
}

use sealed::{Resolve, ResolveRange};

impl Resolve for CharPos {
    fn resolve(self, _: &Session) -> Result<CharPos, Error> {
        Ok(self)
    }
}

impl Resolve for BytePos {
    fn resolve(self, session: &Session) -> Result<CharPos, Error> {
        at_boundary(session.position_of_byte(self)?)
    }
}

impl Resolve for Utf16Pos {
    fn resolve(self, session: &Session) -> Result<CharPos, Error> {
        at_boundary(session.position_of_utf16(self)?)
    }
}

fn at_boundary((pos, rest): (CharPos, usize)) -> Result<CharPos, Error> {
    if rest == 0 {
        Ok(pos)
    } else {
        Err(Error::NotCharBoundary)
    }
}

impl Position for CharPos {}
impl Position for BytePos {}
impl Position for Utf16Pos {}

fn ordered(start: CharPos, end: CharPos) -> Result<Range<CharPos>, Error> {
    if start <= end {
        Ok(start..end)
    } else {
        Err(Error::OutOfRange)
    }
}

impl<P: Position> ResolveRange for Range<P> {
    fn resolve(self, session: &Session) -> Result<Range<CharPos>, Error> {
        ordered(self.start.resolve(session)?, self.end.resolve(session)?)
    }
}

impl<P: Position> ResolveRange for RangeFrom<P> {
    fn resolve(self, session: &Session) -> Result<Range<CharPos>, Error> {
        ordered(self.start.resolve(session)?, session.end())
    }
}

impl<P: Position> ResolveRange for RangeTo<P> {
    fn resolve(self, session: &Session) -> Result<Range<CharPos>, Error> {
        Ok(CharPos(0)..self.end.resolve(session)?)
    }
}

impl ResolveRange for RangeFull {
    fn resolve(self, session: &Session) -> Result<Range<CharPos>, Error> {
        Ok(CharPos(0)..session.end())
    }
}

impl<P: Position> TextRange for Range<P> {}
impl<P: Position> TextRange for RangeFrom<P> {}
impl<P: Position> TextRange for RangeTo<P> {}
impl TextRange for RangeFull {}
