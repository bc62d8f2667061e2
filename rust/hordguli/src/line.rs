use std::fmt;
use std::iter::FusedIterator;
use std::ops::Range;

use hordguli_sys::{hordguli_line_info, hordguli_paragraph_info};

use crate::records::{breaks_of, levels_of};
use crate::{Break, CharPos, Edge, Error, Level, Print, Row, Run, Session, Span, TextRange};

/// A line of a session. [`Session::line`] and [`Session::lines`] return lines.
///
/// The tail of a line is all white space at its end, with its separator. The tail is not shown. The rest of the line is
/// its shown part, to which [`Options::show_spaces`](crate::Options::show_spaces) adds spaces from the tail.
#[derive(Clone, Copy)]
pub struct Line<'a> {
    session: &'a Session,
    number: usize,
    info: hordguli_line_info,
}

impl<'a> Line<'a> {
    pub(crate) fn new(session: &'a Session, number: usize) -> Result<Self, Error> {
        Ok(Line {
            session,
            number,
            info: session.handle.line_info(number)?,
        })
    }

    /// Returns the number of the line in the session, from 0.
    #[must_use]
    pub fn number(&self) -> usize {
        self.number
    }

    /// Returns the characters of the line, with its tail.
    #[must_use]
    pub fn range(&self) -> Range<CharPos> {
        self.start()..self.start() + self.info.length
    }

    /// Returns the characters of the shown part.
    #[must_use]
    pub fn shown(&self) -> Range<CharPos> {
        self.start()..self.start() + self.info.shown
    }

    /// Returns the width of the shown part, in columns.
    #[must_use]
    pub fn width(&self) -> usize {
        self.info.columns
    }

    /// Returns the number of columns left of the shown part if it is padded. It is 0 in left-to-right paragraphs.
    #[must_use]
    pub fn padding(&self) -> usize {
        self.info.padding
    }

    /// Returns the base level of the paragraph.
    #[must_use]
    pub fn base(&self) -> Level {
        Level::of_u32(self.info.base)
    }

    /// Returns whether the line is the first of its paragraph.
    #[must_use]
    pub fn is_first(&self) -> bool {
        self.info.first != 0
    }

    fn start(&self) -> CharPos {
        CharPos(self.info.start)
    }

    /// Returns the shown part in visual order, mirrored and without padding.
    ///
    /// # Errors
    ///
    /// [`Error::OutOfMemory`].
    ///
    /// # Cost
    ///
    /// O(log n) in a session of n paragraphs, plus time proportional to the shown part.
    pub fn visual(&self) -> Result<String, Error> {
        let print = Print::VISUAL | Print::MIRRORED;
        let mut visual = String::new();
        self.session
            .handle
            .lines_utf8(self.number, 1, print.bits(), &mut visual)?;
        visual.pop();
        Ok(visual)
    }

    /// Returns the shown part in visual order, with its levels and position maps. Positions count from the start of the line.
    ///
    /// # Errors
    ///
    /// [`Error::OutOfMemory`].
    ///
    /// # Cost
    ///
    /// As for [`visual`](Line::visual).
    pub fn row(&self) -> Result<Row, Error> {
        self.session
            .handle
            .line_row(self.number, self.info.shown)
            .map(Row::new)
    }

    /// Returns the columns of the character at each visual position of the shown part.
    ///
    /// # Errors
    ///
    /// [`Error::OutOfMemory`].
    ///
    /// # Cost
    ///
    /// As for [`visual`](Line::visual).
    pub fn columns(&self) -> Result<Vec<usize>, Error> {
        self.session
            .handle
            .line_columns(self.number, self.info.shown)
    }

    /// Returns the directional runs of the shown part, from left to right, for shaping text.
    ///
    /// The runs do not depend on [`Options::reorder_nsm`](crate::Options::reorder_nsm) and
    /// [`Options::reorder_clusters`](crate::Options::reorder_clusters), which move characters only inside runs.
    ///
    /// ```
    /// use hordguli::{Options, Session, Tables};
    ///
    /// let session = Session::new(&Tables::builtin()?, "abc \u{5d0}\u{5d1}", 80, Options::new())?;
    /// for run in session.line(0)?.runs()? {
    ///     println!("level {}: {:?}", run.level, session.chars(run.range)?);
    /// }
    /// # assert_eq!(session.line(0)?.runs()?.len(), 2);
    /// # Ok::<(), hordguli::Error>(())
    /// ```
    ///
    /// # Errors
    ///
    /// [`Error::OutOfMemory`].
    ///
    /// # Cost
    ///
    /// O(log n) in a session of n paragraphs, plus the length of the line times its highest level.
    pub fn runs(
        &self,
    ) -> Result<impl DoubleEndedIterator<Item = Run<CharPos>> + ExactSizeIterator, Error> {
        let start = self.start();
        let runs = self.session.handle.runs(self.number)?;
        Ok(runs.into_iter().map(move |run| Run {
            range: start + run.start..start + (run.start + run.length),
            level: Level::of_u32(run.level),
        }))
    }

    /// Returns the columns that a range of the text covers in the line, for drawing a selection: as few spans as
    /// possible, from left to right. Where the direction changes, a selection can have several spans. Characters
    /// outside the line are ignored.
    ///
    /// ```
    /// use hordguli::{BytePos, Options, Session, Span, Tables};
    ///
    /// let session = Session::new(&Tables::builtin()?, "ab \u{5d0}\u{5d1}", 80, Options::new())?;
    /// let spans: Vec<_> = session.line(0)?.spans(BytePos(1)..BytePos(5))?.collect();
    /// assert_eq!(spans, [Span { left: 1, right: 3 }, Span { left: 4, right: 5 }]);
    /// # Ok::<(), hordguli::Error>(())
    /// ```
    ///
    /// # Errors
    ///
    /// Those of the range. [`Error::OutOfMemory`].
    ///
    /// # Cost
    ///
    /// O(log n) in a session of n paragraphs, plus the length of the line.
    pub fn spans(
        &self,
        range: impl TextRange,
    ) -> Result<impl DoubleEndedIterator<Item = Span> + ExactSizeIterator, Error> {
        let range = range.resolve(self.session)?;
        let spans = self
            .session
            .handle
            .spans(self.number, range.start.0, range.end.0)?;
        Ok(spans.into_iter().map(|span| Span {
            left: span.left,
            right: span.right,
        }))
    }

    /// Returns the grapheme clusters of the line, in logical order. The last cluster ends with the line, even if it
    /// continues on the next line.
    ///
    /// # Errors
    ///
    /// [`Error::OutOfMemory`].
    ///
    /// # Cost
    ///
    /// As for [`Session::cluster`], plus the length of the line.
    pub fn clusters(&self) -> Result<impl ExactSizeIterator<Item = Range<CharPos>>, Error> {
        let (line, mut start) = (self.start(), self.start());
        let ends = self.session.handle.line_clusters(self.number)?;
        Ok(ends.into_iter().map(move |end| {
            let cluster = start..line + end;
            start = cluster.end;
            cluster
        }))
    }

    /// Returns the first and the last edge of the line in logical order, for the keys Home and End.
    ///
    /// The first edge is before the start of the line. For the last one, see [`Session::line_edges`].
    ///
    /// # Cost
    ///
    /// O(log n) in a session of n paragraphs.
    #[must_use]
    pub fn edges(&self) -> (Edge, Edge) {
        // (the call fails only for lines that do not exist)
        self.session.line_edges(self.number).unwrap_or_default()
    }
}

impl fmt::Debug for Line<'_> {
    fn fmt(&self, f: &mut fmt::Formatter<'_>) -> fmt::Result {
        f.debug_struct("Line")
            .field("number", &self.number)
            .field("range", &self.range())
            .field("shown", &self.shown())
            .field("width", &self.width())
            .field("padding", &self.padding())
            .field("base", &self.base())
            .field("is_first", &self.is_first())
            .finish_non_exhaustive()
    }
}

/// An iterator over lines of a session. [`Session::lines`] returns it.
///
/// Each step costs O(log n) in a session of n paragraphs, and allocates nothing.
#[derive(Clone, Debug)]
pub struct Lines<'a> {
    pub(crate) session: &'a Session,
    pub(crate) numbers: Range<usize>,
}

impl<'a> Lines<'a> {
    fn line(&self, number: usize) -> Option<Line<'a>> {
        self.session.line(number).ok()
    }
}

impl<'a> Iterator for Lines<'a> {
    type Item = Line<'a>;

    fn next(&mut self) -> Option<Line<'a>> {
        let number = self.numbers.next()?;
        self.line(number)
    }

    fn nth(&mut self, count: usize) -> Option<Line<'a>> {
        let number = self.numbers.nth(count)?;
        self.line(number)
    }

    fn size_hint(&self) -> (usize, Option<usize>) {
        self.numbers.size_hint()
    }
}

impl DoubleEndedIterator for Lines<'_> {
    fn next_back(&mut self) -> Option<Self::Item> {
        let number = self.numbers.next_back()?;
        self.line(number)
    }
}

impl ExactSizeIterator for Lines<'_> {}
impl FusedIterator for Lines<'_> {}

/// A paragraph of a session. [`Session::paragraph`] returns it.
///
/// A paragraph ends after a separator: U+000A, U+000D, U+001C to U+001E, U+0085 or U+2029. The pair U+000D U+000A is one separator.
#[derive(Clone, Copy)]
pub struct Paragraph<'a> {
    session: &'a Session,
    number: usize,
    info: hordguli_paragraph_info,
}

impl<'a> Paragraph<'a> {
    pub(crate) fn new(session: &'a Session, number: usize) -> Result<Self, Error> {
        Ok(Paragraph {
            session,
            number,
            info: session.handle.paragraph_info(number)?,
        })
    }

    /// Returns the number of the paragraph in the session, from 0.
    #[must_use]
    pub fn number(&self) -> usize {
        self.number
    }

    /// Returns the characters of the paragraph, with its separator.
    #[must_use]
    pub fn range(&self) -> Range<CharPos> {
        let start = CharPos(self.info.start);
        start..start + self.info.length
    }

    /// Returns the numbers of its lines.
    #[must_use]
    pub fn lines(&self) -> Range<usize> {
        self.info.first_line..self.info.first_line + self.info.lines
    }

    /// Returns its base level.
    #[must_use]
    pub fn base(&self) -> Level {
        Level::of_u32(self.info.base)
    }

    /// Returns the level of each character before L1 (UAX #9), and the break mark after each character (UAX #14).
    ///
    /// # Errors
    ///
    /// [`Error::OutOfMemory`].
    ///
    /// # Cost
    ///
    /// O(log n) in a session of n paragraphs, plus the length of the paragraph.
    pub fn levels_and_breaks(&self) -> Result<(Vec<Level>, Vec<Break>), Error> {
        let (levels, marks) = self
            .session
            .handle
            .paragraph_arrays(self.number, self.info.length)?;
        Ok((levels_of(levels), breaks_of(marks)))
    }
}

impl fmt::Debug for Paragraph<'_> {
    fn fmt(&self, f: &mut fmt::Formatter<'_>) -> fmt::Result {
        f.debug_struct("Paragraph")
            .field("number", &self.number)
            .field("range", &self.range())
            .field("lines", &self.lines())
            .field("base", &self.base())
            .finish_non_exhaustive()
    }
}
