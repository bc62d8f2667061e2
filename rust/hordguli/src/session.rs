use std::fmt;
use std::ops::{Bound, Range, RangeBounds};

use hordguli_sys::hordguli_position;

use crate::ffi::SessionHandle;
use crate::{
    BytePos, Caret, ChangedLines, CharPos, Counts, Damage, Direction, Edge, Error, Hit, Line,
    Lines, Options, Paragraph, Place, Position, Print, Tables, TextRange, Utf16Pos, Word, Work,
};

/// A text and its layout in lines, which is kept up to date when the text is edited or the width changes.
///
/// Lines, paragraphs and columns are counted from 0. A column is a terminal cell, or in a
/// [measured session](Session::open_measured) a unit of the caller. Positions have types that name their unit ([`Position`]), and
/// methods accept each of them. Below, n is the number of paragraphs.
///
/// ```
/// use hordguli::{BytePos, Options, Session, Tables};
///
/// let mut session = Session::new(&Tables::builtin()?, "one two three", 7, Options::new())?;
/// let damage = session.insert(BytePos(4), "and ")?;
/// assert_eq!((damage.old_lines, damage.new_lines), (0..2, 0..3));
/// let lines: Result<Vec<_>, _> = session.lines(..).map(|line| line.visual()).collect();
/// assert_eq!(lines?, ["one and", "two", "three"]);
/// # Ok::<(), hordguli::Error>(())
/// ```
///
/// Each call moves the session out of its handle and back, even if it only reads. So a session can be sent to another thread, but not
/// shared by threads. Use a `Mutex` for that.
///
/// ```
/// fn send<T: Send>(_: T) {}
/// # use hordguli::{Options, Session, Tables};
/// send(Session::new(&Tables::builtin()?, "", 80, Options::new())?);
/// # Ok::<(), hordguli::Error>(())
/// ```
///
/// ```compile_fail,E0277
/// fn share<T: Sync>(_: T) {}
/// # use hordguli::{Options, Session, Tables};
/// share(Session::new(&Tables::builtin()?, "", 80, Options::new())?);
/// # Ok::<(), hordguli::Error>(())
/// ```
pub struct Session {
    pub(crate) handle: SessionHandle,
}

impl Session {
    /// Opens a session on a text. `width` is in columns.
    ///
    /// The session shares the tables, which may be dropped before the session.
    ///
    /// # Errors
    ///
    /// [`Error::WidthOutOfRange`], [`Error::TextTooLong`], [`Error::ParagraphTooLong`], [`Error::OutOfMemory`].
    ///
    /// # Cost
    ///
    /// Time and memory proportional to the text.
    pub fn new(tables: &Tables, text: &str, width: u16, options: Options) -> Result<Self, Error> {
        let handle = SessionHandle::open(&tables.handle, options.bits(), width.into(), text)?;
        Ok(Session { handle })
    }

    /// Opens a measured session, for text in any font. `width` is from 1 to 2,147,483,647.
    ///
    /// Each character has an advance, in a unit that the caller chooses, such as 1/64 pixel. The width, and all columns
    /// of the session, are in this unit. A new character has advance 0, until [`set_advances`](Session::set_advances)
    /// sets it. All other characters keep their advances, even if an edit joins or splits paragraphs.
    ///
    /// The advances of a paragraph add up to at most 4,294,967,295. With [`Options::tab_width`], a tab moves to the
    /// next multiple of its own advance, or stays where it is if its advance is 0. Lines are printed without padding;
    /// [`Line::padding`] is the padding that aligns a line right.
    ///
    /// ```
    /// use hordguli::{CharPos, Options, Session, Tables};
    ///
    /// let advance = |c| if c == 'i' { 4 * 64 } else { 9 * 64 };
    /// let mut session = Session::open_measured(&Tables::builtin()?, "inn in", 30 * 64, Options::new())?;
    /// let advances: Vec<u32> = session.chars(..)?.into_iter().map(advance).collect();
    /// let damage = session.set_advances(CharPos(0), &advances)?;
    /// assert_eq!((damage.old_lines, damage.new_lines), (0..1, 0..2));
    /// assert_eq!(session.line(0)?.width(), 22 * 64);
    /// # Ok::<(), hordguli::Error>(())
    /// ```
    ///
    /// # Errors
    ///
    /// [`Error::WidthOutOfRange`], [`Error::TextTooLong`], [`Error::ParagraphTooLong`], [`Error::OutOfMemory`].
    ///
    /// # Cost
    ///
    /// As for [`new`](Session::new).
    pub fn open_measured(
        tables: &Tables,
        text: &str,
        width: u32,
        options: Options,
    ) -> Result<Self, Error> {
        let handle = SessionHandle::open_measured(&tables.handle, options.bits(), width, text)?;
        Ok(Session { handle })
    }

    // ---- Edits ----

    /// Inserts text before the character at `pos`, or at the end of the text. Returns what it replaced.
    ///
    /// # Errors
    ///
    /// Those of the position. [`Error::OutOfRange`], [`Error::TextTooLong`], [`Error::ParagraphTooLong`], [`Error::OutOfMemory`].
    ///
    /// # Cost
    ///
    /// O(log n), plus O(1) per replaced paragraph, plus the layout of the new paragraphs.
    pub fn insert(&mut self, pos: impl Position, text: &str) -> Result<Damage, Error> {
        let pos = pos.resolve(self)?;
        self.handle.insert(pos.0, text).map(Damage::new)
    }

    /// Deletes characters. This can join paragraphs. Returns what it replaced.
    ///
    /// ```
    /// use hordguli::{BytePos, Error, Options, Session, Tables};
    ///
    /// let mut session = Session::new(&Tables::builtin()?, "\u{5d0}\u{5d1}c", 80, Options::new())?;
    /// assert_eq!(session.delete(BytePos(1)..BytePos(4)), Err(Error::NotCharBoundary));
    /// session.delete(BytePos(2)..BytePos(4))?;
    /// assert_eq!(session.text(..)?, "\u{5d0}c");
    /// # Ok::<(), hordguli::Error>(())
    /// ```
    ///
    /// # Errors
    ///
    /// Those of the range. [`Error::OutOfRange`], [`Error::ParagraphTooLong`], [`Error::OutOfMemory`].
    ///
    /// # Cost
    ///
    /// As for [`insert`](Session::insert).
    pub fn delete(&mut self, range: impl TextRange) -> Result<Damage, Error> {
        let range = range.resolve(self)?;
        self.handle
            .delete(range.start.0, range.end - range.start)
            .map(Damage::new)
    }

    /// Replaces characters with text, in one edit. Returns what it replaced.
    ///
    /// # Errors
    ///
    /// Those of the range. [`Error::OutOfRange`], [`Error::TextTooLong`], [`Error::ParagraphTooLong`], [`Error::OutOfMemory`].
    ///
    /// # Cost
    ///
    /// As for [`insert`](Session::insert).
    pub fn replace(&mut self, range: impl TextRange, text: &str) -> Result<Damage, Error> {
        let range = range.resolve(self)?;
        self.handle
            .replace(range.start.0, range.end - range.start, text)
            .map(Damage::new)
    }

    /// Sets the width, in columns, and rewraps the paragraphs. The damage covers all lines, even if the width is the same. In a measured
    /// session, the width is in the caller's unit.
    ///
    /// # Errors
    ///
    /// [`Error::WidthOutOfRange`], [`Error::OutOfMemory`].
    ///
    /// # Cost
    ///
    /// O(n), plus wrapping each paragraph, except those that are one line, fit the new width and, with [`Options::show_spaces`], hide
    /// no space that fits.
    pub fn set_width(&mut self, width: u16) -> Result<Damage, Error> {
        self.handle.set_width(width.into()).map(Damage::new)
    }

    /// Sets the width of a measured session, from 1 to 2,147,483,647. The rest is as in [`set_width`](Session::set_width).
    ///
    /// # Errors
    ///
    /// [`Error::NotMeasured`], [`Error::WidthOutOfRange`], [`Error::OutOfMemory`].
    ///
    /// # Cost
    ///
    /// As for [`set_width`](Session::set_width).
    pub fn set_measured_width(&mut self, width: u32) -> Result<Damage, Error> {
        self.handle.set_measured_width(width).map(Damage::new)
    }

    /// Sets the advances of the characters from `pos` on, in a measured session, and rewraps the paragraphs that
    /// contain them. Returns which lines were replaced: none if `advances` is empty.
    ///
    /// After an edit, set the advances of all new paragraphs, since a shaper may choose other glyphs next to the edit. The `old_lines`
    /// of the edit have then become the `new_lines` of this call.
    ///
    /// ```
    /// use hordguli::{CharPos, Options, Session, Tables};
    ///
    /// let mut session = Session::open_measured(&Tables::builtin()?, "ab\nc", 640, Options::new())?;
    /// let edited = session.insert(CharPos(1), " x")?;
    /// let start = session.paragraph(edited.new_paragraphs.start)?.range().start;
    /// let end = session.paragraph(edited.new_paragraphs.end - 1)?.range().end;
    /// let measured = session.set_advances(start, &vec![320; end - start])?;
    /// assert_eq!((edited.old_lines, measured.new_lines), (0..1, 0..2));
    /// # Ok::<(), hordguli::Error>(())
    /// ```
    ///
    /// # Errors
    ///
    /// Those of the position. [`Error::NotMeasured`], [`Error::OutOfRange`] if there are more advances than characters from `pos` on,
    /// [`Error::ParagraphTooLong`] if the advances of a paragraph would add up to more than 4,294,967,295, [`Error::OutOfMemory`].
    ///
    /// # Cost
    ///
    /// O(log n), plus the number of advances, plus wrapping these paragraphs. Levels and break marks are not computed again.
    pub fn set_advances(&mut self, pos: impl Position, advances: &[u32]) -> Result<Damage, Error> {
        let pos = pos.resolve(self)?;
        self.handle.set_advances(pos.0, advances).map(Damage::new)
    }

    // ---- Sizes ----

    /// Returns the number of characters, lines and paragraphs, and the width. Costs O(1).
    #[must_use]
    pub fn counts(&self) -> Counts {
        // (the call fails only for closed handles)
        let it = self.handle.counts().unwrap_or_default();
        Counts {
            characters: it.characters,
            lines: it.lines,
            paragraphs: it.paragraphs,
            width: it.width,
        }
    }

    /// Returns the position after the last character. Costs O(1).
    #[must_use]
    pub fn end(&self) -> CharPos {
        CharPos(self.counts().characters)
    }

    /// Returns the work counters. Calls that fail with [`Error::OutOfMemory`] can increase them too. Costs O(1).
    #[must_use]
    pub fn work(&self) -> Work {
        let it = self.handle.work().unwrap_or_default();
        Work {
            analysed: it.analysed,
            filled: it.filled,
            written: it.written,
        }
    }

    /// Returns which lines changed in the last successful call that edited the text, set the width or set advances.
    ///
    /// These are the lines of its [`Damage`], which names whole paragraphs, without those at its start and end that are
    /// unchanged: with the same characters, levels, maps, columns, advances and base level. After opening, all lines
    /// count as changed. The padding depends on the width and is not compared.
    ///
    /// Costs O(1).
    ///
    /// ```
    /// # use hordguli::{CharPos, Options, Session, Tables};
    /// let mut session = Session::new(&Tables::builtin()?, "one two three", 5, Options::new())?;
    /// let damage = session.insert(CharPos(7), "s")?;
    /// assert_eq!(damage.new_lines, 0..3);
    /// assert_eq!(session.changed_lines().new_lines, 1..2);
    /// # Ok::<(), hordguli::Error>(())
    /// ```
    #[must_use]
    pub fn changed_lines(&self) -> ChangedLines {
        ChangedLines::new(self.handle.changed_lines().unwrap_or_default())
    }

    // ---- Text ----

    /// Returns characters in logical order.
    ///
    /// # Errors
    ///
    /// Those of the range. [`Error::OutOfRange`], [`Error::OutOfMemory`].
    ///
    /// # Cost
    ///
    /// O(log n) per paragraph, plus time and memory proportional to the result.
    pub fn text(&self, range: impl TextRange) -> Result<String, Error> {
        let mut text = String::new();
        self.text_into(range, &mut text)?;
        Ok(text)
    }

    /// Appends to `buffer` what [`text`](Session::text) returns.
    ///
    /// # Errors
    ///
    /// As for [`text`](Session::text). After an error, the buffer has the same text as before.
    pub fn text_into(&self, range: impl TextRange, buffer: &mut String) -> Result<(), Error> {
        let range = range.resolve(self)?;
        self.handle
            .text(range.start.0, range.end - range.start, buffer)
    }

    /// Returns characters in logical order and not mirrored, as a shaper needs them.
    ///
    /// # Errors
    ///
    /// As for [`text`](Session::text).
    ///
    /// # Cost
    ///
    /// As for [`text`](Session::text).
    pub fn chars(&self, range: impl TextRange) -> Result<Vec<char>, Error> {
        let range = range.resolve(self)?;
        self.handle
            .text_utf32(range.start.0, range.end - range.start)
    }

    /// Returns the length of characters in UTF-8, in bytes.
    ///
    /// # Errors
    ///
    /// Those of the range. [`Error::OutOfRange`].
    ///
    /// # Cost
    ///
    /// O(log n) per paragraph, plus the number of characters.
    pub fn utf8_len(&self, range: impl TextRange) -> Result<usize, Error> {
        let range = range.resolve(self)?;
        self.handle
            .utf8_length(range.start.0, range.end - range.start)
    }

    // ---- Positions ----

    /// Returns a position in bytes of UTF-8.
    ///
    /// # Errors
    ///
    /// Those of the position. [`Error::OutOfRange`].
    ///
    /// # Cost
    ///
    /// O(log n), plus the length of the paragraph unless the paragraph is ASCII.
    pub fn byte_of(&self, pos: impl Position) -> Result<BytePos, Error> {
        let pos = pos.resolve(self)?;
        self.handle.byte_of(pos.0).map(BytePos)
    }

    /// Returns a position in UTF-16 code units.
    ///
    /// ```
    /// use hordguli::{BytePos, Options, Session, Tables, Utf16Pos};
    ///
    /// let session = Session::new(&Tables::builtin()?, "a\u{1d11e}b", 80, Options::new())?;
    /// assert_eq!(session.utf16_of(BytePos(5))?, Utf16Pos(3));
    /// # Ok::<(), hordguli::Error>(())
    /// ```
    ///
    /// # Errors
    ///
    /// Those of the position. [`Error::OutOfRange`].
    ///
    /// # Cost
    ///
    /// O(log n), plus the length of the paragraph if the paragraph has a character above U+FFFF.
    pub fn utf16_of(&self, pos: impl Position) -> Result<Utf16Pos, Error> {
        let pos = pos.resolve(self)?;
        self.handle.utf16_of(pos.0).map(Utf16Pos)
    }

    /// Returns the character that contains a byte, and how many of the character's bytes precede that byte: 0 at its
    /// start.
    ///
    /// At the end of the text, the result is the number of characters and 0.
    ///
    /// # Errors
    ///
    /// [`Error::OutOfRange`] if the byte is past the end of the text.
    ///
    /// # Cost
    ///
    /// As for [`byte_of`](Session::byte_of).
    pub fn position_of_byte(&self, byte: BytePos) -> Result<(CharPos, usize), Error> {
        self.handle.position_of_byte(byte.0).map(position)
    }

    /// Returns the character that contains a UTF-16 code unit, and how many of the character's units precede that unit:
    /// 0 at its start.
    ///
    /// At the end of the text, the result is the number of characters and 0.
    ///
    /// # Errors
    ///
    /// [`Error::OutOfRange`] if the unit is past the end of the text.
    ///
    /// # Cost
    ///
    /// As for [`utf16_of`](Session::utf16_of).
    pub fn position_of_utf16(&self, unit: Utf16Pos) -> Result<(CharPos, usize), Error> {
        self.handle.position_of_utf16(unit.0).map(position)
    }

    // ---- Lines and paragraphs ----

    /// Returns a line.
    ///
    /// # Errors
    ///
    /// [`Error::OutOfRange`] if the line does not exist.
    ///
    /// # Cost
    ///
    /// O(log n).
    pub fn line(&self, line: usize) -> Result<Line<'_>, Error> {
        Line::new(self, line)
    }

    /// Returns an iterator over lines. Lines that do not exist are skipped.
    ///
    /// ```
    /// use hordguli::{Options, Session, Tables};
    ///
    /// let session = Session::new(&Tables::builtin()?, "a\nb\nc", 80, Options::new())?;
    /// for line in session.lines(1..) {
    ///     println!("{:width$}{}", "", line.visual()?, width = line.padding());
    /// }
    /// # assert_eq!(session.lines(1..).len(), 2);
    /// # Ok::<(), hordguli::Error>(())
    /// ```
    ///
    /// # Cost
    ///
    /// O(1), and O(log n) for each line.
    #[must_use]
    pub fn lines(&self, lines: impl RangeBounds<usize>) -> Lines<'_> {
        let count = self.counts().lines;
        let lines = bounded(lines, || count);
        Lines {
            session: self,
            numbers: lines.start.min(count)..lines.end.min(count),
        }
    }

    /// Returns what `print` selects for lines. Each item of a line ends in U+000A.
    ///
    /// ```
    /// use hordguli::{CharPos, Options, Print, Session, Tables};
    ///
    /// let mut session = Session::new(&Tables::builtin()?, "a\nb\nc", 80, Options::new())?;
    /// let damage = session.insert(CharPos(3), "x\n")?;
    /// assert_eq!(session.lines_to_string(damage.new_lines, Print::DEFAULT)?, "bx\n\n");
    /// # Ok::<(), hordguli::Error>(())
    /// ```
    ///
    /// # Errors
    ///
    /// [`Error::OutOfRange`] if a line does not exist or the range ends before it starts; [`Error::OutOfMemory`].
    ///
    /// # Cost
    ///
    /// O(log n) per paragraph, plus time and memory proportional to the result.
    pub fn lines_to_string(
        &self,
        lines: impl RangeBounds<usize>,
        print: Print,
    ) -> Result<String, Error> {
        let mut printed = String::new();
        self.lines_into(lines, print, &mut printed)?;
        Ok(printed)
    }

    /// Appends to `buffer` what [`lines_to_string`](Session::lines_to_string) returns.
    ///
    /// # Errors
    ///
    /// As for [`lines_to_string`](Session::lines_to_string). After an error, the buffer has the same text as before.
    pub fn lines_into(
        &self,
        lines: impl RangeBounds<usize>,
        print: Print,
        buffer: &mut String,
    ) -> Result<(), Error> {
        let lines = bounded(lines, || self.counts().lines);
        let count = lines
            .end
            .checked_sub(lines.start)
            .ok_or(Error::OutOfRange)?;
        self.handle
            .lines_utf8(lines.start, count, print.bits(), buffer)
    }

    /// Returns the position of a line's first character.
    ///
    /// # Errors
    ///
    /// [`Error::OutOfRange`] if the line does not exist.
    ///
    /// # Cost
    ///
    /// O(log n).
    pub fn line_start(&self, line: usize) -> Result<CharPos, Error> {
        self.handle.line_start(line).map(CharPos)
    }

    /// Returns a paragraph.
    ///
    /// ```
    /// use hordguli::{Break, CharPos, Options, Session, Tables};
    ///
    /// let session = Session::new(&Tables::builtin()?, "a b\nc", 80, Options::new())?;
    /// let (_, breaks) = session.paragraph(0)?.levels_and_breaks()?;
    /// assert_eq!(breaks, [Break::Never, Break::May, Break::Never, Break::Must]);
    /// assert_eq!(session.paragraph(1)?.range(), CharPos(4)..CharPos(5));
    /// # Ok::<(), hordguli::Error>(())
    /// ```
    ///
    /// # Errors
    ///
    /// [`Error::OutOfRange`] if the paragraph does not exist.
    ///
    /// # Cost
    ///
    /// O(log n).
    pub fn paragraph(&self, paragraph: usize) -> Result<Paragraph<'_>, Error> {
        Paragraph::new(self, paragraph)
    }

    // ---- Carets and hits ----

    /// Returns the place of the character at `pos`. The end of the text is placed after the last character.
    ///
    /// But if the text is empty or ends with a separator, its end is at the start of the next paragraph, which does not exist yet.
    /// Then `paragraph` and `line` are the numbers of paragraphs and lines in the text.
    ///
    /// # Errors
    ///
    /// Those of the position. [`Error::OutOfRange`].
    ///
    /// # Cost
    ///
    /// O(log n + log m) in a paragraph of m lines.
    pub fn place(&self, pos: impl Position) -> Result<Place, Error> {
        let pos = pos.resolve(self)?;
        let it = self.handle.place_of(pos.0)?;
        Ok(Place {
            paragraph: it.paragraph,
            line: it.line,
            offset: it.offset,
        })
    }

    /// Returns where to draw the caret for a position.
    ///
    /// - Before a shown character: at its left edge if its level is even, else at its right edge. At an odd level, with
    ///   [`Options::reorder_clusters`] or [`Options::reorder_nsm`], that can be inside its cluster;
    ///   [`edge_caret`](Session::edge_caret) returns the end of the cluster.
    /// - Before a character that is not shown, and at the end of the text: at the end of the line. The end is right of
    ///   all columns in a left-to-right paragraph, and column 0 in a right-to-left paragraph.
    /// - At the start of a paragraph that does not exist yet (see [`place`](Session::place)): at column 0. `level` is
    ///   then the base level of an empty paragraph. If this level is odd, draw the caret at the right edge of the
    ///   screen.
    ///
    /// # Errors
    ///
    /// Those of the position. [`Error::OutOfRange`].
    ///
    /// # Cost
    ///
    /// As for [`place`](Session::place), plus the length of the line.
    pub fn caret(&self, pos: impl Position) -> Result<Caret, Error> {
        let pos = pos.resolve(self)?;
        self.handle.caret_at(pos.0).map(Caret::new)
    }

    /// Returns the character at a column of a line. Column 0 is the left edge of the shown part, right of padding.
    ///
    /// - In the shown part: the character that covers the column, with `trailing` false.
    /// - Right of the shown part: the rightmost character of nonzero width, with `trailing` true if its level is even.
    /// - In a line of width 0: the first character, with `trailing` false.
    ///
    /// [`nearest_edge`](Session::nearest_edge) returns a caret for a mouse click.
    ///
    /// # Errors
    ///
    /// [`Error::OutOfRange`] if the line does not exist.
    ///
    /// # Cost
    ///
    /// O(log n), plus the length of the line.
    pub fn hit(&self, line: usize, column: usize) -> Result<Hit, Error> {
        let it = self.handle.hit_at(line, column)?;
        Ok(Hit {
            pos: CharPos(it.pos),
            trailing: it.trailing != 0,
        })
    }

    /// Returns the grapheme cluster of the character at `pos`.
    ///
    /// # Errors
    ///
    /// Those of the position. [`Error::OutOfRange`] also at the end of the text; [`Error::OutOfMemory`].
    ///
    /// # Cost
    ///
    /// O(log n), plus time and memory proportional to the characters around `pos`, up to the nearest places where a
    /// cluster ends regardless of context. At worst, as among flags, these are all characters of the paragraph.
    pub fn cluster(&self, pos: impl Position) -> Result<Range<CharPos>, Error> {
        let pos = pos.resolve(self)?;
        let it = self.handle.cluster_at(pos.0)?;
        Ok(CharPos(it.start)..CharPos(it.end))
    }

    /// Returns the word of the character at `pos`: the segment between two word boundaries (UAX #29) of its paragraph.
    ///
    /// The next word starts at the end of its range, and the previous word contains the character before its start.
    ///
    /// # Errors
    ///
    /// Those of the position. [`Error::OutOfRange`] also at the end of the text; [`Error::OutOfMemory`].
    ///
    /// # Cost
    ///
    /// O(log n), plus time and memory proportional to the whole paragraph.
    pub fn word(&self, pos: impl Position) -> Result<Word, Error> {
        let pos = pos.resolve(self)?;
        let it = self.handle.word_at(pos.0)?;
        Ok(Word {
            range: CharPos(it.start)..CharPos(it.end),
            is_alphanumeric: it.kind != 0,
        })
    }

    // ---- Edges ----

    /// Returns where to draw the caret at an edge: on the line of the character that the edge belongs to. This is the
    /// character at the position for [`Edge::before`], and the character before the position for [`Edge::after`].
    ///
    /// A caret moves over one caret unit: a grapheme cluster or, if its characters are in several level runs, the part
    /// in one such run.
    ///
    /// - If a caret unit begins (or ends) with that character: at the start (or end) of the unit.
    /// - At another shown character: at its leading edge, which is the left one if its level is even, or its trailing edge.
    /// - At a character that is not shown, and before the end of the text: as in [`caret`](Session::caret).
    ///
    /// `level` is the level of that character.
    ///
    /// # Errors
    ///
    /// [`Error::OutOfRange`] if the position is past the end of the text, and for the edge after position 0; [`Error::OutOfMemory`].
    ///
    /// # Cost
    ///
    /// As for [`cluster`](Session::cluster), plus the length of the line.
    pub fn edge_caret(&self, edge: Edge) -> Result<Caret, Error> {
        self.handle.edge_caret(edge.raw()).map(Caret::new)
    }

    /// Returns the edge at the nearest boundary to the left or right on the line, one caret unit away, or `None` at the end of the
    /// line. [`edge_at`](Session::edge_at) then returns the end of the next line.
    ///
    /// Each step changes the column. Repeated steps reach every boundary in their direction. With
    /// [`Options::reorder_nsm`] and without [`Options::reorder_clusters`], this holds only if the marks in the text
    /// have no columns.
    ///
    /// ```
    /// use hordguli::{CharPos, Direction, Edge, Options, Session, Tables};
    ///
    /// let session = Session::new(&Tables::builtin()?, "abc", 80, Options::new())?;
    /// let edge = session.step(Edge::before(CharPos(1)), Direction::Right)?;
    /// assert_eq!(edge, Some(Edge::after(CharPos(2))));
    /// # Ok::<(), hordguli::Error>(())
    /// ```
    ///
    /// # Errors
    ///
    /// As for [`edge_caret`](Session::edge_caret).
    ///
    /// # Cost
    ///
    /// As for [`edge_caret`](Session::edge_caret).
    pub fn step(&self, edge: Edge, direction: Direction) -> Result<Option<Edge>, Error> {
        let next = self.handle.step(edge.raw(), direction.number())?;
        Ok(next.map(Edge::new))
    }

    /// Returns the edge at a column of a line, for moving to another line. For mouse clicks, see
    /// [`nearest_edge`](Session::nearest_edge). Column 0 is the left edge of the shown part, right of padding.
    ///
    /// - In the shown part: the left end of the caret unit that covers the column.
    /// - Right of the shown part: its right end. So columns 0 and `usize::MAX` are the two ends of the line on the screen.
    /// - In a line of width 0: before its start.
    /// - In the line where a new paragraph would start (see [`place`](Session::place)): before the end of the text.
    ///
    /// # Errors
    ///
    /// [`Error::OutOfRange`] for later lines; [`Error::OutOfMemory`].
    ///
    /// # Cost
    ///
    /// As for [`edge_caret`](Session::edge_caret).
    pub fn edge_at(&self, line: usize, column: usize) -> Result<Edge, Error> {
        self.handle.edge_at(line, column).map(Edge::new)
    }

    /// Returns the edge nearest to a column of a line, for mouse clicks, which may hit either half of a character. In
    /// the shown part, this is the nearer end of the caret unit that covers the column, or the right end at the unit's
    /// middle. Elsewhere, and in a unit of one column, this is the edge that [`edge_at`](Session::edge_at) returns.
    ///
    /// # Errors
    ///
    /// As for [`edge_at`](Session::edge_at).
    ///
    /// # Cost
    ///
    /// As for [`edge_caret`](Session::edge_caret).
    pub fn nearest_edge(&self, line: usize, column: usize) -> Result<Edge, Error> {
        self.handle.nearest_edge(line, column).map(Edge::new)
    }

    /// Returns the first and the last edge of a line in logical order, for the keys Home and End. The first edge is before the start
    /// of the line. The last one is
    ///
    /// - before the separator that ends the line, if there is one;
    /// - else, on the last line of the text, before the end of the text;
    /// - else before the first space that is not shown;
    /// - else after the last character of the line.
    ///
    /// In the line where a new paragraph would start (see [`place`](Session::place)), both edges are before the end of
    /// the text.
    ///
    /// # Errors
    ///
    /// [`Error::OutOfRange`] for later lines.
    ///
    /// # Cost
    ///
    /// O(log n).
    pub fn line_edges(&self, line: usize) -> Result<(Edge, Edge), Error> {
        let (first, last) = self.handle.line_edges(line)?;
        Ok((Edge::new(first), Edge::new(last)))
    }
}

impl fmt::Debug for Session {
    fn fmt(&self, f: &mut fmt::Formatter<'_>) -> fmt::Result {
        f.debug_struct("Session")
            .field("counts", &self.counts())
            .finish_non_exhaustive()
    }
}

fn position(it: hordguli_position) -> (CharPos, usize) {
    (CharPos(it.pos), it.rest)
}

/// Returns the start and the end of a range. An unbounded range ends at `end`.
fn bounded(range: impl RangeBounds<usize>, end: impl FnOnce() -> usize) -> Range<usize> {
    let start = match range.start_bound() {
        Bound::Included(&start) => start,
        Bound::Excluded(&before) => before.saturating_add(1),
        Bound::Unbounded => 0,
    };
    let end = match range.end_bound() {
        Bound::Included(&last) => last.saturating_add(1),
        Bound::Excluded(&end) => end,
        Bound::Unbounded => end(),
    };
    start..end
}
