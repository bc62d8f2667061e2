//! Lays out bidirectional text in lines: Unicode's bidirectional and line breaking algorithms (UAX #9, UAX #14).
//!
//! This is a safe interface to the C library `libhordguli`, whose levels, order and line breaks are proved to follow
//! the annexes. The crate itself is not proved. The crate has the same rules and limits, which `docs/reference.md` in
//! the sources describes, and no dependencies.
//!
//! | Task | Calls |
//! |---|---|
//! | [One string](#one-string) | [`wrap`], [`layout`], [`layout_into`] |
//! | [A terminal row](#a-terminal-row) | [`base_level`], [`levels`], [`row`], [`row_runs`], [`script_runs`], [`breaks`], [`clusters`], [`properties`] |
//! | [A document](#a-document) | [`Session`], [`Line`], [`Paragraph`] |
//! | Why a character has its level or break mark | [`reasons`], [`break_reasons`] |
//! | Text in any font | [`Session::open_measured`], [`Session::set_advances`] |
//! | [An editor](#an-editor) | [`Session::insert`], [`Damage`], [`Edge`], [`Line::spans`] |
//! | Programs that use `unicode-bidi` and `unicode-linebreak` | [`migration`] |
//!
//! # One string
//!
//! All calls need [`Tables`]. Open tables once, and keep them.
//!
//! ```
//! use hordguli::{wrap, Options, Tables};
//!
//! let tables = Tables::builtin()?;
//! let lines = wrap(&tables, "hello, \u{5e9}\u{5dc}\u{5d5}\u{5dd} \u{5e2}\u{5d5}\u{5dc}\u{5dd}", 12, Options::new())?;
//! assert_eq!(lines, ["hello, \u{5dd}\u{5d5}\u{5dc}\u{5e9}", "\u{5dd}\u{5dc}\u{5d5}\u{5e2}"]);
//! # Ok::<(), hordguli::Error>(())
//! ```
//!
//! A program that lays out many strings, such as the lines of a log, reuses a buffer. Such calls usually allocate nothing.
//!
//! ```
//! use hordguli::{layout_into, Options, Print, Tables};
//!
//! let tables = Tables::builtin()?;
//! let mut buffer = String::new();
//! for entry in ["error: \u{5d0}", "warning: \u{5d1}"] {
//!     buffer.clear();
//!     layout_into(&tables, entry, 80, Options::new(), Print::DEFAULT, &mut buffer)?;
//!     print!("{buffer}");
//! }
//! # Ok::<(), hordguli::Error>(())
//! ```
//!
//! # A terminal row
//!
//! A program that breaks rows itself puts each row into visual order. Levels depend on the whole paragraph. Characters
//! and their levels are slices with the same indexes.
//!
//! ```
//! use hordguli::{base_level, levels, row, BaseDirection, Options, Tables};
//!
//! let tables = Tables::builtin()?;
//! let paragraph: Vec<char> = "abc \u{5d0}\u{5d1}\u{5d2} \u{5d3}\u{5d4}".chars().collect();
//! let base = base_level(&tables, &paragraph, BaseDirection::WeakLtr)?;
//! let levels = levels(&tables, &paragraph, BaseDirection::WeakLtr)?;
//! let mut rows = Vec::new();
//! for (chars, levels) in paragraph.chunks(6).zip(levels.chunks(6)) {
//!     rows.push(row(&tables, chars, levels, base, Options::new())?.visual.into_iter().collect::<String>());
//! }
//! assert_eq!(rows, ["abc \u{5d1}\u{5d0}", "\u{5d4}\u{5d3} \u{5d2}"]);
//! # Ok::<(), hordguli::Error>(())
//! ```
//!
//! [`breaks`] says where rows may end, and [`properties`] has the width of each character.
//!
//! # A document
//!
//! A [`Session`] keeps a text and its lines. When the text or the width changes, [`Damage`] says which lines to draw again.
//!
//! ```
//! use hordguli::{CharPos, Options, Session, Tables};
//!
//! let mut session = Session::new(&Tables::builtin()?, "one two\nthree\n", 80, Options::new())?;
//! let damage = session.replace(CharPos(0)..CharPos(3), "four five")?;
//! for line in session.lines(damage.new_lines) {
//!     println!("{}: {:padding$}{}", line.number(), "", line.visual()?, padding = line.padding());
//! }
//! session.set_width(5)?;
//! assert_eq!(session.counts().lines, 4);
//! # Ok::<(), hordguli::Error>(())
//! ```
//!
//! To shape a line, take the characters of each of its directional [runs](Line::runs).
//!
//! # An editor
//!
//! A position has two edges: the leading edge of the character at that position, and the trailing edge of the character
//! before it. The two are apart where the direction changes or a line wraps. So an editor keeps an [`Edge`] as its
//! caret:
//!
//! | The caret was last moved by | Edge to keep |
//! |---|---|
//! | typing up to a position, or Backspace back to it | [`Edge::after`] it; [`Edge::before`] it at the start of the text, or after a separator, VT, FF or U+2028 |
//! | Delete | [`Edge::before`] the position |
//! | an arrow key, a click, Home or End | what [`Session::step`], [`Session::edge_at`], [`Session::nearest_edge`] or [`Line::edges`] returned |
//!
//! ```
//! use hordguli::{CharPos, Direction, Edge, Error, Options, Session, Tables};
//!
//! struct Editor {
//!     session: Session,
//!     caret: Edge,
//! }
//!
//! impl Editor {
//!     /// Types text at the caret. Returns the lines to draw.
//!     fn type_text(&mut self, text: &str) -> Result<std::ops::Range<usize>, Error> {
//!         let start = self.session.byte_of(self.caret.pos)?;
//!         let damage = self.session.insert(self.caret.pos, text)?;
//!         let (end, _) = self.session.position_of_byte(start + text.len())?;
//!         let ends_line = |c| matches!(c, '\n'..='\r' | '\u{1c}'..='\u{1e}' | '\u{85}' | '\u{2028}' | '\u{2029}');
//!         self.caret = if end == CharPos(0) || text.ends_with(ends_line) { Edge::before(end) } else { Edge::after(end) };
//!         Ok(damage.new_lines)
//!     }
//!
//!     /// The key Right. At the end of a line, goes to the start of the next one.
//!     fn right(&mut self) -> Result<(), Error> {
//!         let line = self.session.edge_caret(self.caret)?.line;
//!         if let Some(edge) = self.session.step(self.caret, Direction::Right)? {
//!             self.caret = edge;
//!         } else if line < self.session.place(CharPos(self.session.counts().characters))?.line {
//!             self.caret = self.session.edge_at(line + 1, 0)?;
//!         }
//!         Ok(())
//!     }
//!
//!     /// The line and the screen column of the caret.
//!     fn caret_cell(&self) -> Result<(usize, usize), Error> {
//!         let caret = self.session.edge_caret(self.caret)?;
//!         let padding = self.session.line(caret.line).map_or(0, |line| line.padding());
//!         Ok((caret.line, padding + caret.column))
//!     }
//! }
//!
//! let session = Session::new(&Tables::builtin()?, "abc\n", 80, Options::new())?;
//! let mut editor = Editor { session, caret: Edge::default() };
//! assert_eq!(editor.type_text("\u{5d0}\u{5d1} ")?, 0..1);
//! assert_eq!(editor.caret_cell()?, (0, 77));
//! # editor.right()?;
//! # Ok::<(), hordguli::Error>(())
//! ```
//!
//! - **Selections:** [`Line::spans`] returns the columns to highlight.
//! - **Clicks:** [`Session::nearest_edge`]. Columns do not include padding, so subtract [`Line::padding`].
//! - **Words:** [`Session::word`] for a double click and for arrow keys with Ctrl.
//! - **The line after a final separator** does not exist yet. [`Session::place`] and [`Session::caret`] still name it.
//!
//! `examples/bidi_pad` in the sources is a whole editor.
//!
//! # Units
//!
//! A position is in characters ([`CharPos`]), bytes of UTF-8 ([`BytePos`]) or UTF-16 code units ([`Utf16Pos`]). Methods of a
//! [`Session`] take each of them, alone ([`Position`]) or as a range ([`TextRange`]), and return characters. [`Session::byte_of`] and
//! [`Session::utf16_of`] convert these. Lengths of `&[char]` and results for each character count characters.
//!
//! A character is a Unicode scalar value. U+0000 is an ordinary character. Control characters have width 0 and are written unchanged.
//! A program that writes to a terminal must remove or replace them.
//!
//! # Errors
//!
//! Calls return [`Error`]. After an error, nothing has changed. Each method lists its errors, which never include
//! [`Error::Unexpected`]. Nothing panics, except [`row`] and [`row_runs`] if their slices have different lengths, and
//! arithmetic on positions that overflows. If an allocation in the crate fails, it also returns [`Error::OutOfMemory`],
//! except in [`wrap`], which makes a `String` of each line.
//!
//! # Threads
//!
//! [`Tables`] and [`Session`] are `Send` and not `Sync`. Open tables for each thread, or put them into a `Mutex`.
//!
//! # Linking
//!
//! `pkg-config` finds the library. Its packages are `libhordguli1` and `libhordguli-dev`. With the feature `vendored`, the crate links
//! `libhordguli.a` from the folder that the environment variable `HORDGULI_DIR` names, such as an unpacked tarball.
#![warn(missing_docs, missing_debug_implementations, unsafe_op_in_unsafe_fn)]
#![deny(unsafe_code)]

#[macro_use]
mod macros;

mod error;
#[allow(unsafe_code)]
mod ffi;
mod line;
pub mod migration;
mod numbers;
mod options;
mod position;
mod records;
mod session;
mod tables;
mod text;

pub use error::{Error, TableFault};
pub use line::{Line, Lines, Paragraph};
pub use numbers::{BidiClass, Cause, LineClass, UnicodeVersion, TABLE_FILES};
pub use options::{BaseDirection, Options, Print};
pub use position::{BytePos, CharPos, Position, TextRange, Utf16Pos};
pub use records::{
    Bracket, BracketCase, Break, BreakReason, Caret, ChangedLines, Character, Counts, Damage,
    Direction, Edge, Hit, Level, LineRule, NeutralRule, Place, Reason, Row, Run, ScriptRun, Side,
    Span, Word, Work,
};
pub use session::Session;
pub use tables::Tables;
pub use text::{
    base_level, break_reasons, breaks, clusters, count_utf8, decode, layout, layout_into, levels,
    properties, reasons, row, row_runs, script_runs, valid_utf8, wrap,
};

/// Returns the version of the C library, such as `0.6.0`.
#[must_use]
pub fn version() -> &'static str {
    ffi::version()
}

/// Returns `15.0`, the Unicode version of tables that are opened without a version.
#[must_use]
pub fn unicode_version() -> &'static str {
    ffi::unicode_version()
}

/// Returns the Unicode version of column widths and grapheme clusters, such as `18.0`. This version does not depend on
/// the tables.
#[must_use]
pub fn width_unicode_version() -> &'static str {
    ffi::width_unicode_version()
}
