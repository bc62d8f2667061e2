use crate::records::{breaks_of, levels_of};
use crate::{
    ffi, Break, BreakReason, Character, Error, Level, Options, Print, Reason, Row, Run, ScriptRun,
    Tables,
};

/// Lays out a text in lines of at most `width` columns, and returns what `print` selects for each line.
///
/// Each item of a line ends in U+000A. The result equals that of [`Session::lines_to_string`](crate::Session::lines_to_string) for
/// all lines of a session.
///
/// ```
/// use hordguli::{layout, Options, Print, Tables};
///
/// let tables = Tables::builtin()?;
/// let lines = layout(&tables, "abc \u{5d0}\u{5d1}", 80, Options::new(), Print::DEFAULT)?;
/// assert_eq!(lines, "abc \u{5d1}\u{5d0}\n");
/// # Ok::<(), hordguli::Error>(())
/// ```
///
/// # Errors
///
/// [`Error::WidthOutOfRange`], [`Error::TextTooLong`], [`Error::ParagraphTooLong`], [`Error::OutOfMemory`].
///
/// # Cost
///
/// Time and memory proportional to the text and the lines. The tables keep the memory that a call used. A later call
/// that needs no more memory allocates only the result. Memory for texts or lines of more than 65,536 bytes is freed.
pub fn layout(
    tables: &Tables,
    text: &str,
    width: u16,
    options: Options,
    print: Print,
) -> Result<String, Error> {
    let mut lines = String::new();
    layout_into(tables, text, width, options, print, &mut lines)?;
    Ok(lines)
}

/// Appends to `buffer` what [`layout`] returns. Allocates nothing if the capacity of the buffer suffices for the lines, and for one
/// and a half times the text and 64 bytes more.
///
/// # Errors
///
/// As for [`layout`]. After an error, the buffer has the same text as before.
pub fn layout_into(
    tables: &Tables,
    text: &str,
    width: u16,
    options: Options,
    print: Print,
    buffer: &mut String,
) -> Result<(), Error> {
    let (options, width, print) = (options.bits(), width.into(), print.bits());
    tables.handle.layout(options, width, print, text, buffer)
}

/// Breaks a text into lines of at most `width` columns, and returns them in visual order, mirrored and padded.
///
/// ```
/// use hordguli::{wrap, Options, Tables};
///
/// let tables = Tables::builtin()?;
/// let lines = wrap(&tables, "The quick brown fox", 10, Options::new())?;
/// assert_eq!(lines, ["The quick", "brown fox"]);
/// # Ok::<(), hordguli::Error>(())
/// ```
///
/// # Errors
///
/// As for [`layout`].
pub fn wrap(
    tables: &Tables,
    text: &str,
    width: u16,
    options: Options,
) -> Result<Vec<String>, Error> {
    let lines = layout(tables, text, width, options, Print::DEFAULT)?;
    Ok(lines.split_terminator('\n').map(String::from).collect())
}

/// Returns the base level of a paragraph: [`Level::LTR`] or [`Level::RTL`]. The characters are not split at separators.
///
/// `options` is a [`BaseDirection`](crate::BaseDirection) or [`Options`], of which only [`Options::base`] and
/// [`Options::line_separators`] change the result.
///
/// ```
/// use hordguli::{base_level, BaseDirection, Level, Tables};
///
/// let tables = Tables::builtin()?;
/// assert_eq!(base_level(&tables, &['1', '.', '\u{5d0}'], BaseDirection::WeakLtr)?, Level::RTL);
/// assert_eq!(base_level(&tables, &['1', '.'], BaseDirection::WeakLtr)?, Level::LTR);
/// # Ok::<(), hordguli::Error>(())
/// ```
///
/// # Errors
///
/// [`Error::OutOfMemory`].
///
/// # Cost
///
/// Time and memory proportional to the number of characters.
pub fn base_level(
    tables: &Tables,
    chars: &[char],
    options: impl Into<Options>,
) -> Result<Level, Error> {
    let base = tables.handle.base(options.into().paragraph_bits(), chars)?;
    Ok(Level::of_u32(base))
}

/// Returns the level of each character of a paragraph, before L1 (UAX #9). The characters are not split at separators. `options` is as
/// in [`base_level`].
///
/// ```
/// use hordguli::{levels, BaseDirection, Tables};
///
/// let tables = Tables::builtin()?;
/// let chars: Vec<char> = "ab \u{5d0}\u{5d1} 12".chars().collect();
/// let numbers: Vec<u8> = levels(&tables, &chars, BaseDirection::WeakLtr)?.into_iter().map(|level| level.number()).collect();
/// assert_eq!(numbers, [0, 0, 0, 1, 1, 1, 2, 2]);
/// # Ok::<(), hordguli::Error>(())
/// ```
///
/// # Errors
///
/// [`Error::OutOfMemory`].
///
/// # Cost
///
/// Time and memory proportional to the number of characters.
pub fn levels(
    tables: &Tables,
    chars: &[char],
    options: impl Into<Options>,
) -> Result<Vec<Level>, Error> {
    tables
        .handle
        .levels(options.into().paragraph_bits(), chars)
        .map(levels_of)
}

/// Returns the break mark after each character of a paragraph (UAX #14). The characters are not split at separators.
///
/// Only [`Options::whole_numbers`] changes the result.
///
/// ```
/// use hordguli::{breaks, Break, Options, Tables};
///
/// let tables = Tables::builtin()?;
/// let marks = breaks(&tables, &['a', ' ', 'b', '\n'], Options::new())?;
/// assert_eq!(marks, [Break::Never, Break::May, Break::Never, Break::Must]);
/// # Ok::<(), hordguli::Error>(())
/// ```
///
/// # Errors
///
/// [`Error::OutOfMemory`].
///
/// # Cost
///
/// Time and memory proportional to the number of characters.
pub fn breaks(tables: &Tables, chars: &[char], options: Options) -> Result<Vec<Break>, Error> {
    tables
        .handle
        .marks(options.break_bits(), chars)
        .map(breaks_of)
}

/// Returns how the algorithm arrives at the level of each character of a paragraph (UAX #9). The characters are not split at
/// separators. `options` is as in [`base_level`].
///
/// ```
/// use hordguli::{reasons, BaseDirection, BidiClass, BracketCase, Tables};
///
/// let tables = Tables::builtin()?;
/// let found = reasons(&tables, &['a', '(', '\u{5d0}', ')'], BaseDirection::WeakLtr)?;
/// assert_eq!((found[1].partner, found[1].inside), (Some(3), Some(2)));
/// // the letters inside are right-to-left, and the one before is left-to-right
/// assert_eq!(found[1].bracket_case, Some(BracketCase::C2));
/// assert_eq!(found[1].class_after[8..10], [Some(BidiClass::ON), Some(BidiClass::L)]); // after W7 and N0
/// # Ok::<(), hordguli::Error>(())
/// ```
///
/// # Errors
///
/// [`Error::OutOfRange`] for more than 4,294,967,294 characters; [`Error::OutOfMemory`].
///
/// # Cost
///
/// Time and memory proportional to the number of characters.
pub fn reasons(
    tables: &Tables,
    chars: &[char],
    options: impl Into<Options>,
) -> Result<Vec<Reason>, Error> {
    let records = tables
        .handle
        .reasons(options.into().paragraph_bits(), chars)?;
    converted(records, Reason::new)
}

/// Returns which rule decides the break mark after each character of a paragraph (UAX #14). The characters are not split at
/// separators. Only [`Options::whole_numbers`] changes the result.
///
/// ```
/// use hordguli::{break_reasons, Options, Tables};
///
/// let tables = Tables::builtin()?;
/// let found = break_reasons(&tables, &['a', ' ', '('], Options::new())?;
/// let rules: Vec<String> = found.iter().map(|reason| reason.rule.to_string()).collect();
/// assert_eq!(rules, ["LB7", "LB18", "LB3"]);
/// assert_eq!(found[1].behind_spaces, Some(0));
/// # Ok::<(), hordguli::Error>(())
/// ```
///
/// # Errors
///
/// As for [`reasons`].
///
/// # Cost
///
/// As for [`reasons`].
pub fn break_reasons(
    tables: &Tables,
    chars: &[char],
    options: Options,
) -> Result<Vec<BreakReason>, Error> {
    let records = tables.handle.break_reasons(options.break_bits(), chars)?;
    converted(records, BreakReason::new)
}

/// Converts each record.
fn converted<R, T>(records: Vec<R>, convert: fn(R) -> T) -> Result<Vec<T>, Error> {
    let mut items = Vec::new();
    items
        .try_reserve_exact(records.len())
        .map_err(|_| Error::OutOfMemory)?;
    items.extend(records.into_iter().map(convert));
    Ok(items)
}

/// Puts a row, whose start and end the caller has chosen, into visual order.
///
/// `base` is the base level of its paragraph ([`base_level`]), and `levels` are the levels of the row's characters in
/// the whole paragraph ([`levels`]). L1 applies to the row as to a line: separators, and white space before them and at
/// the end of the row, get the level `base`. Only [`Options::reorder_nsm`] and [`Options::reorder_clusters`] change the
/// result. Only these characters determine the clusters.
///
/// ```
/// use hordguli::{base_level, levels, row, BaseDirection, Options, Tables};
///
/// let tables = Tables::builtin()?;
/// let chars: Vec<char> = "ab \u{5d0}\u{5d1}\u{5d2}".chars().collect();
/// let base = base_level(&tables, &chars, BaseDirection::WeakLtr)?;
/// let levels = levels(&tables, &chars, BaseDirection::WeakLtr)?;
/// // a terminal of five columns
/// let first = row(&tables, &chars[..5], &levels[..5], base, Options::new())?;
/// assert_eq!(first.visual, ['a', 'b', ' ', '\u{5d1}', '\u{5d0}']);
/// assert_eq!(first.visual_to_logical, [0, 1, 2, 4, 3]);
/// # Ok::<(), hordguli::Error>(())
/// ```
///
/// # Errors
///
/// [`Error::OutOfRange`] if `base` is above 1, or for more than 4,294,967,295 characters; [`Error::OutOfMemory`].
///
/// # Panics
///
/// If `chars` and `levels` have different lengths.
///
/// # Cost
///
/// Memory proportional to the number of characters, and time proportional to that number times the highest level.
pub fn row(
    tables: &Tables,
    chars: &[char],
    levels: &[Level],
    base: Level,
    options: Options,
) -> Result<Row, Error> {
    let (options, base) = (options.row_bits(), base.number().into());
    tables
        .handle
        .row(options, base, chars, levels)
        .map(Row::new)
}

/// Returns the directional runs of a row, from left to right, for shaping text. The parameters are those of [`row`].
///
/// ```
/// use hordguli::{levels, row_runs, BaseDirection, Level, Run, Tables};
///
/// let tables = Tables::builtin()?;
/// let chars = ['a', 'b', '\u{5d0}', '\u{5d1}'];
/// let levels = levels(&tables, &chars, BaseDirection::Ltr)?;
/// let runs: Vec<_> = row_runs(&tables, &chars, &levels, Level::LTR)?.collect();
/// assert_eq!(runs, [Run { range: 0..2, level: Level::LTR }, Run { range: 2..4, level: Level::RTL }]);
/// # Ok::<(), hordguli::Error>(())
/// ```
///
/// # Errors
///
/// As for [`row`].
///
/// # Panics
///
/// As for [`row`].
///
/// # Cost
///
/// As for [`row`].
pub fn row_runs(
    tables: &Tables,
    chars: &[char],
    levels: &[Level],
    base: Level,
) -> Result<impl DoubleEndedIterator<Item = Run<usize>> + ExactSizeIterator, Error> {
    let runs = tables
        .handle
        .row_runs(base.number().into(), chars, levels)?;
    Ok(runs.into_iter().map(|run| Run {
        range: run.start..run.start + run.length,
        level: Level::of_u32(run.level),
    }))
}

/// Returns the properties of each character.
///
/// ```
/// use hordguli::{properties, BidiClass, Bracket, Tables};
///
/// let tables = Tables::builtin()?;
/// let found = properties(&tables, &['(', '\u{4e2d}'])?;
/// assert_eq!((found[0].mirror, found[0].bracket), (Some(')'), Some(Bracket::Open(')'))));
/// assert_eq!((found[1].bidi_class, found[1].columns), (BidiClass::L, 2));
/// # Ok::<(), hordguli::Error>(())
/// ```
///
/// # Errors
///
/// [`Error::OutOfMemory`].
///
/// # Cost
///
/// Time and memory proportional to the number of characters.
pub fn properties(tables: &Tables, chars: &[char]) -> Result<Vec<Character>, Error> {
    let records = tables.handle.properties(chars)?;
    converted(records, Character::new)
}

/// Returns the number of characters in UTF-8 text.
///
/// # Errors
///
/// [`Error::NotUtf8`].
///
/// # Cost
///
/// Time proportional to the number of bytes.
pub fn count_utf8(bytes: &[u8]) -> Result<usize, Error> {
    ffi::count_utf8(bytes)
}

/// Returns the length of the longest prefix that is valid UTF-8, in bytes.
///
/// ```
/// assert_eq!(hordguli::valid_utf8(b"ab\xff"), 2);
/// ```
///
/// # Cost
///
/// Time proportional to the number of bytes.
#[must_use]
pub fn valid_utf8(bytes: &[u8]) -> usize {
    // (it fails only for NULL and overlapping parameters)
    ffi::valid_utf8(bytes).unwrap_or_default()
}

/// Returns the characters of UTF-8 text, and the offset of each, in bytes.
///
/// A program that has a `&str` can iterate over its [`char_indices`](str::char_indices) instead.
///
/// ```
/// let (chars, offsets) = hordguli::decode("\u{5d0}b".as_bytes())?;
/// assert_eq!((chars, offsets), (vec!['\u{5d0}', 'b'], vec![0, 2]));
/// # Ok::<(), hordguli::Error>(())
/// ```
///
/// # Errors
///
/// [`Error::NotUtf8`]: call [`valid_utf8`] to find the first invalid byte; [`Error::OutOfMemory`].
///
/// # Cost
///
/// Time and memory proportional to the number of bytes.
pub fn decode(bytes: &[u8]) -> Result<(Vec<char>, Vec<usize>), Error> {
    ffi::decode(bytes)
}

/// Returns the ends of the grapheme clusters of a text. The clusters are the same as in a session with this text, and
/// the last one ends at the end of the text.
///
/// ```
/// assert_eq!(hordguli::clusters(&['e', '\u{301}', 'a'])?, [2, 3]);
/// # Ok::<(), hordguli::Error>(())
/// ```
///
/// # Errors
///
/// [`Error::OutOfMemory`].
///
/// # Cost
///
/// Time and memory proportional to the number of characters.
pub fn clusters(chars: &[char]) -> Result<Vec<usize>, Error> {
    ffi::clusters(chars)
}

/// Returns the script runs of a text (UAX #24), for fonts and shapers: the longest ranges of characters of one script.
///
/// - Spaces, digits, marks and other characters whose property Script is Common or Inherited have the script before them. At the
///   start of the text, they have the script after them, or Common (`Zyyy`) if there is none.
/// - A closing bracket has the script of its opening bracket.
/// - Private-use and unassigned characters have the script Unknown (`Zzzz`).
///
/// ```
/// use hordguli::{script_runs, Tables};
///
/// let tables = Tables::builtin()?;
/// let chars = ['a', ' ', '(', '\u{5d0}', ')'];
/// let scripts: Vec<_> = script_runs(&tables, &chars)?.map(|run| (run.range, run.script)).collect();
/// assert_eq!(scripts, [(0..3, *b"Latn"), (3..4, *b"Hebr"), (4..5, *b"Latn")]);
/// # Ok::<(), hordguli::Error>(())
/// ```
///
/// # Errors
///
/// [`Error::OutOfMemory`].
///
/// # Cost
///
/// Time and memory proportional to the number of characters.
pub fn script_runs(
    tables: &Tables,
    chars: &[char],
) -> Result<impl DoubleEndedIterator<Item = ScriptRun> + ExactSizeIterator, Error> {
    let runs = tables.handle.script_runs(chars)?;
    Ok(runs.into_iter().map(|run| ScriptRun {
        range: run.start..run.start + run.length,
        script: run.script.to_be_bytes(),
    }))
}
