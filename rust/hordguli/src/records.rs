use std::fmt;
use std::ops::Range;

use hordguli_sys::*;

use crate::ffi::RawRow;
use crate::numbers::{BidiClass, LineClass};
use crate::CharPos;

/// An embedding level (UAX #9), from 0 to 126. An even level is left-to-right, and an odd one right-to-left.
#[derive(Clone, Copy, Debug, Default, PartialEq, Eq, PartialOrd, Ord, Hash)]
#[repr(transparent)]
pub struct Level(u8);

impl Level {
    /// The base level of a left-to-right paragraph, 0.
    pub const LTR: Level = Level(0);
    /// The base level of a right-to-left paragraph, 1.
    pub const RTL: Level = Level(1);
    /// The highest level, 126.
    pub const MAX: Level = Level(126);

    /// Returns a level, or `None` if the number is above 126.
    #[must_use]
    pub const fn new(number: u8) -> Option<Level> {
        if number <= Level::MAX.0 {
            Some(Level(number))
        } else {
            None
        }
    }

    /// Returns the number.
    #[must_use]
    pub const fn number(self) -> u8 {
        self.0
    }

    /// Returns whether the level is odd.
    #[must_use]
    pub const fn is_rtl(self) -> bool {
        self.0 % 2 == 1
    }

    /// A level that the library returns.
    pub(crate) fn of(number: u8) -> Level {
        Level(number)
    }

    /// A level that the library returns as a wider number.
    pub(crate) fn of_u32(number: u32) -> Level {
        Level(number as u8)
    }
}

impl fmt::Display for Level {
    fn fmt(&self, f: &mut fmt::Formatter<'_>) -> fmt::Result {
        self.0.fmt(f)
    }
}

pub(crate) fn levels_of(numbers: Vec<u8>) -> Vec<Level> {
    numbers.into_iter().map(Level::of).collect()
}

/// A break mark: whether a line ends after a character.
#[derive(Clone, Copy, Debug, PartialEq, Eq, Hash)]
pub enum Break {
    /// No line ends after the character.
    Never,
    /// A line may end after the character.
    May,
    /// A line must end after the character.
    Must,
}

impl Break {
    pub(crate) fn of(mark: u8) -> Break {
        match mark {
            HORDGULI_BREAK_MUST => Break::Must,
            HORDGULI_BREAK_MAY => Break::May,
            _ => Break::Never,
        }
    }
}

pub(crate) fn breaks_of(marks: Vec<u8>) -> Vec<Break> {
    marks.into_iter().map(Break::of).collect()
}

/// What an edit replaced. All other lines and paragraphs are unchanged, except that those that follow are renumbered.
///
/// An edit replaces all paragraphs that contain or touch its range, even if it inserts and deletes nothing.
#[derive(Clone, Debug, PartialEq, Eq, Hash)]
pub struct Damage {
    /// The lines that were replaced, as numbered before the edit.
    pub old_lines: Range<usize>,
    /// The lines that replace them. They start at the same line.
    pub new_lines: Range<usize>,
    /// The paragraphs that were replaced, as numbered before the edit.
    pub old_paragraphs: Range<usize>,
    /// The paragraphs that replace them, starting with the same number.
    pub new_paragraphs: Range<usize>,
}

impl Damage {
    pub(crate) fn new(it: hordguli_damage) -> Self {
        let from = |first, count| first..first + count;
        Damage {
            old_lines: from(it.first_line, it.old_lines),
            new_lines: from(it.first_line, it.new_lines),
            old_paragraphs: from(it.first_paragraph, it.old_paragraphs),
            new_paragraphs: from(it.first_paragraph, it.new_paragraphs),
        }
    }
}

/// The lines that a call changed. All other lines are the same as before, except that those that follow are renumbered.
#[derive(Clone, Debug, PartialEq, Eq, Hash)]
pub struct ChangedLines {
    /// The lines before the call that are not the same after it.
    pub old_lines: Range<usize>,
    /// The lines that replace them. They start at the same line.
    pub new_lines: Range<usize>,
}

impl ChangedLines {
    pub(crate) fn new(it: hordguli_changed) -> Self {
        let from = |count| it.first_line..it.first_line + count;
        ChangedLines {
            old_lines: from(it.old_lines),
            new_lines: from(it.new_lines),
        }
    }
}

/// The size of a session.
#[derive(Clone, Copy, Debug, Default, PartialEq, Eq, Hash)]
pub struct Counts {
    /// The number of characters.
    pub characters: usize,
    /// The number of lines.
    pub lines: usize,
    /// The number of paragraphs.
    pub paragraphs: usize,
    /// The width, in columns.
    pub width: usize,
}

/// Work counters, for checking that edits stay incremental. The counters count characters since the session was opened,
/// and saturate at `u64::MAX`.
#[derive(Clone, Copy, Debug, Default, PartialEq, Eq, Hash)]
pub struct Work {
    /// Characters whose levels and break marks were computed.
    pub analysed: u64,
    /// Characters for which line starts were computed.
    pub filled: u64,
    /// Characters put into visual order.
    pub written: u64,
}

/// The place of a position.
#[derive(Clone, Copy, Debug, PartialEq, Eq, Hash)]
pub struct Place {
    /// The paragraph.
    pub paragraph: usize,
    /// The line.
    pub line: usize,
    /// The number of the line's characters before the position.
    pub offset: usize,
}

/// Where to draw a caret.
#[derive(Clone, Copy, Debug, PartialEq, Eq, Hash)]
pub struct Caret {
    /// The line.
    pub line: usize,
    /// The columns left of the caret, without padding.
    pub column: usize,
    /// The level of the character if it is shown, else the base level.
    pub level: Level,
}

impl Caret {
    pub(crate) fn new(it: hordguli_caret) -> Self {
        Caret {
            line: it.line,
            column: it.column,
            level: Level::of_u32(it.level),
        }
    }
}

/// The character at a column.
#[derive(Clone, Copy, Debug, PartialEq, Eq, Hash)]
pub struct Hit {
    /// The position of the character.
    pub pos: CharPos,
    /// Whether the caret goes after the character.
    pub trailing: bool,
}

/// A segment between two word boundaries (UAX #29).
#[derive(Clone, Debug, PartialEq, Eq, Hash)]
pub struct Word {
    /// The characters of the word.
    pub range: Range<CharPos>,
    /// Whether any of them is alphabetic or numeric, such as a letter, a digit or a vowel sign. The value is false for
    /// spaces and punctuation.
    pub is_alphanumeric: bool,
}

/// The columns from `left` up to but not including `right`, counted from the left edge of a line's shown part.
#[derive(Clone, Copy, Debug, PartialEq, Eq, Hash)]
pub struct Span {
    /// The first column.
    pub left: usize,
    /// The column after the last one.
    pub right: usize,
}

impl Span {
    /// Returns whether the span covers a column.
    #[must_use]
    pub fn contains(self, column: usize) -> bool {
        self.left <= column && column < self.right
    }
}

/// Characters at one level. The characters are read from left to right if the level is even, else from right to left.
///
/// The range is in characters of the text for a line ([`CharPos`]), and in indexes for a row (`usize`).
#[derive(Clone, Debug, PartialEq, Eq, Hash)]
pub struct Run<P> {
    /// The characters.
    pub range: Range<P>,
    /// Their level after L1.
    pub level: Level,
}

/// Characters of one script.
#[derive(Clone, Debug, PartialEq, Eq, Hash)]
pub struct ScriptRun {
    /// The indexes of the characters.
    pub range: Range<usize>,
    /// The code of their script (ISO 15924), such as `*b"Latn"`.
    pub script: [u8; 4],
}

/// Which edge of a position.
#[derive(Clone, Copy, Debug, Default, PartialEq, Eq, Hash)]
pub enum Side {
    /// The leading edge of the character at the position.
    #[default]
    Before,
    /// The trailing edge of the character before the position.
    After,
}

/// One of the two edges of a position. The two edges are apart on the screen where the direction changes or a line
/// wraps.
///
/// An editor keeps an edge as its caret. Edits happen at `pos` either way.
#[derive(Clone, Copy, Debug, Default, PartialEq, Eq, Hash)]
pub struct Edge {
    /// The position.
    pub pos: CharPos,
    /// Which of its edges.
    pub side: Side,
}

impl Edge {
    /// Returns the leading edge of the character at `pos`.
    #[must_use]
    pub const fn before(pos: CharPos) -> Self {
        Edge {
            pos,
            side: Side::Before,
        }
    }

    /// Returns the trailing edge of the character before `pos`.
    #[must_use]
    pub const fn after(pos: CharPos) -> Self {
        Edge {
            pos,
            side: Side::After,
        }
    }

    pub(crate) fn raw(self) -> hordguli_edge {
        let side = match self.side {
            Side::Before => HORDGULI_BEFORE,
            Side::After => HORDGULI_AFTER,
        };
        hordguli_edge {
            pos: self.pos.0,
            side,
            zero: 0,
        }
    }

    pub(crate) fn new(it: hordguli_edge) -> Self {
        let pos = CharPos(it.pos);
        match it.side {
            HORDGULI_AFTER => Edge::after(pos),
            _ => Edge::before(pos),
        }
    }
}

/// A direction on the screen.
#[derive(Clone, Copy, Debug, PartialEq, Eq, Hash)]
pub enum Direction {
    /// To the left.
    Left,
    /// To the right.
    Right,
}

impl Direction {
    pub(crate) fn number(self) -> u32 {
        match self {
            Direction::Left => HORDGULI_LEFT,
            Direction::Right => HORDGULI_RIGHT,
        }
    }
}

/// A row, or the shown part of a line, in visual order. Positions count from its start, in characters.
#[derive(Clone, Debug, Default, PartialEq, Eq, Hash)]
#[non_exhaustive]
pub struct Row {
    /// The characters in visual order, mirrored (UAX #9, L4).
    pub visual: Vec<char>,
    /// The level of each character after L1, in logical order.
    pub levels: Vec<Level>,
    /// The visual position of each logical position.
    pub logical_to_visual: Vec<u32>,
    /// The logical position of each visual position.
    pub visual_to_logical: Vec<u32>,
}

impl Row {
    pub(crate) fn new(row: RawRow) -> Self {
        Row {
            visual: row.chars,
            levels: levels_of(row.levels),
            logical_to_visual: row.ltov,
            visual_to_logical: row.vtol,
        }
    }
}

/// Whether a character is a bracket (UAX #9, BD14 and BD15). Each bracket has the other bracket of its pair.
#[derive(Clone, Copy, Debug, PartialEq, Eq, Hash)]
pub enum Bracket {
    /// An opening bracket.
    Open(char),
    /// A closing bracket.
    Close(char),
}

/// The properties of a character.
#[derive(Clone, Copy, Debug, PartialEq, Eq, Hash)]
#[non_exhaustive]
pub struct Character {
    /// Its mirror (UAX #9, L4).
    pub mirror: Option<char>,
    /// Whether it is a bracket.
    pub bracket: Option<Bracket>,
    /// Whether it is a mark (general category Mn or Mc).
    pub is_mark: bool,
    /// Whether it is wide (East Asian width F, W or H).
    pub is_wide: bool,
    /// Its bidi class.
    pub bidi_class: BidiClass,
    /// Its line breaking class.
    pub line_class: LineClass,
    /// Its width in columns, from 0 to 3. The width is 0 for a tab and other control characters.
    pub columns: u8,
}

impl Character {
    pub(crate) fn new(it: hordguli_character) -> Self {
        let pair = char::from_u32(it.pair);
        Character {
            mirror: char::from_u32(it.mirror).filter(|&c| c != '\0'),
            bracket: match it.bracket {
                HORDGULI_BRACKET_OPEN => pair.map(Bracket::Open),
                HORDGULI_BRACKET_CLOSE => pair.map(Bracket::Close),
                _ => None,
            },
            is_mark: it.flags & HORDGULI_MARK != 0,
            is_wide: it.flags & HORDGULI_WIDE != 0,
            bidi_class: BidiClass::new(it.bidi_class),
            line_class: LineClass::new(it.line_class),
            columns: it.columns,
        }
    }
}

/// Which case of N0 applies to a bracket (UAX #9), or why it is unpaired. For N0, numbers are strong.
#[derive(Clone, Copy, Debug, PartialEq, Eq, Hash)]
pub enum BracketCase {
    /// The pair contains a strong type of the embedding direction.
    B,
    /// The pair contains strong types of the opposite direction only, and the strong type before the pair has this direction.
    C1,
    /// The pair contains strong types of the opposite direction only, and the strong type before the pair has the embedding
    /// direction.
    C2,
    /// The pair contains no strong type, so N0 does not change it.
    D,
    /// Unpaired: before N0, its type is not ON.
    NotOther,
    /// Unpaired: no bracket of its isolating run sequence matches.
    NoMatch,
    /// Unpaired: pairing stopped at an opening bracket with 63 open ones before it (BD16).
    PastLimit,
}

impl BracketCase {
    fn of(number: u8) -> Option<Self> {
        match number {
            HORDGULI_BRACKET_CASE_B => Some(BracketCase::B),
            HORDGULI_BRACKET_CASE_C1 => Some(BracketCase::C1),
            HORDGULI_BRACKET_CASE_C2 => Some(BracketCase::C2),
            HORDGULI_BRACKET_CASE_D => Some(BracketCase::D),
            HORDGULI_BRACKET_CASE_NOT_OTHER => Some(BracketCase::NotOther),
            HORDGULI_BRACKET_CASE_NO_MATCH => Some(BracketCase::NoMatch),
            HORDGULI_BRACKET_CASE_PAST_LIMIT => Some(BracketCase::PastLimit),
            _ => None,
        }
    }
}

/// The rule that decides the type of a neutral (UAX #9).
#[derive(Clone, Copy, Debug, PartialEq, Eq, Hash)]
pub enum NeutralRule {
    /// N1: both sides have the same direction.
    N1,
    /// N2: they do not, so the neutral gets the embedding direction.
    N2,
}

impl NeutralRule {
    fn of(number: u8) -> Option<Self> {
        match number {
            HORDGULI_NEUTRAL_N1 => Some(NeutralRule::N1),
            HORDGULI_NEUTRAL_N2 => Some(NeutralRule::N2),
            _ => None,
        }
    }
}

/// How the algorithm arrives at the level of a character (UAX #9). Positions are indexes of characters.
///
/// A character that X9 removes has no `sequence`, `sos` and `eos`, no classes after the original one, and no case.
#[derive(Clone, Copy, Debug, PartialEq, Eq, Hash)]
#[non_exhaustive]
pub struct Reason {
    /// The innermost embedding, override or isolate initiator around it that does not overflow.
    pub opener: Option<usize>,
    /// The PDI of an isolate initiator, or the initiator of a PDI.
    pub matching: Option<usize>,
    /// The first character of its isolating run sequence.
    pub sequence: Option<usize>,
    /// The other bracket of a pair, or the bracket before a mark that N0 changes.
    pub partner: Option<usize>,
    /// In the cases B, C1 and C2, the first strong character inside the pair that decides.
    pub inside: Option<usize>,
    /// The character before a run of neutrals. For a character that X9 removes, the one whose level it has.
    pub left: Option<usize>,
    /// The character after a run of neutrals.
    pub right: Option<usize>,
    /// Its class, then its classes after X8, each of W1 to W7, N0, and N2.
    pub class_after: [Option<BidiClass>; 11],
    /// The direction of the override that it is directly in, `L` or `R`.
    pub override_class: Option<BidiClass>,
    /// Its level after X8.
    pub embedding_level: Level,
    /// Its level, as [`levels`](crate::levels) returns it.
    pub level: Level,
    /// The direction at the start of its sequence, `L` or `R`.
    pub sos: Option<BidiClass>,
    /// The direction at the end of its sequence.
    pub eos: Option<BidiClass>,
    /// What N0 does with a bracket.
    pub bracket_case: Option<BracketCase>,
    /// The rule that decides the type of a neutral.
    pub neutral: Option<NeutralRule>,
}

impl Reason {
    pub(crate) fn new(it: hordguli_reason) -> Self {
        Reason {
            opener: position(it.opener),
            matching: position(it.matching),
            sequence: position(it.sequence),
            partner: position(it.partner),
            inside: position(it.inside),
            left: position(it.left),
            right: position(it.right),
            class_after: it.class_after.map(bidi_class),
            override_class: bidi_class(it.override_class),
            embedding_level: Level::of(it.embedding_level),
            level: Level::of(it.level),
            sos: bidi_class(it.sos),
            eos: bidi_class(it.eos),
            bracket_case: BracketCase::of(it.bracket_case),
            neutral: NeutralRule::of(it.neutral),
        }
    }
}

/// A rule of UAX #14, such as LB8a.
#[derive(Clone, Copy, Debug, PartialEq, Eq, PartialOrd, Ord, Hash)]
pub struct LineRule {
    /// Its number, such as 8.
    pub number: u8,
    /// Its letter, such as `a`.
    pub letter: Option<char>,
}

impl fmt::Display for LineRule {
    /// Writes the name, such as `LB8a`.
    fn fmt(&self, f: &mut fmt::Formatter<'_>) -> fmt::Result {
        write!(f, "LB{}", self.number)?;
        self.letter.map_or(Ok(()), |letter| write!(f, "{letter}"))
    }
}

/// The rule that decides a break mark (UAX #14), and what the rule reads. A base is a character and what LB9 attaches to it.
/// Positions are indexes of characters.
#[derive(Clone, Copy, Debug, PartialEq, Eq, Hash)]
#[non_exhaustive]
pub struct BreakReason {
    /// Where the base before the mark starts.
    pub base: usize,
    /// Where the nearest base that is not a space starts, which rules with `SP*` read.
    pub behind_spaces: Option<usize>,
    /// The first rule that applies.
    pub rule: LineRule,
    /// The class of that base, after LB1 and LB10.
    pub class_before: LineClass,
    /// The class of the next base or, inside a base, of the next character. It is `None` at the end.
    pub class_after: Option<LineClass>,
    /// The mark, as [`breaks`](crate::breaks) returns it.
    pub mark: Break,
}

impl BreakReason {
    pub(crate) fn new(it: hordguli_break_reason) -> Self {
        BreakReason {
            base: it.base as usize,
            behind_spaces: position(it.behind_spaces),
            rule: LineRule {
                number: it.rule,
                letter: (it.letter != 0).then_some(it.letter.into()),
            },
            class_before: LineClass::new(it.class_before),
            class_after: (it.class_after != NO_CLASS).then_some(LineClass::new(it.class_after)),
            mark: Break::of(it.mark),
        }
    }
}

/// Stands for no class.
const NO_CLASS: u8 = 0xFF;

fn bidi_class(number: u8) -> Option<BidiClass> {
    (number != NO_CLASS).then_some(BidiClass::new(number))
}

fn position(number: u32) -> Option<usize> {
    (number != u32::MAX).then_some(number as usize)
}

macro_rules! class_names {
    ($($type:ident)*) => {
        $(
            impl $type {
                /// Returns the short name of the class, such as `AL`. The name is `?` for a class of a later library.
                #[must_use]
                pub fn name(self) -> &'static str {
                    self.known_name().unwrap_or("?")
                }
            }

            impl fmt::Display for $type {
                fn fmt(&self, f: &mut fmt::Formatter<'_>) -> fmt::Result {
                    f.write_str(self.name())
                }
            }
        )*
    };
}

class_names! { BidiClass LineClass }
