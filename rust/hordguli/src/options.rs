use std::ops::BitOr;

use hordguli_sys::*;

/// The base direction of paragraphs.
#[derive(Clone, Copy, Debug, Default, PartialEq, Eq, Hash)]
pub enum BaseDirection {
    /// The direction of a paragraph's first strong character, or left-to-right if there is none.
    #[default]
    WeakLtr,
    /// The direction of a paragraph's first strong character, or right-to-left if there is none.
    WeakRtl,
    /// All paragraphs are left-to-right.
    Ltr,
    /// All paragraphs are right-to-left.
    Rtl,
}

impl BaseDirection {
    pub(crate) const fn bits(self) -> u32 {
        match self {
            BaseDirection::WeakLtr => HORDGULI_WEAK_LTR,
            BaseDirection::WeakRtl => HORDGULI_WEAK_RTL,
            BaseDirection::Ltr => HORDGULI_LTR,
            BaseDirection::Rtl => HORDGULI_RTL,
        }
    }
}

/// Options of a layout. Each method returns the options with one of them set.
///
/// ```
/// use hordguli::{BaseDirection, Options};
///
/// let options = Options::new().base(BaseDirection::Rtl).tab_width(8).show_spaces(true);
/// # assert_ne!(options, Options::default());
/// ```
#[derive(Clone, Copy, Debug, Default, PartialEq, Eq, Hash)]
#[must_use]
pub struct Options {
    base: BaseDirection,
    no_break: bool,
    reorder_nsm: bool,
    whole_numbers: bool,
    reorder_clusters: bool,
    show_spaces: bool,
    line_separators: bool,
    tab_width: u8,
}

impl Options {
    /// Returns the default options: [`BaseDirection::WeakLtr`] and none of the others.
    pub const fn new() -> Self {
        Options {
            base: BaseDirection::WeakLtr,
            no_break: false,
            reorder_nsm: false,
            whole_numbers: false,
            reorder_clusters: false,
            show_spaces: false,
            line_separators: false,
            tab_width: 0,
        }
    }

    /// Sets the base direction of all paragraphs.
    pub const fn base(mut self, base: BaseDirection) -> Self {
        self.base = base;
        self
    }

    /// Whether lines end at mandatory breaks only.
    pub const fn no_break(mut self, is_set: bool) -> Self {
        self.no_break = is_set;
        self
    }

    /// Whether nonspacing marks at odd levels come after their base in visual order (UAX #9, L3). Use this option if
    /// the terminal draws a mark onto the cell to its left.
    pub const fn reorder_nsm(mut self, is_set: bool) -> Self {
        self.reorder_nsm = is_set;
        self
    }

    /// Whether lines do not end inside a number such as `$(1,200)`. This option changes nothing with tables of Unicode
    /// 17.0.
    pub const fn whole_numbers(mut self, is_set: bool) -> Self {
        self.whole_numbers = is_set;
        self
    }

    /// Whether adjacent characters of a grapheme cluster at the same odd level stay in logical order. Use this option
    /// if the terminal draws clusters as units, such as emoji families. [`reorder_nsm`](Options::reorder_nsm) then has
    /// no effect.
    pub const fn reorder_clusters(mut self, is_set: bool) -> Self {
        self.reorder_clusters = is_set;
        self
    }

    /// Whether the spaces at the start of a line's tail are shown, as many as fit in the width. These spaces then have
    /// carets, hits and spans.
    pub const fn show_spaces(mut self, is_set: bool) -> Self {
        self.show_spaces = is_set;
        self
    }

    /// Whether paragraphs end at LF, CR and CRLF only, as lines do in LSP, Git and most editors. U+0085 and U+2029 then end lines, not
    /// paragraphs, as do VT, FF and U+2028.
    pub const fn line_separators(mut self, is_set: bool) -> Self {
        self.line_separators = is_set;
        self
    }

    /// Sets a tab stop every `columns` columns. With 0, the default, there are no tab stops, and a tab has no columns.
    /// In a measured session, any other number sets stops at the multiples of each tab's own advance.
    pub const fn tab_width(mut self, columns: u8) -> Self {
        self.tab_width = columns;
        self
    }

    pub(crate) const fn bits(self) -> u32 {
        self.paragraph_bits()
            | self.row_bits()
            | self.break_bits()
            | if_set(self.no_break, HORDGULI_NOBREAK)
            | if_set(self.show_spaces, HORDGULI_SHOW_SPACES)
            | HORDGULI_TAB_WIDTH(self.tab_width as u32)
    }

    /// The options that change the levels of a paragraph.
    pub(crate) const fn paragraph_bits(self) -> u32 {
        self.base.bits() | if_set(self.line_separators, HORDGULI_LINE_SEPARATORS)
    }

    /// The options that change the order of a row.
    pub(crate) const fn row_bits(self) -> u32 {
        if_set(self.reorder_nsm, HORDGULI_REORDER_NSM)
            | if_set(self.reorder_clusters, HORDGULI_REORDER_CLUSTERS)
    }

    /// The options that change break marks.
    pub(crate) const fn break_bits(self) -> u32 {
        if_set(self.whole_numbers, HORDGULI_WHOLE_NUMBERS)
    }
}

impl From<BaseDirection> for Options {
    /// Returns options with this base direction and none of the others.
    fn from(base: BaseDirection) -> Options {
        Options::new().base(base)
    }
}

const fn if_set(is_set: bool, bit: u32) -> u32 {
    if is_set {
        bit
    } else {
        0
    }
}

/// What is written for each line, in the order of the constants. Combine them with `|`. Each item is a separate line.
///
/// ```
/// use hordguli::{layout, Options, Print, Tables};
///
/// let tables = Tables::builtin()?;
/// let printed = layout(&tables, "a \u{5d0}\u{5d1}", 80, Options::new(), Print::VTOL | Print::LEVELS)?;
/// assert_eq!(printed, "0 1 3 2\n0 0 1 1\n");
/// # Ok::<(), hordguli::Error>(())
/// ```
#[derive(Clone, Copy, Debug, PartialEq, Eq, Hash)]
#[must_use]
pub struct Print(u32);

impl Print {
    /// The shown part in visual order.
    pub const VISUAL: Print = Print(HORDGULI_PRINT_VISUAL);
    /// `LTR` or `RTL`, after the first line of each paragraph.
    pub const BASEDIR: Print = Print(HORDGULI_PRINT_BASEDIR);
    /// The visual position of each logical position.
    pub const LTOV: Print = Print(HORDGULI_PRINT_LTOV);
    /// The logical position of each visual position.
    pub const VTOL: Print = Print(HORDGULI_PRINT_VTOL);
    /// The level of each character after L1, in logical order.
    pub const LEVELS: Print = Print(HORDGULI_PRINT_LEVELS);
    /// Pads visual lines of right-to-left paragraphs with spaces on the left, up to the width. Measured text is not padded.
    pub const PADDED: Print = Print(HORDGULI_PRINT_PADDED);
    /// Mirrors characters at odd levels in visual lines (UAX #9, L4).
    pub const MIRRORED: Print = Print(HORDGULI_PRINT_MIRRORED);
    /// Visual lines, padded and mirrored.
    pub const DEFAULT: Print = Print(HORDGULI_PRINT_DEFAULT);

    pub(crate) const fn bits(self) -> u32 {
        self.0
    }
}

impl Default for Print {
    fn default() -> Self {
        Print::DEFAULT
    }
}

impl BitOr for Print {
    type Output = Print;

    fn bitor(self, other: Print) -> Print {
        Print(self.0 | other.0)
    }
}
