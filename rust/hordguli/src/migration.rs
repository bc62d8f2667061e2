//! What to write instead of each call of the crates `unicode-bidi` (0.3) and `unicode-linebreak` (0.1).
//!
//! This module has no items.
//!
//! # `unicode-bidi`
//!
//! | `unicode_bidi` | Here |
//! |---|---|
//! | `BidiInfo::new(text, None)` | [`Session::new`], or [`levels`] and [`base_level`] for one paragraph |
//! | `BidiInfo::new(text, Some(level))` | the same, with [`BaseDirection::Ltr`] or [`BaseDirection::Rtl`] |
//! | `BidiInfo::new_with_data_source`, `BidiDataSource`, `HardcodedBidiData` | [`Tables::from_files`] and the other constructors of [`Tables`] |
//! | `InitialInfo::new`, `info.paragraphs` | [`Session::paragraph`] for each of [`Counts::paragraphs`] |
//! | `info.levels` | [`Paragraph::levels_and_breaks`], [`levels`] |
//! | `info.original_classes`, `bidi_class(c)` | [`properties`], [`Character::bidi_class`] |
//! | `info.text` | [`Session::text`] |
//! | `info.has_rtl()`, `level::has_rtl(levels)` | `levels.iter().any(\|level\| level.is_rtl())` |
//! | `info.reordered_levels(para, line)`, `reordered_levels_per_char` | [`row`] or [`Line::row`], [`Row::levels`] |
//! | `info.reorder_line(para, line)` | [`row`] or [`Line::row`], [`Row::visual`]; [`Line::visual`] |
//! | `info.visual_runs(para, line)`, `deprecated::visual_runs` | [`row_runs`] or [`Line::runs`] |
//! | `ParagraphInfo::range`, `len()` | [`Paragraph::range`] |
//! | `ParagraphInfo::level` | [`Paragraph::base`], [`base_level`] |
//! | `Paragraph::new(info, para)` | [`Session::paragraph`] |
//! | `Paragraph::direction()`, `Direction` | `any` and `all` over levels, with [`Level::is_rtl`] |
//! | `Paragraph::level_at(pos)` | an index into the levels |
//! | `Level::ltr()`, `LTR_LEVEL`; `Level::rtl()`, `RTL_LEVEL` | [`Level::LTR`]; [`Level::RTL`] |
//! | `Level::new`, `new_explicit`, `Level::vec` | [`Level::new`] |
//! | `Level::number`, `is_rtl`, `is_ltr` | [`Level::number`], [`Level::is_rtl`] |
//! | `Level::raise`, `raise_explicit`, `lower`, `new_explicit_next_ltr`, `new_explicit_next_rtl`, `new_lowest_ge_rtl` | arithmetic on [`Level::number`] |
//! | `Level::bidi_class()` | [`BidiClass::R`] if [`Level::is_rtl`], else [`BidiClass::L`] |
//! | `Level::max_implicit_depth()`, `MAX_IMPLICIT_DEPTH` | [`Level::MAX`] |
//! | `Level::max_explicit_depth()`, `MAX_EXPLICIT_DEPTH` | 125 |
//! | `LevelRun` | [`Run`] |
//! | `BidiClass` | [`BidiClass`] |
//! | constants of `format_chars` | the characters, such as `'\u{200f}'` for `RLM` |
//! | `UNICODE_VERSION` | [`Tables::version`] |
//!
//! The differences are:
//!
//! - Levels are per character, and not per byte.
//! - [`row`] and lines are mirrored (UAX #9, L4). `reorder_line` leaves brackets unchanged.
//! - [`Session`] finds the lines itself, and a line's tail is not shown. To choose the lines yourself, use [`row`].
//! - Ranges of [`Run`]s are in characters.
//!
//! ```
//! use hordguli::{base_level, levels, row, BaseDirection, Options, Tables};
//!
//! // let info = BidiInfo::new(text, None);
//! // let visual = info.reorder_line(&info.paragraphs[0], 0..text.len());
//! let text = "abc \u{5d0}\u{5d1}\u{5d2}";
//! let tables = Tables::builtin()?;
//! let chars: Vec<char> = text.chars().collect();
//! let base = base_level(&tables, &chars, BaseDirection::WeakLtr)?;
//! let levels = levels(&tables, &chars, BaseDirection::WeakLtr)?;
//! let visual: String = row(&tables, &chars, &levels, base, Options::new())?.visual.iter().collect();
//! assert_eq!(visual, "abc \u{5d2}\u{5d1}\u{5d0}");
//! # Ok::<(), hordguli::Error>(())
//! ```
//!
//! # `unicode-linebreak`
//!
//! | `unicode_linebreak` | Here |
//! |---|---|
//! | `linebreaks(text)` | [`breaks`], [`Paragraph::levels_and_breaks`] |
//! | `BreakOpportunity::Mandatory`, `Allowed` | [`Break::Must`], [`Break::May`] |
//! | `break_property(code)`, `BreakClass` | [`properties`], [`Character::line_class`] |
//! | `split_at_safe(text)` | not needed: a [`Session`] keeps the break marks of its text |
//! | `UNICODE_VERSION` | [`Tables::version`] |
//!
//! [`breaks`] has a mark for each character. These are the pairs that `linebreaks` yields:
//!
//! ```
//! use hordguli::{breaks, Break, Options, Tables};
//!
//! let text = "a b \nc";
//! let tables = Tables::builtin()?;
//! let chars: Vec<char> = text.chars().collect();
//! let marks = breaks(&tables, &chars, Options::new())?;
//! let ends = text.char_indices().skip(1).map(|(byte, _)| byte).chain([text.len()]);
//! let pairs: Vec<(usize, Break)> = ends.zip(marks).filter(|(_, mark)| *mark != Break::Never).collect();
//! assert_eq!(pairs, [(2, Break::May), (5, Break::Must), (6, Break::Must)]);
//! # Ok::<(), hordguli::Error>(())
//! ```
//!
//! # Both
//!
//! Programs that use both crates to lay out text in lines need only [`wrap`], [`layout`] or a [`Session`].

#[allow(unused_imports)] // (for the links above)
use crate::*;
