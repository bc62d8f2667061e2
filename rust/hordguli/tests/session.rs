//! Sessions: edits, lines, carets, positions.
use std::ops::Range;

use hordguli::{
    BaseDirection, Break, BytePos, Caret, CharPos, Damage, Direction, Edge, Error, Hit, Level,
    Options, Place, Print, Session, Side, Span, Tables, Utf16Pos,
};

/// Latin, a space and three Hebrew letters.
const MIXED: &str = "abc \u{5d0}\u{5d1}\u{5d2}";

fn session(text: &str, width: u16) -> Session {
    with_options(text, width, Options::new())
}

fn with_options(text: &str, width: u16, options: Options) -> Session {
    Session::new(&Tables::builtin().unwrap(), text, width, options).unwrap()
}

fn visual(session: &Session) -> Vec<String> {
    session
        .lines(..)
        .map(|line| line.visual().unwrap())
        .collect()
}

fn chars(range: Range<usize>) -> Range<CharPos> {
    CharPos(range.start)..CharPos(range.end)
}

fn before(pos: usize) -> Edge {
    Edge::before(CharPos(pos))
}

fn after(pos: usize) -> Edge {
    Edge::after(CharPos(pos))
}

fn caret(line: usize, column: usize, level: Level) -> Caret {
    Caret {
        line,
        column,
        level,
    }
}

#[test]
fn edits_return_what_they_replaced() {
    let mut text = session("ab\ncd\nef", 80);
    let damage = text.insert(CharPos(4), "x\ny").unwrap();
    let expected = Damage {
        old_lines: 1..2,
        new_lines: 1..3,
        old_paragraphs: 1..2,
        new_paragraphs: 1..3,
    };
    assert_eq!(damage, expected);
    assert_eq!(text.text(..).unwrap(), "ab\ncx\nyd\nef");
    let damage = text.delete(CharPos(2)..CharPos(3)).unwrap();
    assert_eq!((damage.old_lines, damage.new_lines), (0..2, 0..1));
    text.replace(..CharPos(1), "\u{5d0}").unwrap();
    assert_eq!(text.text(..).unwrap(), "\u{5d0}bcx\nyd\nef");
    let damage = text.set_width(2).unwrap();
    assert_eq!((damage.old_lines, damage.new_lines), (0..3, 0..4));
}

#[test]
fn changed_lines_are_those_of_the_damage_that_differ() {
    let mut text = session("one two six\nthree", 5);
    let changed = |text: &Session| {
        let lines = text.changed_lines();
        (lines.old_lines, lines.new_lines)
    };
    assert_eq!(changed(&text), (0..0, 0..4));
    assert_eq!(text.insert(CharPos(7), "s").unwrap().new_lines, 0..3);
    assert_eq!(changed(&text), (1..2, 1..2));
    assert_eq!(text.set_width(0), Err(Error::WidthOutOfRange));
    assert_eq!(changed(&text), (1..2, 1..2));
    text.set_width(80).unwrap();
    assert_eq!(changed(&text), (0..3, 0..1));
}

#[test]
fn edits_take_bytes_and_utf16_units() {
    let mut text = session("a\u{1d11e}b", 80);
    text.insert(BytePos(5), "x").unwrap();
    text.insert(Utf16Pos(3), "y").unwrap();
    assert_eq!(text.text(..).unwrap(), "a\u{1d11e}yxb");
    text.delete(BytePos(1)..BytePos(6)).unwrap();
    text.replace(Utf16Pos(1).., "z").unwrap();
    assert_eq!(text.text(..).unwrap(), "az");
}

#[test]
fn offset_inside_a_character_is_refused() {
    let mut text = session("\u{1d11e}b", 80);
    for byte in 1..4 {
        assert_eq!(text.insert(BytePos(byte), "x"), Err(Error::NotCharBoundary));
        assert_eq!(
            text.delete(BytePos(0)..BytePos(byte)),
            Err(Error::NotCharBoundary)
        );
    }
    assert_eq!(text.place(Utf16Pos(1)), Err(Error::NotCharBoundary));
    assert_eq!(text.position_of_byte(BytePos(3)), Ok((CharPos(0), 3)));
    assert_eq!(text.position_of_utf16(Utf16Pos(1)), Ok((CharPos(0), 1)));
    assert_eq!(text.text(..).unwrap(), "\u{1d11e}b");
}

#[test]
fn position_past_the_end_is_refused() {
    let mut text = session("\u{5d0}b", 80);
    assert_eq!(text.insert(CharPos(3), "x"), Err(Error::OutOfRange));
    assert_eq!(text.insert(BytePos(4), "x"), Err(Error::OutOfRange));
    assert_eq!(text.insert(Utf16Pos(3), "x"), Err(Error::OutOfRange));
    assert_eq!(text.delete(CharPos(1)..CharPos(3)), Err(Error::OutOfRange));
    assert_eq!(
        text.text(CharPos(1)..CharPos(usize::MAX)),
        Err(Error::OutOfRange)
    );
    assert_eq!(
        text.chars(CharPos(1)..CharPos(usize::MAX)),
        Err(Error::OutOfRange)
    );
    assert_eq!(
        text.utf8_len(CharPos(usize::MAX)..CharPos(usize::MAX)),
        Err(Error::OutOfRange)
    );
    assert_eq!(text.caret(CharPos(3)), Err(Error::OutOfRange));
    assert_eq!(text.place(CharPos(3)), Err(Error::OutOfRange));
    assert_eq!(text.byte_of(CharPos(3)), Err(Error::OutOfRange));
    assert_eq!(text.utf16_of(CharPos(3)), Err(Error::OutOfRange));
    assert_eq!(text.cluster(CharPos(2)), Err(Error::OutOfRange));
    assert_eq!(text.word(CharPos(2)), Err(Error::OutOfRange));
    assert_eq!(text.edge_caret(after(0)), Err(Error::OutOfRange));
    assert_eq!(
        text.step(before(3), Direction::Left),
        Err(Error::OutOfRange)
    );
    assert_eq!(text.text(..).unwrap(), "\u{5d0}b");
}

#[test]
#[allow(clippy::reversed_empty_ranges)]
fn reversed_range_is_refused() {
    let mut text = session("abc", 80);
    assert_eq!(text.delete(CharPos(2)..CharPos(1)), Err(Error::OutOfRange));
    assert_eq!(text.text(BytePos(2)..BytePos(1)), Err(Error::OutOfRange));
    assert_eq!(text.text(CharPos(4)..), Err(Error::OutOfRange));
    assert_eq!(
        text.lines_to_string(1..0, Print::DEFAULT),
        Err(Error::OutOfRange)
    );
    assert_eq!(text.lines(1..0).len(), 0);
}

#[test]
fn line_that_does_not_exist_is_refused() {
    let text = session("abc\n", 80);
    assert!(matches!(text.line(1), Err(Error::OutOfRange)));
    assert!(matches!(text.paragraph(1), Err(Error::OutOfRange)));
    assert_eq!(text.line_start(1), Err(Error::OutOfRange));
    assert_eq!(text.hit(1, 0), Err(Error::OutOfRange));
    assert_eq!(
        text.lines_to_string(0..2, Print::DEFAULT),
        Err(Error::OutOfRange)
    );
    // a new paragraph would start in line 1
    assert_eq!(text.edge_at(1, 0), Ok(before(4)));
    assert_eq!(text.edge_at(2, 0), Err(Error::OutOfRange));
    assert_eq!(text.nearest_edge(2, 0), Err(Error::OutOfRange));
    assert_eq!(text.line_edges(2), Err(Error::OutOfRange));
}

#[test]
fn width_0_is_refused() {
    let tables = Tables::builtin().unwrap();
    let opened = Session::new(&tables, "", 0, Options::new());
    assert!(matches!(opened, Err(Error::WidthOutOfRange)));
    let mut text = session("a", 80);
    assert_eq!(text.set_width(0), Err(Error::WidthOutOfRange));
    assert_eq!(text.counts().width, 80);
}

/// A measured session in which each character has advance 10.
fn measured(text: &str, width: u32) -> Session {
    let tables = Tables::builtin().unwrap();
    let mut session = Session::open_measured(&tables, text, width, Options::new()).unwrap();
    let advances = vec![10; session.end() - CharPos(0)];
    session.set_advances(CharPos(0), &advances).unwrap();
    session
}

fn widths(session: &Session) -> Vec<usize> {
    session.lines(..).map(|line| line.width()).collect()
}

#[test]
fn advances_are_columns() {
    let mut text = measured("in \u{5d0}\u{5d1}\u{5d2}", 100_000);
    let damage = text.set_advances(BytePos(3), &[30_000, 0, 80_000]).unwrap();
    let expected = Damage {
        old_lines: 0..1,
        new_lines: 0..3,
        old_paragraphs: 0..1,
        new_paragraphs: 0..1,
    };
    assert_eq!(damage, expected);
    assert_eq!(widths(&text), [20, 30_000, 80_000]);
    assert_eq!(text.line(1).unwrap().columns().unwrap(), [0, 30_000]);
    assert_eq!(text.caret(CharPos(3)), Ok(caret(1, 30_000, Level::RTL)));
    assert_eq!(text.nearest_edge(1, 20_000), Ok(before(3)));
    assert_eq!(text.counts().width, 100_000);
}

#[test]
fn new_characters_have_advance_0() {
    let mut text = measured("ab\nc", 20);
    let edited = text.insert(CharPos(1), "xy").unwrap();
    assert_eq!((edited.new_lines, widths(&text)), (0..1, vec![20, 10]));
    let measured = text.set_advances(CharPos(1), &[10, 10]).unwrap();
    assert_eq!((edited.old_lines, measured.new_lines), (0..1, 0..2));
    text.delete(..CharPos(1)).unwrap();
    assert_eq!(widths(&text), [20, 10, 10]);
    assert!(text
        .set_advances(CharPos(2), &[])
        .unwrap()
        .new_lines
        .is_empty());
}

#[test]
fn measured_width_is_set() {
    let mut text = measured("abcd", 20);
    assert_eq!(text.set_measured_width(100_000).unwrap().new_lines, 0..1);
    assert_eq!(text.counts().width, 100_000);
    assert_eq!(text.set_width(10).unwrap().new_lines, 0..4);
    for width in [0, 1 << 31, u32::MAX] {
        assert_eq!(text.set_measured_width(width), Err(Error::WidthOutOfRange));
        let opened = Session::open_measured(&Tables::builtin().unwrap(), "", width, Options::new());
        assert!(matches!(opened, Err(Error::WidthOutOfRange)));
    }
    assert_eq!(text.counts().width, 10);
}

#[test]
fn advances_are_refused() {
    let mut plain = session("ab", 80);
    assert_eq!(
        plain.set_advances(CharPos(9), &[1]),
        Err(Error::NotMeasured)
    );
    assert_eq!(plain.set_measured_width(0), Err(Error::NotMeasured));
    let mut text = measured("a\nb", 20);
    assert_eq!(
        text.set_advances(CharPos(2), &[1, 1]),
        Err(Error::OutOfRange)
    );
    assert_eq!(
        text.set_advances(CharPos(0), &[u32::MAX, 1]),
        Err(Error::ParagraphTooLong)
    );
    text.set_advances(CharPos(0), &[u32::MAX, 0]).unwrap();
    assert_eq!(
        text.delete(CharPos(1)..CharPos(2)),
        Err(Error::ParagraphTooLong)
    );
    assert_eq!(text.text(..).unwrap(), "a\nb");
}

#[test]
fn measured_lines_are_not_padded() {
    let text = measured("\u{5d0}\u{5d1}", 50);
    assert_eq!(text.line(0).unwrap().padding(), 30);
    assert_eq!(
        text.lines_to_string(.., Print::DEFAULT).unwrap(),
        "\u{5d1}\u{5d0}\n"
    );
}

#[test]
fn long_paragraph_is_refused() {
    let long = "a".repeat(1_048_576);
    let mut text = session(&long, 80);
    let work = text.work();
    assert_eq!(text.insert(CharPos(0), "b"), Err(Error::ParagraphTooLong));
    assert_eq!((text.counts().characters, text.work()), (1_048_576, work));
    text.insert(CharPos(0), "\n").unwrap();
    assert_eq!(
        text.delete(CharPos(0)..CharPos(1)).unwrap().new_paragraphs,
        0..1
    );
}

#[test]
fn long_text_is_refused() {
    let long = "aaaaaaa\n".repeat(1 << 21);
    let tables = Tables::builtin().unwrap();
    let mut text = Session::new(&tables, &long, 80, Options::new()).unwrap();
    assert_eq!(text.insert(CharPos(0), "b"), Err(Error::TextTooLong));
    let longer = long + "b";
    let opened = Session::new(&tables, &longer, 80, Options::new());
    assert!(matches!(opened, Err(Error::TextTooLong)));
}

#[test]
fn counts_and_work() {
    let mut text = session("one two\nthree", 4);
    let counts = text.counts();
    assert_eq!(
        (
            counts.characters,
            counts.lines,
            counts.paragraphs,
            counts.width
        ),
        (13, 4, 2, 4)
    );
    assert_eq!(text.end(), CharPos(13));
    let start = text.work().analysed;
    text.insert(CharPos(13), "s").unwrap();
    assert_eq!(text.work().analysed, start);
    text.insert(CharPos(14), "!").unwrap();
    assert_eq!(text.work().analysed - start, 7);
}

#[test]
fn text_is_returned_in_parts() {
    let text = session("a\u{5d0}\u{1d11e}b", 80);
    assert_eq!(
        text.text(CharPos(1)..CharPos(3)).unwrap(),
        "\u{5d0}\u{1d11e}"
    );
    assert_eq!(text.text(BytePos(3)..).unwrap(), "\u{1d11e}b");
    assert_eq!(
        text.chars(..Utf16Pos(4)).unwrap(),
        ['a', '\u{5d0}', '\u{1d11e}']
    );
    assert_eq!(text.utf8_len(..), Ok(8));
    let mut buffer = String::from("> ");
    text.text_into(CharPos(3).., &mut buffer).unwrap();
    assert_eq!(buffer, "> b");
    assert_eq!(
        text.text_into(CharPos(5).., &mut buffer),
        Err(Error::OutOfRange)
    );
    assert_eq!(buffer, "> b");
}

#[test]
fn positions_are_converted() {
    let text = session("a\u{5d0}\u{1d11e}b", 80);
    assert_eq!(text.byte_of(CharPos(3)), Ok(BytePos(7)));
    assert_eq!(text.utf16_of(CharPos(3)), Ok(Utf16Pos(4)));
    assert_eq!(text.byte_of(Utf16Pos(4)), Ok(BytePos(7)));
    assert_eq!(text.position_of_byte(BytePos(7)), Ok((CharPos(3), 0)));
    assert_eq!(text.position_of_utf16(Utf16Pos(5)), Ok((CharPos(4), 0)));
    assert_eq!(text.position_of_byte(BytePos(9)), Err(Error::OutOfRange));
}

#[test]
fn positions_have_arithmetic() {
    assert_eq!(CharPos(2) + 3, CharPos(5));
    assert_eq!(BytePos(5) - 3, BytePos(2));
    assert_eq!(Utf16Pos(5) - Utf16Pos(3), 2);
    assert_eq!(CharPos(7).to_string(), "7");
}

#[test]
fn line_has_its_fields() {
    let text = session("\u{5d0}\u{5d1} ab\ncd", 8);
    let line = text.line(0).unwrap();
    assert_eq!((line.range(), line.shown()), (chars(0..6), chars(0..5)));
    assert_eq!(
        (line.width(), line.padding(), line.base()),
        (5, 3, Level::RTL)
    );
    assert!(line.is_first());
    assert_eq!(line.visual().unwrap(), "ab \u{5d1}\u{5d0}");
    let row = line.row().unwrap();
    assert_eq!(row.visual, ['a', 'b', ' ', '\u{5d1}', '\u{5d0}']);
    assert_eq!(row.visual_to_logical, [3, 4, 2, 1, 0]);
    assert_eq!(line.columns().unwrap(), [1; 5]);
    assert_eq!(line.edges(), (before(0), before(5)));
    let second = text.line(1).unwrap();
    assert_eq!(
        (second.number(), second.padding(), second.base()),
        (1, 0, Level::LTR)
    );
}

#[test]
fn empty_line_is_empty() {
    let text = session("\n", 8);
    let line = text.line(0).unwrap();
    assert_eq!(
        (line.range(), line.shown(), line.width()),
        (chars(0..1), chars(0..0), 0)
    );
    assert_eq!(line.visual().unwrap(), "");
    assert!(line.row().unwrap().visual.is_empty());
    assert_eq!(line.runs().unwrap().len(), 0);
}

#[test]
fn lines_are_iterated_from_both_ends() {
    let text = session("a b c d", 1);
    let numbers = |lines: hordguli::Lines| lines.map(|line| line.number()).collect::<Vec<_>>();
    assert_eq!(numbers(text.lines(..)), [0, 1, 2, 3]);
    assert_eq!(numbers(text.lines(2..)), [2, 3]);
    assert_eq!(numbers(text.lines(1..=2)), [1, 2]);
    assert_eq!(numbers(text.lines(3..9)), [3]);
    assert!(numbers(text.lines(5..)).is_empty());
    assert_eq!(text.lines(..).next_back().unwrap().number(), 3);
    assert_eq!(text.lines(..).nth(2).unwrap().number(), 2);
    assert_eq!(text.lines(..).len(), 4);
}

#[test]
fn lines_are_written() {
    let text = session("a b", 1);
    assert_eq!(text.lines_to_string(.., Print::DEFAULT).unwrap(), "a\nb\n");
    let mut buffer = String::from("> ");
    text.lines_into(1.., Print::VISUAL | Print::LEVELS, &mut buffer)
        .unwrap();
    assert_eq!(buffer, "> b\n0\n");
}

#[test]
fn runs_are_positions_in_the_text() {
    let text = session(&format!("x\n{MIXED}"), 80);
    let runs: Vec<_> = text.line(1).unwrap().runs().unwrap().collect();
    assert_eq!(
        (runs[0].range.clone(), runs[0].level),
        (chars(2..6), Level::LTR)
    );
    assert_eq!(
        (runs[1].range.clone(), runs[1].level),
        (chars(6..9), Level::RTL)
    );
    assert_eq!(
        text.chars(runs[1].range.clone()).unwrap(),
        ['\u{5d0}', '\u{5d1}', '\u{5d2}']
    );
}

#[test]
fn spans_of_a_selection() {
    let text = session(MIXED, 80);
    let line = text.line(0).unwrap();
    let spans: Vec<_> = line.spans(CharPos(0)..CharPos(5)).unwrap().collect();
    assert_eq!(
        spans,
        [Span { left: 0, right: 4 }, Span { left: 6, right: 7 }]
    );
    assert!(spans[1].contains(6) && !spans[1].contains(7) && !spans[1].contains(5));
    assert_eq!(line.spans(..).unwrap().len(), 1);
    assert_eq!(line.spans(BytePos(4)..BytePos(4)).unwrap().len(), 0);
}

#[test]
fn clusters_of_a_line() {
    let text = session("x\ne\u{301}a", 80);
    let clusters: Vec<_> = text.line(1).unwrap().clusters().unwrap().collect();
    assert_eq!(clusters, [chars(2..4), chars(4..5)]);
}

#[test]
fn paragraph_has_its_fields() {
    let text = session("a b\n\u{5d0}", 1);
    let first = text.paragraph(0).unwrap();
    assert_eq!(
        (first.number(), first.range(), first.lines()),
        (0, chars(0..4), 0..2)
    );
    let (levels, breaks) = first.levels_and_breaks().unwrap();
    assert_eq!(levels, [Level::LTR; 4]);
    assert_eq!(
        breaks,
        [Break::Never, Break::May, Break::Never, Break::Must]
    );
    let second = text.paragraph(1).unwrap();
    assert_eq!(
        (second.base(), second.range(), second.lines()),
        (Level::RTL, chars(4..5), 2..3)
    );
}

#[test]
fn places_and_carets() {
    let text = session(MIXED, 80);
    let place = Place {
        paragraph: 0,
        line: 0,
        offset: 4,
    };
    assert_eq!(text.place(CharPos(4)), Ok(place));
    assert_eq!(text.caret(CharPos(4)), Ok(caret(0, 7, Level::RTL)));
    assert_eq!(text.caret(BytePos(6)), Ok(caret(0, 6, Level::RTL)));
    assert_eq!(text.edge_caret(before(4)), Ok(caret(0, 7, Level::RTL)));
    assert_eq!(text.edge_caret(after(4)), Ok(caret(0, 4, Level::LTR)));
}

#[test]
fn end_of_a_text_with_a_final_separator() {
    let text = with_options("a\n", 80, Options::new().base(BaseDirection::Rtl));
    assert_eq!(
        text.place(CharPos(2)),
        Ok(Place {
            paragraph: 1,
            line: 1,
            offset: 0
        })
    );
    assert_eq!(text.caret(CharPos(2)), Ok(caret(1, 0, Level::RTL)));
    assert_eq!(text.line_edges(1), Ok((before(2), before(2))));
}

#[test]
fn hits_and_clicks() {
    let text = session("\u{6f22}\u{5b57}", 80);
    assert_eq!(
        text.hit(0, 1),
        Ok(Hit {
            pos: CharPos(0),
            trailing: false
        })
    );
    assert_eq!(
        text.hit(0, 9),
        Ok(Hit {
            pos: CharPos(1),
            trailing: true
        })
    );
    assert_eq!(text.edge_at(0, 1), Ok(before(0)));
    assert_eq!(text.nearest_edge(0, 1), Ok(after(1)));
    assert_eq!(text.edge_at(0, usize::MAX), Ok(after(2)));
}

#[test]
fn clusters_and_words() {
    let text = session("ab, \u{1f468}\u{200d}\u{1f467}", 80);
    assert_eq!(text.cluster(CharPos(5)), Ok(chars(4..7)));
    let word = text.word(BytePos(1)).unwrap();
    assert_eq!((word.range, word.is_alphanumeric), (chars(0..2), true));
    assert!(!text.word(CharPos(2)).unwrap().is_alphanumeric);
}

#[test]
fn steps_meet_each_boundary() {
    let text = session(MIXED, 80);
    let mut edge = text.line_edges(0).unwrap().0;
    let mut columns = vec![text.edge_caret(edge).unwrap().column];
    for _ in 0..7 {
        edge = text.step(edge, Direction::Right).unwrap().unwrap();
        columns.push(text.edge_caret(edge).unwrap().column);
    }
    assert_eq!(text.step(edge, Direction::Right), Ok(None));
    assert_eq!(columns, (0..8).collect::<Vec<_>>());
    assert_eq!(text.step(before(0), Direction::Left), Ok(None));
    assert_eq!(
        Edge::default(),
        Edge {
            pos: CharPos(0),
            side: Side::Before
        }
    );
}

#[test]
fn session_outlives_its_tables() {
    let tables = Tables::builtin().unwrap();
    let mut text = Session::new(&tables, "a", 80, Options::new()).unwrap();
    drop(tables);
    text.insert(CharPos(1), "\u{5d0}").unwrap();
    assert_eq!(visual(&text), ["a\u{5d0}"]);
}

#[test]
fn session_moves_to_another_thread() {
    let tables = Tables::builtin().unwrap();
    let text = Session::new(&tables, "a b", 1, Options::new()).unwrap();
    let worker = std::thread::spawn(move || {
        let mut text = text;
        text.insert(CharPos(0), "x ").unwrap();
        (text, tables)
    });
    let (text, tables) = worker.join().unwrap();
    assert_eq!(visual(&text), ["x", "a", "b"]);
    assert_eq!(tables.version().to_string(), "15.0");
}

#[test]
fn debug_shows_the_size() {
    let text = session("a\u{5d0}", 80);
    assert!(format!("{text:?}").contains("characters: 2"));
    assert!(format!("{:?}", text.line(0).unwrap()).contains("width: 2"));
    assert!(format!("{:?}", text.paragraph(0).unwrap()).contains("number: 0"));
    assert!(format!("{:?}", Tables::builtin().unwrap()).contains("V15_0"));
}
