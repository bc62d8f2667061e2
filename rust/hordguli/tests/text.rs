//! The functions that need no session.
use hordguli::{
    base_level, break_reasons, breaks, clusters, count_utf8, decode, layout, layout_into, levels,
    properties, reasons, row, row_runs, script_runs, valid_utf8, wrap, BaseDirection, BidiClass,
    Bracket, BracketCase, Break, Error, Level, LineClass, LineRule, NeutralRule, Options, Print,
    Reason, Run, ScriptRun, Session, Tables, UnicodeVersion,
};

const HEBREW: &str = "\u{5d0}\u{5d1}\u{5d2}";

fn tables() -> Tables {
    Tables::builtin().unwrap()
}

fn chars(text: &str) -> Vec<char> {
    text.chars().collect()
}

fn numbers(levels: &[Level]) -> Vec<u8> {
    levels.iter().map(|level| level.number()).collect()
}

#[test]
fn wrap_pads_lines_of_rtl_paragraphs() {
    let lines = wrap(&tables(), &format!("{HEBREW} ab\ncd"), 8, Options::new()).unwrap();
    assert_eq!(lines, ["  ab \u{5d2}\u{5d1}\u{5d0}", "cd"]);
}

#[test]
fn wrap_keeps_empty_lines() {
    let lines = wrap(&tables(), "\n\na\n", 8, Options::new()).unwrap();
    assert_eq!(lines, ["", "", "a"]);
    assert!(wrap(&tables(), "", 8, Options::new()).unwrap().is_empty());
}

#[test]
fn layout_writes_what_print_selects() {
    let print = Print::VISUAL | Print::BASEDIR | Print::LTOV | Print::LEVELS;
    let text = format!("a {HEBREW}");
    let lines = layout(&tables(), &text, 80, Options::new(), print).unwrap();
    assert_eq!(
        lines,
        "a \u{5d2}\u{5d1}\u{5d0}\nLTR\n0 1 4 3 2\n0 0 1 1 1\n"
    );
    assert_eq!(
        Print::default(),
        Print::VISUAL | Print::PADDED | Print::MIRRORED
    );
}

#[test]
fn layout_into_appends() {
    let (tables, mut buffer) = (tables(), String::from("> "));
    for _ in 0..2 {
        layout_into(
            &tables,
            "a",
            80,
            Options::new(),
            Print::DEFAULT,
            &mut buffer,
        )
        .unwrap();
    }
    assert_eq!(buffer, "> a\na\n");
}

#[test]
fn layout_of_more_than_the_expected_size() {
    let text = "\u{5d0}\n".repeat(100);
    let lines = layout(&tables(), &text, 1000, Options::new(), Print::DEFAULT).unwrap();
    assert_eq!(lines, format!("{:999}\u{5d0}\n", "").repeat(100));
}

#[test]
fn layout_into_keeps_the_buffer_after_an_error() {
    let mut buffer = String::from("> ");
    let failed = layout_into(
        &tables(),
        "a",
        0,
        Options::new(),
        Print::DEFAULT,
        &mut buffer,
    );
    assert_eq!(
        (failed, buffer.as_str()),
        (Err(Error::WidthOutOfRange), "> ")
    );
}

#[test]
fn line_separators_alone_end_paragraphs() {
    let only = Options::new().line_separators(true);
    let text = "a\u{2029}b\u{85}c\u{1c}d\re";
    let paragraphs = |options| {
        let counts = Session::new(&tables(), text, 80, options).unwrap().counts();
        (counts.paragraphs, counts.lines)
    };
    assert_eq!(paragraphs(Options::new()), (5, 5));
    assert_eq!(paragraphs(only), (2, 4));
    let embedded = ['\u{202b}', 'a', '\u{2029}', 'b'];
    let numbers = |options| levels(&tables(), &embedded, options).unwrap()[2].number();
    assert_eq!(numbers(Options::new()), 1); // (N1: sos and eos are R; L1 resets the level)
    assert_eq!(numbers(only), 2);
    assert_eq!(
        base_level(&tables(), &embedded, only),
        base_level(&tables(), &embedded, BaseDirection::WeakLtr)
    );
}

#[test]
fn options_change_the_layout() {
    let wrapped = |text: &str, options| wrap(&tables(), text, 4, options).unwrap();
    assert_eq!(
        wrapped("a b c d", Options::new().no_break(true)),
        ["a b c d"]
    );
    assert_eq!(wrapped("a\tb", Options::new().tab_width(3)), ["a  b"]);
    assert_eq!(
        wrapped("a   bc", Options::new().show_spaces(true)),
        ["a   ", "bc"]
    );
    assert_eq!(
        wrapped("a", Options::new().base(BaseDirection::Rtl)),
        ["   a"]
    );
    assert_eq!(
        wrapped(" ", Options::new().base(BaseDirection::WeakRtl)),
        ["    "]
    );
    assert_eq!(
        wrapped(HEBREW, Options::new().base(BaseDirection::Ltr)),
        ["\u{5d2}\u{5d1}\u{5d0}"]
    );
    let marked = "\u{5d0}\u{5b0}\u{5d1}";
    let nsm = Options::new().base(BaseDirection::Ltr).reorder_nsm(true);
    assert_eq!(wrapped(marked, nsm), ["\u{5d1}\u{5d0}\u{5b0}"]);
    let clusters = Options::new()
        .base(BaseDirection::Ltr)
        .reorder_clusters(true);
    assert_eq!(wrapped(marked, clusters), ["\u{5d1}\u{5d0}\u{5b0}"]);
    assert_eq!(
        wrapped(marked, Options::new().base(BaseDirection::Ltr)),
        ["\u{5d1}\u{5b0}\u{5d0}"]
    );
}

#[test]
fn base_level_follows_the_direction() {
    let of = |text, direction| base_level(&tables(), &chars(text), direction).unwrap();
    assert_eq!(of(HEBREW, BaseDirection::WeakLtr), Level::RTL);
    assert_eq!(of(HEBREW, BaseDirection::Ltr), Level::LTR);
    assert_eq!(of("1", BaseDirection::WeakRtl), Level::RTL);
    assert_eq!(of("", BaseDirection::WeakLtr), Level::LTR);
    assert_eq!(of("a", BaseDirection::Rtl), Level::RTL);
}

#[test]
fn levels_are_those_before_l1() {
    let found = levels(&tables(), &chars("a \u{5d0} "), BaseDirection::Ltr).unwrap();
    assert_eq!(numbers(&found), [0, 0, 1, 0]);
    assert!(levels(&tables(), &[], BaseDirection::Ltr)
        .unwrap()
        .is_empty());
}

#[test]
fn level_is_at_most_126() {
    assert_eq!(Level::new(126), Some(Level::MAX));
    assert_eq!(Level::new(127), None);
    assert!(Level::RTL.is_rtl() && !Level::MAX.is_rtl());
    assert_eq!(Level::RTL.to_string(), "1");
}

#[test]
fn breaks_follow_whole_numbers() {
    let of = |options| breaks(&tables(), &chars("1/%"), options).unwrap()[1];
    assert_eq!(of(Options::new()), Break::May);
    assert_eq!(of(Options::new().whole_numbers(true)), Break::Never);
    // other options have no effect
    assert_eq!(of(Options::new().no_break(true).tab_width(8)), Break::May);
}

#[test]
fn breaks_follow_the_version() {
    let marks = |tables: Tables| {
        breaks(&tables, &chars("\u{4e2d}\u{201c}\u{4e2d}"), Options::new()).unwrap()
    };
    let of_17 = marks(Tables::builtin_with_version(UnicodeVersion::V17_0).unwrap());
    assert_eq!(of_17[0], Break::May);
    assert_eq!(marks(tables())[0], Break::Never);
}

fn reasons_of(text: &str, direction: BaseDirection) -> Vec<Reason> {
    reasons(&tables(), &chars(text), direction).unwrap()
}

fn classes(reason: &Reason) -> String {
    let names = reason
        .class_after
        .iter()
        .map(|class| class.map_or("-", BidiClass::name));
    names.collect::<Vec<_>>().join(" ")
}

#[test]
fn reasons_of_a_pair() {
    let found = reasons_of("a(\u{5d0})", BaseDirection::WeakLtr);
    let opener = found[1];
    assert_eq!(
        (opener.opener, opener.matching, opener.sequence),
        (None, None, Some(0))
    );
    assert_eq!(
        (opener.partner, opener.inside, opener.bracket_case),
        (Some(3), Some(2), Some(BracketCase::C2))
    );
    assert_eq!(
        (opener.left, opener.right, opener.neutral),
        (None, None, None)
    );
    assert_eq!(classes(&opener), "ON ON ON ON ON ON ON ON ON L L");
    assert_eq!(
        (opener.sos, opener.eos),
        (Some(BidiClass::L), Some(BidiClass::L))
    );
    assert_eq!((found[3].partner, found[3].inside), (Some(1), Some(2)));
    let numbers: Vec<u8> = found.iter().map(|one| one.level.number()).collect();
    assert_eq!(numbers, [0, 0, 1, 0]);
}

#[test]
fn reasons_of_isolates_and_neutrals() {
    let found = reasons_of("\u{2067}a\u{2069}!\u{5d0}", BaseDirection::Ltr);
    let matching: Vec<_> = found.iter().map(|one| one.matching).collect();
    assert_eq!(matching, [Some(2), None, Some(0), None, None]);
    let sequences: Vec<_> = found.iter().map(|one| one.sequence).collect();
    assert_eq!(sequences, [Some(0), Some(1), Some(0), Some(0), Some(0)]);
    assert_eq!(
        (found[1].opener, found[1].embedding_level, found[1].level),
        (Some(0), Level::RTL, Level::new(2).unwrap())
    );
    assert_eq!(
        (found[3].left, found[3].right, found[3].neutral),
        (None, Some(4), Some(NeutralRule::N2))
    );
    let found = reasons_of("\u{5d0}!\u{5d1}", BaseDirection::Ltr);
    assert_eq!(
        (found[1].left, found[1].right, found[1].neutral),
        (Some(0), Some(2), Some(NeutralRule::N1))
    );
}

#[test]
fn reasons_of_an_override_and_a_removed_character() {
    let found = reasons_of("\u{202e}a\u{ad}", BaseDirection::Ltr);
    assert_eq!(
        (found[1].override_class, found[1].opener),
        (Some(BidiClass::R), Some(0))
    );
    assert_eq!(classes(&found[1]), "L R R R R R R R R R R");
    assert_eq!(classes(&found[2]), "BN - - - - - - - - - -");
    assert_eq!(
        (found[2].left, found[2].sequence, found[2].level),
        (Some(1), None, Level::RTL)
    );
    assert_eq!((found[2].sos, found[2].eos), (None, None));
    assert_eq!((found[0].left, found[0].override_class), (None, None));
}

#[test]
fn each_case_of_n0_has_its_variant() {
    let case = |text: &str, direction| {
        let found = reasons_of(text, direction);
        found.iter().find_map(|one| one.bracket_case)
    };
    let ltr = BaseDirection::Ltr;
    assert_eq!(case("(a)", ltr), Some(BracketCase::B));
    assert_eq!(case("\u{5d0}(\u{5d1})", ltr), Some(BracketCase::C1));
    assert_eq!(case("(\u{5d1})", ltr), Some(BracketCase::C2));
    assert_eq!(case("(!)", ltr), Some(BracketCase::D));
    assert_eq!(case("\u{202d}()", ltr), Some(BracketCase::NotOther));
    assert_eq!(case(")a", ltr), Some(BracketCase::NoMatch));
    assert_eq!(case(&"(".repeat(64), ltr), Some(BracketCase::PastLimit));
    assert_eq!(case("a", ltr), None);
}

#[test]
fn reasons_follow_line_separators() {
    let class = |options: Options| {
        let found = reasons(&tables(), &['a', '\u{85}'], options).unwrap();
        found[1].class_after[0]
    };
    assert_eq!(class(Options::new()), Some(BidiClass::B));
    assert_eq!(
        class(Options::new().line_separators(true)),
        Some(BidiClass::S)
    );
    // other options have no effect
    assert_eq!(
        class(Options::new().whole_numbers(true).tab_width(8)),
        Some(BidiClass::B)
    );
    assert_eq!(reasons(&tables(), &[], Options::new()), Ok(vec![]));
}

#[test]
fn break_reasons_have_names() {
    let found = break_reasons(
        &tables(),
        &chars("\u{200d}\u{2014} a\u{301}"),
        Options::new(),
    )
    .unwrap();
    let names: Vec<_> = found.iter().map(|one| one.rule.to_string()).collect();
    assert_eq!(names, ["LB8a", "LB7", "LB18", "LB9", "LB3"]);
    let letter = Some('a');
    assert_eq!(found[0].rule, LineRule { number: 8, letter });
    assert_eq!((found[2].base, found[2].behind_spaces), (2, Some(1)));
    assert_eq!(
        (found[2].class_before, found[2].class_after, found[2].mark),
        (LineClass::SP, Some(LineClass::AL), Break::May)
    );
    assert_eq!(
        (found[3].base, found[3].class_after, found[3].mark),
        (3, Some(LineClass::CM), Break::Never)
    );
    assert_eq!(
        (found[4].base, found[4].class_after, found[4].mark),
        (3, None, Break::Must)
    );
    let space = break_reasons(&tables(), &[' '], Options::new()).unwrap();
    assert_eq!(space[0].behind_spaces, None);
    assert_eq!(break_reasons(&tables(), &[], Options::new()), Ok(vec![]));
}

#[test]
fn break_reasons_follow_the_version_and_whole_numbers() {
    let rule = |tables: &Tables, text, options| {
        let found = break_reasons(tables, &chars(text), options).unwrap();
        found[1].rule.to_string()
    };
    let of_17 = Tables::builtin_with_version(UnicodeVersion::V17_0).unwrap();
    assert_eq!(rule(&tables(), " \u{ab}b", Options::new()), "LB19");
    assert_eq!(rule(&of_17, " \u{ab}b", Options::new()), "LB15a");
    assert_eq!(rule(&tables(), "1/%", Options::new()), "LB31");
    let whole_numbers = Options::new().whole_numbers(true);
    assert_eq!(rule(&tables(), "1/%", whole_numbers), "LB25");
}

#[test]
fn row_applies_l1_to_its_end() {
    let text = chars("\u{5d0} ");
    let found = row(
        &tables(),
        &text,
        &[Level::RTL; 2],
        Level::LTR,
        Options::new(),
    )
    .unwrap();
    assert_eq!(numbers(&found.levels), [1, 0]);
    assert_eq!(found.visual, ['\u{5d0}', ' ']);
}

#[test]
fn row_is_mirrored_and_has_both_maps() {
    let text = chars("(\u{5d0}b");
    let given = [Level::RTL, Level::RTL, Level::new(2).unwrap()];
    let found = row(&tables(), &text, &given, Level::RTL, Options::new()).unwrap();
    assert_eq!(found.visual, ['b', '\u{5d0}', ')']);
    assert_eq!(found.logical_to_visual, [2, 1, 0]);
    assert_eq!(found.visual_to_logical, [2, 1, 0]);
}

#[test]
fn row_follows_the_reorder_options() {
    let text = chars("\u{5d0}\u{5b0}");
    let visual = |options| {
        row(&tables(), &text, &[Level::RTL; 2], Level::RTL, options)
            .unwrap()
            .visual
    };
    assert_eq!(visual(Options::new()), ['\u{5b0}', '\u{5d0}']);
    assert_eq!(
        visual(Options::new().reorder_nsm(true)),
        ['\u{5d0}', '\u{5b0}']
    );
    assert_eq!(
        visual(Options::new().reorder_clusters(true)),
        ['\u{5d0}', '\u{5b0}']
    );
}

#[test]
fn base_of_a_row_is_0_or_1() {
    let base = Level::new(2).unwrap();
    let found = row(&tables(), &['a'], &[Level::LTR], base, Options::new());
    assert_eq!(found, Err(Error::OutOfRange));
    assert!(matches!(
        row_runs(&tables(), &['a'], &[Level::LTR], base),
        Err(Error::OutOfRange)
    ));
}

#[test]
#[should_panic(expected = "one level per character")]
fn row_panics_without_a_level_for_each_character() {
    let _ = row(
        &tables(),
        &['a', 'b'],
        &[Level::LTR],
        Level::LTR,
        Options::new(),
    );
}

#[test]
#[should_panic(expected = "one level per character")]
fn row_runs_panics_without_a_level_for_each_character() {
    let _ = row_runs(&tables(), &['a', 'b'], &[Level::LTR], Level::LTR);
}

#[test]
fn row_runs_are_in_visual_order() {
    let text = chars("ab\u{5d0}\u{5d1}12");
    let found = levels(&tables(), &text, BaseDirection::Ltr).unwrap();
    let runs: Vec<_> = row_runs(&tables(), &text, &found, Level::LTR)
        .unwrap()
        .collect();
    let run = |range, level| Run {
        range,
        level: Level::new(level).unwrap(),
    };
    assert_eq!(runs, [run(0..2, 0), run(4..6, 2), run(2..4, 1)]);
}

#[test]
fn row_with_many_runs() {
    let text = chars(&"a\u{5d0}".repeat(100));
    let found = levels(&tables(), &text, BaseDirection::Ltr).unwrap();
    assert_eq!(
        row_runs(&tables(), &text, &found, Level::LTR)
            .unwrap()
            .len(),
        200
    );
}

#[test]
fn properties_have_names() {
    let found = properties(&tables(), &['(', ']', '\u{301}', '\u{627}', '\u{ac00}']).unwrap();
    assert_eq!(
        (found[0].mirror, found[0].bracket),
        (Some(')'), Some(Bracket::Open(')')))
    );
    assert_eq!(
        (found[1].mirror, found[1].bracket),
        (Some('['), Some(Bracket::Close('[')))
    );
    assert_eq!(
        (found[2].is_mark, found[2].mirror, found[2].bracket),
        (true, None, None)
    );
    assert_eq!(
        (found[3].bidi_class, found[3].line_class),
        (BidiClass::AL, LineClass::AL)
    );
    assert_eq!(
        (found[4].is_wide, found[4].columns, found[4].line_class),
        (true, 2, LineClass::H2)
    );
    assert_eq!(found[3].bidi_class.to_string(), "AL");
    assert_eq!(format!("{:?}", found[4].line_class), "LineClass::H2");
}

#[test]
fn utf8_is_counted_and_checked() {
    let bytes = "\u{5d0}b\u{1d11e}".as_bytes();
    assert_eq!((count_utf8(bytes), valid_utf8(bytes)), (Ok(3), 7));
    assert_eq!(
        (count_utf8(&bytes[1..]), valid_utf8(&bytes[..5])),
        (Err(Error::NotUtf8), 3)
    );
    assert_eq!((count_utf8(b""), valid_utf8(b"")), (Ok(0), 0));
}

#[test]
fn decode_is_that_of_str() {
    let text = "a\u{e9}\u{5d0}\u{4e00}\u{1d11e}\0";
    let (offsets, chars): (Vec<_>, Vec<_>) = text.char_indices().unzip();
    assert_eq!(decode(text.as_bytes()), Ok((chars, offsets)));
    assert_eq!(decode(b"a\xff"), Err(Error::NotUtf8));
    assert_eq!(decode(b""), Ok((vec![], vec![])));
}

fn scripts_of(text: &str) -> Vec<(usize, [u8; 4])> {
    let chars: Vec<_> = text.chars().collect();
    let runs: Vec<ScriptRun> = script_runs(&tables(), &chars).unwrap().collect();
    assert!(runs
        .windows(2)
        .all(|two| two[0].range.end == two[1].range.start));
    runs.into_iter()
        .map(|run| (run.range.len(), run.script))
        .collect()
}

#[test]
fn script_runs_follow_brackets() {
    assert_eq!(
        scripts_of("a (\u{5d0}) 1"),
        [(3, *b"Latn"), (1, *b"Hebr"), (3, *b"Latn")]
    );
    assert_eq!(scripts_of("1 \u{5d0}!"), [(4, *b"Hebr")]);
    assert_eq!(scripts_of("12"), [(2, *b"Zyyy")]);
    assert_eq!(scripts_of(""), []);
}

#[test]
fn clusters_end_where_those_of_a_session_do() {
    let text: Vec<_> = "e\u{301}\r\n\u{1f468}\u{200d}\u{1f469}a".chars().collect();
    assert_eq!(clusters(&text), Ok(vec![2, 4, 7, 8]));
    assert_eq!(clusters(&[]), Ok(vec![]));
}

#[test]
fn versions_are_told() {
    assert_eq!(hordguli::version(), env!("CARGO_PKG_VERSION"));
    assert_eq!(hordguli::unicode_version(), tables().version().to_string());
}

#[test]
fn widths_are_of_their_version() {
    assert_eq!(hordguli::width_unicode_version(), "18.0");
    // a wide emoji and a nonspacing mark of Unicode 18.0
    let found = properties(&tables(), &['\u{1facc}', '\u{5c8}']).unwrap();
    assert_eq!(
        found.iter().map(|one| one.columns).collect::<Vec<_>>(),
        [2, 0]
    );
}
