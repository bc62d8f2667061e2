//! Prints a checksum of all that the crate returns for random sessions, as `answers.c` does through the C library.
//!
//! Usage: `answers FIRST COUNT [print]`. Positions and ranges are passed in characters, bytes or UTF-16 code units, at random.
use std::cell::{Cell, RefCell};
use std::fmt::Write;
use std::ops::Range;

use hordguli::{
    base_level, break_reasons, breaks, clusters, count_utf8, decode, layout, levels, properties,
    reasons, row, row_runs, script_runs, valid_utf8, BaseDirection, BidiClass, Bracket,
    BracketCase, Break, BytePos, Caret, CharPos, Damage, Direction, Edge, Error, Level, Line,
    NeutralRule, Options, Print, Row, Session, Side, Tables, UnicodeVersion, Utf16Pos,
};

const ALPHABET: [char; 48] = [
    'a',
    'b',
    '\u{5D0}',
    '\u{5D1}',
    '\u{627}',
    '\u{628}',
    '1',
    '2',
    '\u{661}',
    '(',
    ')',
    '[',
    ']',
    '+',
    ',',
    '.',
    '$',
    '-',
    ' ',
    ' ',
    ' ',
    '\t',
    '\u{5B0}',
    '\u{301}',
    '\u{200D}',
    '\u{1F468}',
    '\u{1F467}',
    '\u{2067}',
    '\u{2068}',
    '\u{2069}',
    '\u{202B}',
    '\u{202E}',
    '\u{202C}',
    '\u{4E00}',
    '\u{1D11E}',
    '\u{1F1E9}',
    '\u{1F1EA}',
    '\n',
    '\r',
    '\u{2028}',
    '\u{2029}',
    '\u{85}',
    '\0',
    '\u{201C}',
    '\u{2019}',
    '\u{5BE}',
    '\u{A9A7}',
    '\u{25CC}',
];

/// A pseudorandom sequence, and the checksum of the recorded values.
struct Teller {
    state: Cell<u64>,
    sum: Cell<u64>,
    printed: Option<RefCell<String>>,
}

impl Teller {
    fn below(&self, bound: usize) -> usize {
        let mut state = self.state.get();
        state ^= state << 13;
        state ^= state >> 7;
        state ^= state << 17;
        self.state.set(state);
        (state % bound as u64) as usize
    }

    fn tell(&self, name: &str, value: impl Value) {
        let value = value.number();
        self.sum
            .set((self.sum.get() ^ value).wrapping_mul(0x100_0000_01B3));
        if let Some(printed) = &self.printed {
            let _ = writeln!(printed.borrow_mut(), "{name} {value}");
        }
    }

    fn tell_all<T: Value>(&self, name: &str, values: impl ExactSizeIterator<Item = T>) {
        self.tell(name, values.len());
        values.for_each(|value| self.tell(name, value));
    }

    /// Records the status of a result, and returns its value.
    fn ok<T>(&self, name: &str, result: Result<T, Error>) -> Option<T> {
        self.tell(name, result.as_ref().err().map_or(0, status_of));
        result.ok()
    }

    fn advances(&self, count: usize) -> Vec<u32> {
        (0..count).map(|_| self.below(5) as u32).collect()
    }

    fn text(&self, count: usize) -> String {
        (0..count)
            .map(|_| ALPHABET[self.below(ALPHABET.len())])
            .collect()
    }
}

fn status_of(error: &Error) -> u64 {
    match error {
        Error::OutOfRange => 1,
        Error::WidthOutOfRange => 2,
        Error::TextTooLong => 3,
        Error::ParagraphTooLong => 4,
        Error::NotUtf8 => 7,
        Error::NotMeasured => 16,
        other => panic!("{other}"),
    }
}

/// What can be recorded as a number.
trait Value {
    fn number(self) -> u64;
}

macro_rules! values {
    ($($type:ty: $it:ident => $number:expr,)*) => {
        $(impl Value for $type {
            fn number(self) -> u64 {
                let $it = self;
                ($number) as u64
            }
        })*
    };
}

values! {
    u64: it => it,
    u32: it => it,
    u8: it => it,
    usize: it => it,
    bool: it => it,
    char: it => it,
    CharPos: it => it.0,
    BytePos: it => it.0,
    Utf16Pos: it => it.0,
    Level: it => it.number(),
    Break: it => match it { Break::Never => 0, Break::May => 1, Break::Must => 2 },
    Option<usize>: it => it.unwrap_or(u32::MAX as usize),
    Option<BidiClass>: it => it.map_or(0xFF, BidiClass::number),
    Option<BracketCase>: it => it.map_or(0, |case| case as u8 + 1),
    Option<NeutralRule>: it => it.map_or(0, |rule| rule as u8 + 1),
}

/// A random unit for positions.
#[derive(Clone, Copy)]
enum Unit {
    Chars,
    Bytes,
    Units,
}

/// The text of a session, for positions in another unit.
struct Model(Vec<char>);

impl Model {
    fn new(session: &Session) -> Self {
        Model(session.chars(..).unwrap())
    }

    /// Each character past the end counts as one byte or code unit.
    fn sum(&self, pos: usize, size: impl Fn(&char) -> usize) -> usize {
        let past = pos.saturating_sub(self.0.len());
        self.0.iter().take(pos).map(size).sum::<usize>() + past
    }

    fn byte(&self, pos: usize) -> BytePos {
        BytePos(self.sum(pos, |c| c.len_utf8()))
    }

    fn utf16(&self, pos: usize) -> Utf16Pos {
        Utf16Pos(self.sum(pos, |c| c.len_utf16()))
    }
}

/// Calls a closure or method with a position or range in a unit.
macro_rules! in_unit {
    ($unit:expr, $model:expr, $pos:expr, |$it:ident| $call:expr) => {
        match $unit {
            Unit::Chars => {
                let $it = CharPos($pos);
                $call
            }
            Unit::Bytes => {
                let $it = $model.byte($pos);
                $call
            }
            Unit::Units => {
                let $it = $model.utf16($pos);
                $call
            }
        }
    };
}

macro_rules! range_in_unit {
    ($unit:expr, $model:expr, $start:expr, $end:expr, |$it:ident| $call:expr) => {
        match $unit {
            Unit::Chars => {
                let $it = CharPos($start)..CharPos($end);
                $call
            }
            Unit::Bytes => {
                let $it = $model.byte($start)..$model.byte($end);
                $call
            }
            Unit::Units => {
                let $it = $model.utf16($start)..$model.utf16($end);
                $call
            }
        }
    };
}

struct Run<'a> {
    teller: Teller,
    tables: &'a [Tables; 2],
}

impl Run<'_> {
    fn below(&self, bound: usize) -> usize {
        self.teller.below(bound)
    }

    fn tell(&self, name: &str, value: impl Value) {
        self.teller.tell(name, value);
    }

    fn unit(&self) -> Unit {
        [Unit::Chars, Unit::Bytes, Unit::Units][self.below(3)]
    }

    fn edge(&self, edge: Edge) {
        self.tell("edge.pos", edge.pos);
        self.tell("edge.side", edge.side == Side::After);
    }

    fn caret(&self, caret: Caret) {
        self.tell("caret.line", caret.line);
        self.tell("caret.column", caret.column);
        self.tell("caret.level", caret.level);
    }

    fn row(&self, names: [&str; 4], row: &Row) {
        self.teller.tell_all(names[0], row.visual.iter().copied());
        self.teller.tell_all(names[1], row.levels.iter().copied());
        self.teller
            .tell_all(names[2], row.logical_to_visual.iter().copied());
        self.teller
            .tell_all(names[3], row.visual_to_logical.iter().copied());
    }

    fn run(&self, start: usize, length: usize, level: Level) {
        self.tell("run.start", start);
        self.tell("run.length", length);
        self.tell("run.level", level);
    }

    fn shown(&self, line: &Line) {
        let start = line.range().start;
        self.tell("start", start);
        self.tell("length", line.range().end - start);
        self.tell("shown", line.shown().end - start);
        self.tell("columns", line.width());
        self.tell("padding", line.padding());
        self.tell("base", line.base());
        self.tell("first", line.is_first());
        self.row(
            ["characters", "levels", "ltov", "vtol"],
            &line.row().unwrap(),
        );
        self.teller
            .tell_all("columns", line.columns().unwrap().into_iter());
    }

    fn parts(&self, line: &Line, model: &Model) {
        let (teller, start) = (&self.teller, line.range().start);
        let from = self.below(model.0.len() + 1);
        let to = from + self.below(model.0.len() + 1 - from);
        let unit = self.unit();
        for run in teller.ok("runs", line.runs()).unwrap() {
            self.run(
                run.range.start - start,
                run.range.end - run.range.start,
                run.level,
            );
        }
        let clusters = teller.ok("clusters", line.clusters()).unwrap();
        teller.tell_all("end", clusters.map(|cluster| cluster.end - start));
        let spans = range_in_unit!(unit, model, from, to, |range| {
            teller.ok(
                "spans",
                line.spans(range).map(|spans| spans.collect::<Vec<_>>()),
            )
        });
        for span in spans.unwrap() {
            self.tell("span.left", span.left);
            self.tell("span.right", span.right);
        }
    }

    fn line(&self, session: &Session, model: &Model, number: usize) {
        let teller = &self.teller;
        if let Some(start) = teller.ok("line_start", session.line_start(number)) {
            self.tell("start", start);
            let line = session.line(number).unwrap();
            self.shown(&line);
            self.parts(&line, model);
        }
        if let Some((first, last)) = teller.ok("line_edges", session.line_edges(number)) {
            self.edge(first);
            self.edge(last);
        }
        for k in 0..4 {
            let column = if k == 0 { usize::MAX } else { self.below(24) };
            if let Some(edge) = teller.ok("edge_at", session.edge_at(number, column)) {
                self.edge(edge);
            }
            if let Some(edge) = teller.ok("nearest_edge", session.nearest_edge(number, column)) {
                self.edge(edge);
            }
            if let Some(hit) = teller.ok("hit_at", session.hit(number, column)) {
                self.tell("hit.pos", hit.pos);
                self.tell("hit.trailing", hit.trailing);
            }
        }
    }

    fn paragraph(&self, session: &Session, number: usize) {
        let paragraph = match self.teller.ok("paragraph", session.paragraph(number)) {
            Some(paragraph) => paragraph,
            None => return,
        };
        let (levels, breaks) = paragraph.levels_and_breaks().unwrap();
        self.tell("start", paragraph.range().start);
        self.tell("length", paragraph.range().end - paragraph.range().start);
        self.tell("first_line", paragraph.lines().start);
        self.tell("lines", paragraph.lines().len());
        self.tell("base", paragraph.base());
        self.teller.tell_all("levels", levels.into_iter());
        self.teller.tell_all("marks", breaks.into_iter());
    }

    fn position(&self, session: &Session, model: &Model, pos: usize) {
        let teller = &self.teller;
        in_unit!(self.unit(), model, pos, |at| {
            if let Some(place) = teller.ok("place_of", session.place(at)) {
                self.tell("place.paragraph", place.paragraph);
                self.tell("place.line", place.line);
                self.tell("place.offset", place.offset);
            }
            if let Some(caret) = teller.ok("caret_at", session.caret(at)) {
                self.caret(caret);
            }
            if let Some(cluster) = teller.ok("cluster_at", session.cluster(at)) {
                self.tell("cluster.start", cluster.start);
                self.tell("cluster.end", cluster.end);
            }
            if let Some(word) = teller.ok("word_at", session.word(at)) {
                self.tell("word.start", word.range.start);
                self.tell("word.end", word.range.end);
                self.tell("word.kind", word.is_alphanumeric);
            }
            if let Some(byte) = teller.ok("byte_of", session.byte_of(at)) {
                self.tell("byte", byte);
            }
            if let Some(unit) = teller.ok("utf16_of", session.utf16_of(at)) {
                self.tell("unit", unit);
            }
        });
        for edge in [Edge::before(CharPos(pos)), Edge::after(CharPos(pos))] {
            let direction = [Direction::Left, Direction::Right][self.below(2)];
            if let Some(caret) = teller.ok("edge_caret", session.edge_caret(edge)) {
                self.caret(caret);
            }
            if let Some(next) = teller.ok("step", session.step(edge, direction)) {
                self.tell("moved", next.is_some());
                next.into_iter().for_each(|edge| self.edge(edge));
            }
        }
    }

    fn offset(&self, session: &Session, offset: usize) {
        let byte = session.position_of_byte(BytePos(offset));
        let unit = session.position_of_utf16(Utf16Pos(offset));
        for (name, found) in [("position_of_byte", byte), ("position_of_utf16", unit)] {
            if let Some((pos, rest)) = self.teller.ok(name, found) {
                self.tell("pos", pos);
                self.tell("rest", rest);
            }
        }
    }

    fn texts(&self, session: &Session, model: &Model) {
        let teller = &self.teller;
        let from = self.below(model.0.len() + 1);
        let to = from + self.below(model.0.len() + 1 - from);
        let lines = session.counts().lines;
        let first = self.below(lines + 1);
        let end = first + self.below(lines + 1 - first);
        let print = print_of(1 + self.below(127));
        range_in_unit!(self.unit(), model, from, to, |range| {
            if let Some(text) = teller.ok("text", session.text(range.clone())) {
                teller.tell_all("byte", text.bytes());
            }
            if let Some(chars) = teller.ok("text_utf32", session.chars(range.clone())) {
                teller.tell_all("character", chars.into_iter());
            }
            if let Some(length) = teller.ok("utf8_length", session.utf8_len(range)) {
                self.tell("length", length);
            }
        });
        if let Some(text) = teller.ok("lines_utf8", session.lines_to_string(first..end, print)) {
            teller.tell_all("byte", text.bytes());
        }
    }

    fn rows(&self, tables: &Tables, options: Options, chars: &[char]) {
        let teller = &self.teller;
        let from = self.below(chars.len() + 1);
        let to = from + self.below(chars.len() + 1 - from);
        let base = teller
            .ok("base", base_level(tables, chars, options))
            .unwrap();
        self.tell("base", base);
        let levels = teller.ok("levels", levels(tables, chars, options)).unwrap();
        teller.tell_all("level", levels.iter().copied());
        let marks = teller.ok("marks", breaks(tables, chars, options)).unwrap();
        teller.tell_all("mark", marks.into_iter());
        let (chars_of_row, levels_of_row) = (&chars[from..to], &levels[from..to]);
        let found = row(tables, chars_of_row, levels_of_row, base, options);
        self.row(
            ["visual", "level", "ltov", "vtol"],
            &teller.ok("row", found).unwrap(),
        );
        let runs = row_runs(tables, chars_of_row, levels_of_row, base);
        for run in teller.ok("row_runs", runs).unwrap() {
            self.run(run.range.start, run.range.len(), run.level);
        }
        for it in teller.ok("properties", properties(tables, chars)).unwrap() {
            let (bracket, pair) = match it.bracket {
                None => (0_u8, '\0'),
                Some(Bracket::Open(pair)) => (1, pair),
                Some(Bracket::Close(pair)) => (2, pair),
            };
            self.tell("mirror", it.mirror.unwrap_or('\0'));
            self.tell("pair", pair);
            self.tell("flags", u32::from(it.is_mark) + 2 * u32::from(it.is_wide));
            self.tell("bidi_class", it.bidi_class.number());
            self.tell("line_class", it.line_class.number());
            self.tell("columns", it.columns);
            self.tell("bracket", bracket);
        }
        self.reasons(tables, options, chars);
    }

    fn reasons(&self, tables: &Tables, options: Options, chars: &[char]) {
        let teller = &self.teller;
        for it in teller
            .ok("reasons", reasons(tables, chars, options))
            .unwrap()
        {
            self.tell("opener", it.opener);
            self.tell("matching", it.matching);
            self.tell("sequence", it.sequence);
            self.tell("partner", it.partner);
            self.tell("inside", it.inside);
            self.tell("left", it.left);
            self.tell("right", it.right);
            teller.tell_all("class_after", it.class_after.into_iter());
            self.tell("override_class", it.override_class);
            self.tell("embedding_level", it.embedding_level);
            self.tell("level", it.level);
            self.tell("sos", it.sos);
            self.tell("eos", it.eos);
            self.tell("bracket_case", it.bracket_case);
            self.tell("neutral", it.neutral);
        }
        for it in teller
            .ok("break_reasons", break_reasons(tables, chars, options))
            .unwrap()
        {
            self.tell("base", it.base);
            self.tell("behind_spaces", it.behind_spaces);
            self.tell("rule", it.rule.number);
            self.tell("letter", it.rule.letter.unwrap_or('\0'));
            self.tell("class_before", it.class_before.number());
            self.tell(
                "class_after",
                it.class_after.map_or(0xFF, |class| class.number()),
            );
            self.tell("mark", it.mark);
        }
    }

    fn edit(&self, session: &mut Session) {
        let model = Model::new(session);
        let kind = self.below(6);
        let pos = self.below(model.0.len() + 2);
        let end = pos + self.below(6);
        let text = self.teller.text(self.below(8));
        let width = self.below(25) as u16;
        let advances = self.teller.advances(self.below(8));
        let unit = self.unit();
        let edited = match kind {
            0 => in_unit!(unit, model, pos, |pos| session.insert(pos, &text)),
            1 => range_in_unit!(unit, model, pos, end, |range| session.delete(range)),
            2 => range_in_unit!(unit, model, pos, end, |range| session.replace(range, &text)),
            3 => session.set_measured_width(width.into()),
            4 => session.set_advances(CharPos(pos), &advances),
            _ => session.set_width(width),
        };
        self.edited(edited);
    }

    fn edited(&self, result: Result<Damage, Error>) {
        if let Some(damage) = self.teller.ok("edit", result) {
            self.damage(&damage);
        }
    }

    fn damage(&self, damage: &Damage) {
        let tell = |name: [&str; 3], old: &Range<usize>, new: &Range<usize>| {
            assert_eq!(old.start, new.start);
            self.tell(name[0], old.start);
            self.tell(name[1], old.len());
            self.tell(name[2], new.len());
        };
        let lines = ["first_line", "old_lines", "new_lines"];
        let paragraphs = ["first_paragraph", "old_paragraphs", "new_paragraphs"];
        tell(lines, &damage.old_lines, &damage.new_lines);
        tell(paragraphs, &damage.old_paragraphs, &damage.new_paragraphs);
    }

    fn sizes(&self, session: &Session) {
        let (counts, work) = (session.counts(), session.work());
        self.tell("characters", counts.characters);
        self.tell("lines", counts.lines);
        self.tell("paragraphs", counts.paragraphs);
        self.tell("width", counts.width);
        self.tell("work", 0_u8);
        self.tell("analysed", work.analysed);
        self.tell("filled", work.filled);
        self.tell("written", work.written);
        let changed = session.changed_lines();
        self.tell("changed", 0_u8);
        self.tell("first_line", changed.new_lines.start);
        self.tell("old_lines", changed.old_lines.len());
        self.tell("new_lines", changed.new_lines.len());
    }

    fn session(&self) {
        let tables = &self.tables[self.below(2)];
        let direction = [
            BaseDirection::WeakLtr,
            BaseDirection::WeakRtl,
            BaseDirection::Ltr,
            BaseDirection::Rtl,
        ][self.below(4)];
        let bits = self.below(64);
        let options = Options::new()
            .base(direction)
            .no_break(bits & 1 != 0)
            .reorder_nsm(bits & 2 != 0)
            .whole_numbers(bits & 4 != 0)
            .reorder_clusters(bits & 8 != 0)
            .show_spaces(bits & 16 != 0)
            .line_separators(bits & 32 != 0)
            .tab_width([0, 0, 4, 8][self.below(4)]);
        let width = 1 + self.below(20) as u16;
        let print = print_of(1 + self.below(127));
        let text = self.teller.text(self.below(30));
        let page = layout(tables, &text, width, options, print);
        self.teller
            .tell_all("byte", self.teller.ok("layout", page).unwrap().bytes());
        let is_measured = self.below(3) == 0;
        let opened = if is_measured {
            Session::open_measured(tables, &text, width.into(), options)
        } else {
            Session::new(tables, &text, width, options)
        };
        let mut session = self.teller.ok("open", opened).unwrap();
        if is_measured {
            let advances = self.teller.advances(session.counts().characters);
            self.edited(session.set_advances(CharPos(0), &advances));
        }
        for _ in 0..self.below(4) {
            self.edit(&mut session);
        }
        self.answers(&session);
        let chars = session.chars(..).unwrap();
        self.rows(tables, options, &chars);
        let ends = self.teller.ok("text_clusters", clusters(&chars)).unwrap();
        self.teller.tell_all("end", ends.into_iter());
        let runs = self
            .teller
            .ok("script_runs", script_runs(tables, &chars))
            .unwrap();
        for run in runs {
            self.tell("run.start", run.range.start);
            self.tell("run.length", run.range.len());
            self.tell("run.script", u32::from_be_bytes(run.script));
        }
        let mut bytes = session.text(..).unwrap().into_bytes();
        let damaged = self.below(bytes.len() + 1);
        bytes
            .iter_mut()
            .skip(damaged)
            .take(1)
            .for_each(|byte| *byte ^= 0x80);
        if let Some(count) = self.teller.ok("count_utf8", count_utf8(&bytes)) {
            self.tell("count", count);
        }
        self.tell("valid", valid_utf8(&bytes));
        if let Some((chars, offsets)) = self.teller.ok("decode", decode(&bytes)) {
            self.teller.tell_all("character", chars.into_iter());
            self.teller.tell_all("offset", offsets.into_iter());
        }
    }

    fn answers(&self, session: &Session) {
        let (model, counts) = (Model::new(session), session.counts());
        self.sizes(session);
        self.texts(session, &model);
        (0..counts.lines + 2).for_each(|line| self.line(session, &model, line));
        (0..counts.paragraphs + 1).for_each(|paragraph| self.paragraph(session, paragraph));
        (0..counts.characters + 2).for_each(|pos| self.position(session, &model, pos));
        let length = session.utf8_len(..).unwrap();
        (0..length + 2).for_each(|offset| self.offset(session, offset));
        self.sizes(session);
    }
}

fn print_of(bits: usize) -> Print {
    let all = [
        Print::VISUAL,
        Print::BASEDIR,
        Print::LTOV,
        Print::VTOL,
        Print::LEVELS,
        Print::PADDED,
        Print::MIRRORED,
    ];
    let chosen = (0..all.len())
        .filter(|k| bits >> k & 1 != 0)
        .map(|k| all[k]);
    chosen.reduce(|a, b| a | b).unwrap()
}

fn main() -> Result<(), Box<dyn std::error::Error>> {
    let words: Vec<String> = std::env::args().collect();
    let (first, count): (u64, u64) = (words[1].parse()?, words[2].parse()?);
    let tables = [
        Tables::builtin()?,
        Tables::builtin_with_version(UnicodeVersion::V17_0)?,
    ];
    for number in first..first + count {
        let teller = Teller {
            state: Cell::new((number + 1).wrapping_mul(0x9E37_79B9_7F4A_7C15)),
            sum: Cell::new(0xCBF2_9CE4_8422_2325),
            printed: words.get(3).map(|_| RefCell::default()),
        };
        let run = Run {
            teller,
            tables: &tables,
        };
        run.session();
        if let Some(printed) = &run.teller.printed {
            print!("{}", printed.borrow());
        }
        println!("{number} {:016x}", run.teller.sum.get());
    }
    Ok(())
}
