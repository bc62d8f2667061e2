//! Compares the crate `hordguli` with `unicode-bidi` and `unicode-linebreak`: strings in UTF-8 that are laid out at 80 columns, their
//! levels and break marks, and edits. Prints nanoseconds, the minimum of several alternating runs, and the ratio. A ratio above a
//! third has a star.
//!
//! All characters have one column, so the other crates count characters. They neither mirror nor pad lines, so they do a little less.
//! Each side keeps what it can reuse from call to call.
use std::hint::black_box;
use std::time::Instant;

use hordguli::{
    breaks, layout_into, levels, BaseDirection, Damage, Options, Print, Session, Tables,
};
use unicode_bidi::BidiInfo;
use unicode_linebreak::linebreaks;

const WIDTH: usize = 80;
const RUNS: usize = 15;
const GOAL: f64 = 1.0 / 3.0;
/// The characters of a string, and how many strings are laid out in a run.
const SIZES: [(usize, usize); 3] = [(30, 2000), (300, 500), (100_000, 4)];
const KINDS: [&str; 4] = ["English", "Hebrew", "Arabic", "mixed"];
const WORDS: [[&str; 13]; 3] = [
    [
        "the",
        "window",
        "is",
        "closed",
        "reading",
        "error",
        "(timeout)",
        "from",
        "to",
        "file,",
        "42",
        "3.5",
        "of",
    ],
    [
        "שלום",
        "עולם",
        "הקובץ",
        "של",
        "לא",
        "נמצא",
        "(שגיאה)",
        "אל",
        "קריאה,",
        "12",
        "בשורה",
        "את",
        "הזמן",
    ],
    [
        "مرحبا",
        "العالم",
        "الملف",
        "في",
        "لم",
        "يوجد",
        "(خطأ)",
        "إلى",
        "قراءة،",
        "٣٤",
        "السطر",
        "من",
        "الوقت",
    ],
];

struct Random(u64);

impl Random {
    fn below(&mut self, bound: usize) -> usize {
        self.0 ^= self.0 << 13;
        self.0 ^= self.0 >> 7;
        self.0 ^= self.0 << 17;
        (self.0 % bound as u64) as usize
    }

    /// Returns words of a kind with this number of characters.
    fn text(&mut self, kind: usize, count: usize) -> String {
        let mut text: Vec<char> = Vec::new();
        while text.len() < count {
            let words = &WORDS[if kind < 3 { kind } else { self.below(3) }];
            text.extend(words[self.below(words.len())].chars());
            text.push(' ');
        }
        text[..count].iter().collect()
    }
}

/// Appends the lines of a paragraph, found with the other crates.
fn other_lines(text: &str, out: &mut String) {
    let info = BidiInfo::new(text, None);
    let paragraph = &info.paragraphs[0];
    let (mut start, mut last, mut columns) = (0, 0, 0);
    let mut push = |start: usize, end: usize| {
        let end = start + text[start..end].trim_end_matches([' ', '\n']).len();
        if start < end {
            out.push_str(&info.reorder_line(paragraph, start..end));
        }
        out.push('\n');
    };
    for (end, _) in linebreaks(text) {
        let piece = &text[last..end];
        if start < last && columns + piece.trim_end_matches([' ', '\n']).chars().count() > WIDTH {
            push(start, last);
            (start, columns) = (last, 0);
        }
        columns += piece.chars().count();
        last = end;
    }
    push(start, text.len());
}

/// Returns the minimum time of each call, in nanoseconds per repetition.
fn measured(repeats: usize, mut ours: impl FnMut(), mut other: impl FnMut()) -> (f64, f64) {
    let (mut least, mut other_least) = (f64::INFINITY, f64::INFINITY);
    let time = |call: &mut dyn FnMut()| {
        let start = Instant::now();
        call();
        start.elapsed().as_secs_f64() * 1e9 / repeats as f64
    };
    for _ in 0..RUNS {
        least = least.min(time(&mut ours));
        other_least = other_least.min(time(&mut other));
    }
    (least, other_least)
}

fn tell(what: &str, (ours, other): (f64, f64), note: &str) {
    let ratio = ours / other;
    let star = if ratio > GOAL { "*" } else { "" };
    println!("{what}: {ours:.0} ns, the other crates {other:.0} ns, ratio {ratio:.2}{star}{note}");
}

fn strings(tables: &Tables, name: &str, strings: &[String]) {
    let (mut ours, mut other, mut same) = (String::new(), String::new(), 0);
    for text in strings {
        ours.clear();
        other.clear();
        layout_into(
            tables,
            text,
            WIDTH as u16,
            Options::new(),
            Print::VISUAL,
            &mut ours,
        )
        .unwrap();
        other_lines(text, &mut other);
        same += usize::from(ours == other);
    }
    let lines = measured(
        strings.len(),
        || {
            for text in strings {
                ours.clear();
                layout_into(
                    tables,
                    text,
                    WIDTH as u16,
                    Options::new(),
                    Print::DEFAULT,
                    &mut ours,
                )
                .unwrap();
                black_box(&ours);
            }
        },
        || {
            for text in strings {
                other.clear();
                other_lines(text, &mut other);
                black_box(&other);
            }
        },
    );
    let mut chars: Vec<char> = Vec::new();
    let analysis = measured(
        strings.len(),
        || {
            for text in strings {
                chars.clear();
                chars.extend(text.chars());
                black_box(levels(tables, &chars, BaseDirection::WeakLtr).unwrap());
                black_box(breaks(tables, &chars, Options::new()).unwrap());
            }
        },
        || {
            for text in strings {
                black_box(BidiInfo::new(text, None).levels);
                linebreaks(text).for_each(|end| {
                    black_box(end);
                });
            }
        },
    );
    let note = format!("; {same} of {} strings have the same lines", strings.len());
    tell(&format!("{name}, lines"), lines, &note);
    tell(&format!("{name}, levels and break marks"), analysis, "");
}

/// A text that the other crates lay out again after an edit: the paragraph that was edited, or all of them.
struct Document {
    paragraphs: Vec<String>,
    lays_out_all: bool,
}

impl Document {
    fn lay_out(&self, edited: usize, out: &mut String) {
        out.clear();
        if self.lays_out_all {
            self.paragraphs
                .iter()
                .for_each(|paragraph| other_lines(paragraph, out));
        } else {
            other_lines(&self.paragraphs[edited], out);
        }
        black_box(out);
    }
}

/// Inserts and deletes a letter at random positions, and reads the lines of the paragraph.
fn edits(tables: &Tables, name: &str, random: &mut Random, document: &mut Document) {
    let text = document.paragraphs.concat();
    let mut session = Session::new(tables, &text, WIDTH as u16, Options::new()).unwrap();
    let redone = if document.lays_out_all {
        text.len()
    } else {
        document.paragraphs[0].len()
    };
    let count = (2_000_000 / redone).clamp(2, 1000);
    let places: Vec<(usize, usize)> = (0..count)
        .map(|_| {
            let paragraph = random.below(document.paragraphs.len());
            (
                paragraph,
                random.below(document.paragraphs[paragraph].chars().count()),
            )
        })
        .collect();
    let (mut ours, mut other) = (String::new(), String::new());
    let mut read = |session: &Session, damage: Damage| {
        ours.clear();
        session
            .lines_into(damage.new_lines, Print::DEFAULT, &mut ours)
            .unwrap();
        black_box(&ours);
    };
    let times = measured(
        2 * count,
        || {
            for &(paragraph, offset) in &places {
                let pos = session.paragraph(paragraph).unwrap().range().start + offset;
                let inserted = session.insert(pos, "x").unwrap();
                read(&session, inserted);
                let deleted = session.delete(pos..pos + 1).unwrap();
                read(&session, deleted);
            }
        },
        || {
            for &(paragraph, offset) in &places {
                let text = &mut document.paragraphs[paragraph];
                let byte = text.char_indices().nth(offset).unwrap().0;
                text.insert(byte, 'x');
                document.lay_out(paragraph, &mut other);
                document.paragraphs[paragraph].remove(byte);
                document.lay_out(paragraph, &mut other);
            }
        },
    );
    tell(name, times, "");
}

fn main() {
    let tables = Tables::builtin().unwrap();
    let mut random = Random(88_172_645_463_325_252);
    for (size, count) in SIZES {
        for (kind, kind_name) in KINDS.iter().enumerate() {
            let name = format!("{size} characters, {kind_name}");
            let texts: Vec<String> = (0..count).map(|_| random.text(kind, size)).collect();
            strings(&tables, &name, &texts);
            let paragraphs = texts[..1].to_vec();
            let mut document = Document {
                paragraphs,
                lays_out_all: true,
            };
            edits(
                &tables,
                &format!("{name}, an edit"),
                &mut random,
                &mut document,
            );
        }
    }
    for (kind, kind_name) in KINDS.iter().enumerate() {
        let paragraphs = (0..1250).map(|_| random.text(kind, 79) + "\n").collect();
        let mut document = Document {
            paragraphs,
            lays_out_all: true,
        };
        let name = format!("100000 characters in paragraphs of 80, {kind_name}, an edit");
        edits(&tables, &name, &mut random, &mut document);
        document.lays_out_all = false;
        let name = format!("{name} if they lay out its paragraph alone");
        edits(&tables, &name, &mut random, &mut document);
    }
}
