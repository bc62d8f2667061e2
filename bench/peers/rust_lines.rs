// Does the work of `bin/fribidi --width 80` with the crates unicode-bidi, unicode-linebreak and unicode-width. Standard input is
// UTF-8. It neither mirrors characters nor pads right-to-left lines, so it does a little less.
use std::io::{self, Read, Write};
use unicode_bidi::{BidiInfo, ParagraphInfo};
use unicode_linebreak::linebreaks;
use unicode_width::{UnicodeWidthChar, UnicodeWidthStr};

const WIDTH: usize = 80;

/// The end of the text without the spaces and separators that a line does not show.
fn shown_end(text: &str) -> usize {
    text.trim_end_matches([' ', '\n', '\u{b}', '\u{c}', '\r', '\u{85}', '\u{2028}', '\u{2029}']).len()
}

/// The least end after `from` at which the columns pass the width, or the end of the text.
fn overlong_end(text: &str) -> usize {
    let mut columns = 0;
    for (at, c) in text.char_indices() {
        columns += c.width().unwrap_or(0);
        if columns > WIDTH && at > 0 {
            return at;
        }
    }
    text.len()
}

fn write_paragraph(info: &BidiInfo, paragraph: &ParagraphInfo, out: &mut impl Write) -> io::Result<()> {
    let text = info.text;
    let (mut start, mut last, mut columns) = (0, 0, 0);
    let mut write_line = |start: usize, end: usize| -> io::Result<()> {
        let end = start + shown_end(&text[start..end]);
        if start < end {
            let line = info.reorder_line(paragraph, start..end);
            out.write_all(line.as_bytes())?;
        }
        out.write_all(b"\n")
    };
    for (end, _) in linebreaks(text) {
        let piece = &text[last..end];
        if start < last && columns + piece[..shown_end(piece)].width() > WIDTH {
            write_line(start, last)?;
            (start, columns) = (last, 0);
        }
        while start == last && text[start..start + shown_end(&text[start..end])].width() > WIDTH {
            let next = start + overlong_end(&text[start..end]);
            write_line(start, next)?;
            (start, last, columns) = (next, next, 0);
        }
        columns += text[last..end].width();
        last = end;
    }
    if start < text.len() { write_line(start, text.len()) } else { Ok(()) }
}

fn main() -> io::Result<()> {
    let mut text = String::new();
    io::stdin().read_to_string(&mut text)?;
    let mut out = io::BufWriter::with_capacity(1 << 16, io::stdout().lock());
    // (a `BidiInfo` of the whole text would be copied for each line)
    for paragraph in text.split_inclusive(['\n', '\r', '\u{1c}', '\u{1d}', '\u{1e}', '\u{85}', '\u{2029}']) {
        let info = BidiInfo::new(paragraph, None);
        write_paragraph(&info, &info.paragraphs[0], &mut out)?;
    }
    out.flush()
}
