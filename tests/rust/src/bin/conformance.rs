//! Prints break marks, or the levels and the order of rows, in the format of the program `conformance`. tests/conformance/run can run it
//! instead of that program.
//!
//! Usage: `conformance marks-of FOLDER VERSION`, or `conformance lines-of FOLDER DIRECTION VERSION`. The folder has the table files of
//! this version of Unicode. Each line of standard input is a paragraph.
use std::error::Error;
use std::fmt::Display;
use std::io::{stdin, BufRead};

use hordguli::{
    base_level, breaks, levels, row, BaseDirection, Break, Options, Tables, UnicodeVersion,
};

fn marks_of(tables: &Tables, chars: &[char]) -> Result<String, hordguli::Error> {
    let letter = |mark| match mark {
        Break::Never => 'x',
        Break::May => '/',
        Break::Must => '!',
    };
    let marks = breaks(tables, chars, Options::new().whole_numbers(true))?;
    Ok(marks.into_iter().map(letter).collect())
}

fn line_of(
    tables: &Tables,
    chars: &[char],
    direction: BaseDirection,
) -> Result<String, hordguli::Error> {
    let base = base_level(tables, chars, direction)?;
    let levels = levels(tables, chars, direction)?;
    let row = row(tables, chars, &levels, base, Options::new())?;
    Ok(format!(
        "{base}; {}; {}",
        joined(&row.levels),
        joined(&row.visual_to_logical)
    ))
}

fn joined(items: &[impl Display]) -> String {
    let items: Vec<String> = items.iter().map(|item| item.to_string()).collect();
    items.join(" ")
}

fn chars_of(line: &str) -> Option<Vec<char>> {
    let char_of = |code| char::from_u32(u32::from_str_radix(code, 16).ok()?);
    line.split_whitespace().map(char_of).collect()
}

fn main() -> Result<(), Box<dyn Error>> {
    let words: Vec<String> = std::env::args().collect();
    let version = match words.last().map(String::as_str) {
        Some("15.0") => UnicodeVersion::V15_0,
        Some("17.0") => UnicodeVersion::V17_0,
        _ => return Err("which version?".into()),
    };
    let tables = Tables::from_folder_with_version(version, &words[2])?;
    let direction = match words[3].as_str() {
        "ltr" => BaseDirection::Ltr,
        "rtl" => BaseDirection::Rtl,
        _ => BaseDirection::WeakLtr,
    };
    for line in stdin().lock().lines() {
        let chars = chars_of(&line?).ok_or("not a character")?;
        println!(
            "{}",
            match words[1].as_str() {
                "marks-of" => marks_of(&tables, &chars)?,
                _ => line_of(&tables, &chars, direction)?,
            }
        );
    }
    Ok(())
}
