//! A text editor for the terminal: `bidi_pad [--log FILE] TEXT`.
//!
//! A session as wide as the window holds the text, and handles directions, line breaks and columns. Keys edit the session, which says
//! which lines to draw again. The session also moves the caret, and finds words, grapheme clusters and the columns of a selection.
//!
//! Keys: arrows, Home, End, Page Up and Page Down, with Ctrl for words and with Shift to select; Backspace, Delete, Ctrl-S (save),
//! Ctrl-Q (quit).
use std::fs::{self, File};
use std::io::{stdout, ErrorKind, Write};
use std::ops::Range;

use crossterm::cursor::MoveTo;
use crossterm::event::{self, Event, KeyCode, KeyEvent, KeyModifiers};
use crossterm::style::{Attribute, Print, SetAttribute};
use crossterm::terminal::{self, Clear, ClearType};
use crossterm::terminal::{DisableLineWrap, EnableLineWrap};
use crossterm::terminal::{EnterAlternateScreen, LeaveAlternateScreen};
use crossterm::{execute, queue};
use hordguli::{CharPos, Direction, Edge, Options, Session, Tables};

type Result<T> = std::result::Result<T, Box<dyn std::error::Error>>;

const QUIT: KeyEvent = KeyEvent::new(KeyCode::Char('q'), KeyModifiers::CONTROL);
const CLEAR: Clear = Clear(ClearType::CurrentLine);

struct Pad {
    session: Session,
    path: String,
    note: String,
    /// Where the caret is, and where the selection started.
    caret: Edge,
    anchor: Edge,
    /// The line in the first row of the screen.
    top: usize,
    width: usize,
    /// Whether each row must be drawn. A status row is below them.
    stale: Vec<bool>,
    /// How many lines were drawn for the last key.
    drawn: usize,
}

impl Pad {
    /// Opens a file. A missing file is read as an empty text.
    fn open(path: &str) -> Result<Self> {
        let (text, note) = match fs::read_to_string(path) {
            Err(error) if error.kind() == ErrorKind::NotFound => (String::new(), "a new file"),
            read => (read?, ""),
        };
        let options = Options::new().tab_width(4).show_spaces(true);
        Ok(Pad {
            session: Session::new(&Tables::builtin()?, &text, 80, options)?,
            path: path.into(),
            note: note.into(),
            caret: Edge::default(),
            anchor: Edge::default(),
            top: 0,
            width: 80,
            stale: vec![],
            drawn: 0,
        })
    }

    /// Returns the screen column where a line starts.
    fn left_of(&self, line: usize) -> usize {
        self.session.line(line).map_or(0, |line| line.padding())
    }

    /// Returns the line and the screen column of the caret.
    fn caret_cell(&self) -> Result<(usize, usize)> {
        let caret = self.session.edge_caret(self.caret)?;
        Ok((caret.line, self.left_of(caret.line) + caret.column))
    }

    /// Moves the caret to a screen column of a line, if there is such a line.
    fn go(&mut self, line: usize, column: usize) {
        let column = column.saturating_sub(self.left_of(line));
        self.caret = self.session.edge_at(line, column).unwrap_or(self.caret);
    }

    /// Moves the caret to the left or right. At the end of a line, moves it to the previous or next line.
    fn step(&mut self, direction: Direction) -> Result<()> {
        let (line, _) = self.caret_cell()?;
        match self.session.step(self.caret, direction)? {
            Some(edge) => self.caret = edge,
            None if direction == Direction::Right => self.go(line + 1, 0),
            None if line > 0 => self.go(line - 1, usize::MAX),
            None => {}
        }
        Ok(())
    }

    /// Moves the caret to the start of this or the previous word, or to the end of this or the next one.
    fn by_word(&mut self, direction: Direction) {
        let back = usize::from(direction == Direction::Left);
        let word_at = |pos| self.session.word(CharPos(pos)).ok();
        let mut caret = self.caret;
        while let Some(word) = caret.pos.0.checked_sub(back).and_then(word_at) {
            caret = match direction {
                Direction::Left => Edge::before(word.range.start),
                Direction::Right if word.is_alphanumeric => Edge::after(word.range.end),
                Direction::Right => Edge::before(word.range.end),
            };
            if word.is_alphanumeric {
                break;
            }
        }
        self.caret = caret;
    }

    fn selected(&self) -> Range<CharPos> {
        let (a, b) = (self.caret.pos, self.anchor.pos);
        a.min(b)..a.max(b)
    }

    /// Adapts to the size of the window. Returns the name of the event.
    fn resize(&mut self, columns: u16, rows: u16) -> Result<String> {
        self.width = columns.max(1).into();
        self.stale = vec![true; rows.max(2) as usize - 1];
        self.session.set_width(columns.max(1))?;
        Ok("resize".into())
    }

    /// Draws a line, with its selection in reverse video. Leaves out control characters, which a terminal would execute.
    fn draw_line(&mut self, row: usize, number: usize) -> Result<()> {
        let line = self.session.line(number)?;
        let spans: Vec<_> = line.spans(self.selected())?.collect();
        let mut column = 0;
        queue!(stdout(), MoveTo(line.padding() as u16, row as u16))?;
        for (c, width) in line.row()?.visual.into_iter().zip(line.columns()?) {
            let is_selected = spans.iter().any(|span| span.contains(column));
            if width > 0 {
                let attribute = [Attribute::Reset, Attribute::Reverse][usize::from(is_selected)];
                queue!(stdout(), SetAttribute(attribute))?;
            }
            if c == '\t' {
                queue!(stdout(), Print(" ".repeat(width)))?;
            } else if !c.is_control() {
                queue!(stdout(), Print(c))?;
            }
            column += width;
        }
        queue!(stdout(), SetAttribute(Attribute::Reset))?;
        self.drawn += 1;
        Ok(())
    }

    fn draw(&mut self) -> Result<()> {
        let (line, column) = self.caret_cell()?;
        let lowest = (line + 1).saturating_sub(self.stale.len());
        let top = self.top.clamp(lowest, line);
        if top != self.top {
            self.top = top;
            self.stale.fill(true);
        }
        let count = self.session.counts().lines;
        for row in 0..self.stale.len() {
            if std::mem::take(&mut self.stale[row]) {
                queue!(stdout(), MoveTo(0, row as u16), CLEAR)?;
                if self.top + row < count {
                    self.draw_line(row, self.top + row)?;
                }
            }
        }
        let (pos, end) = (self.caret.pos, self.session.end());
        let status = format!("{}: {pos} of {end}. {}", self.path, self.note);
        let status: String = status.chars().take(self.width - 1).collect();
        queue!(stdout(), MoveTo(0, self.stale.len() as u16), CLEAR)?;
        let (column, row) = (column.min(self.width - 1), line - self.top);
        execute!(stdout(), Print(status), MoveTo(column as u16, row as u16))?;
        Ok(())
    }

    /// Returns whether a position is the start of the text, or after a character that ends a line.
    fn is_after_line(&self, pos: CharPos) -> bool {
        const ENDS: &str = "\n\u{b}\u{c}\r\u{1c}\u{1d}\u{1e}\u{85}\u{2028}\u{2029}";
        let last = pos.0.checked_sub(1).map(CharPos);
        let last = last.and_then(|last| self.session.text(last..pos).ok());
        last.map_or(true, |last| ENDS.contains(&last))
    }

    /// Replaces characters, and puts the caret at the edge that `edge` returns for the end of the new text. If a
    /// paragraph or line starts there, puts the caret before the character that follows.
    fn replace(&mut self, old: Range<CharPos>, text: &str, edge: fn(CharPos) -> Edge) {
        let end = old.start + text.chars().count();
        let is_selected = !self.selected().is_empty();
        if let Err(error) = self.session.replace(old, text) {
            return self.note = error.to_string();
        }
        self.note.clear();
        self.caret = match self.is_after_line(end) {
            true => Edge::before(end),
            false => edge(end),
        };
        self.anchor = self.caret;
        let changed = self.session.changed_lines();
        let is_moved = changed.old_lines.len() != changed.new_lines.len();
        for (line, stale) in (self.top..).zip(&mut self.stale) {
            let is_below = is_moved && line >= changed.new_lines.start;
            *stale |= is_selected || is_below || changed.new_lines.contains(&line);
        }
    }

    /// Deletes the selection, or else the grapheme cluster that contains a character.
    fn delete(&mut self, at: Option<CharPos>, edge: fn(CharPos) -> Edge) {
        let selected = Some(self.selected()).filter(|range| !range.is_empty());
        if let Some(old) = selected.or_else(|| self.session.cluster(at?).ok()) {
            self.replace(old, "", edge);
        }
    }

    fn save(&mut self) -> Result<()> {
        let written = fs::write(&self.path, self.session.text(..)?);
        self.note = written.map_or_else(|error| error.to_string(), |()| "saved".into());
        Ok(())
    }

    /// Handles a key that only moves the caret.
    fn travel(&mut self, key: KeyEvent) -> Result<()> {
        let (line, column) = self.caret_cell()?;
        let (height, before) = (self.stale.len(), self.selected());
        let last = self.session.counts().lines.saturating_sub(1);
        let is_ctrl = key.modifiers.contains(KeyModifiers::CONTROL);
        match key.code {
            KeyCode::Left if is_ctrl => self.by_word(Direction::Left),
            KeyCode::Right if is_ctrl => self.by_word(Direction::Right),
            KeyCode::Left => self.step(Direction::Left)?,
            KeyCode::Right => self.step(Direction::Right)?,
            KeyCode::Up if line > 0 => self.go(line - 1, column),
            KeyCode::Down => self.go(line + 1, column),
            KeyCode::Home => self.caret = self.session.line_edges(line)?.0,
            KeyCode::End => self.caret = self.session.line_edges(line)?.1,
            KeyCode::PageUp => self.go(line.saturating_sub(height), column),
            KeyCode::PageDown => self.go((line + height).min(last), column),
            _ => {}
        }
        if !key.modifiers.contains(KeyModifiers::SHIFT) {
            self.anchor = self.caret;
        }
        if !before.is_empty() || !self.selected().is_empty() {
            self.stale.fill(true);
        }
        Ok(())
    }

    /// Handles a key press, and returns the name of the key.
    fn press(&mut self, key: KeyEvent) -> Result<String> {
        let is_ctrl = key.modifiers.contains(KeyModifiers::CONTROL);
        let mut name = String::from("key");
        match key.code {
            KeyCode::Char('s') if is_ctrl => self.save()?,
            KeyCode::Char(c) if !is_ctrl => {
                name = c.to_string();
                self.replace(self.selected(), &name, Edge::after);
            }
            KeyCode::Tab => self.replace(self.selected(), "\t", Edge::after),
            KeyCode::Enter => self.replace(self.selected(), "\n", Edge::before),
            KeyCode::Backspace => {
                let before = self.caret.pos.0.checked_sub(1).map(CharPos);
                self.delete(before, Edge::after);
            }
            KeyCode::Delete => self.delete(Some(self.caret.pos), Edge::before),
            _ => self.travel(key)?,
        }
        Ok(name)
    }

    /// Handles key presses until the one that quits.
    fn run(&mut self, mut log: Option<File>) -> Result<()> {
        let (columns, rows) = terminal::size()?;
        self.resize(columns, rows)?;
        self.draw()?;
        loop {
            let name = match event::read()? {
                Event::Key(key) if key == QUIT => return Ok(()),
                Event::Key(key) => self.press(key)?,
                Event::Resize(columns, rows) => self.resize(columns, rows)?,
                _ => continue,
            };
            self.drawn = 0;
            self.draw()?;
            if let Some(log) = &mut log {
                writeln!(log, "'{name}' {}", self.drawn)?;
            }
        }
    }
}

fn main() -> Result<()> {
    let words: Vec<String> = std::env::args().skip(1).collect();
    let (log, path) = match &words[..] {
        [option, log, path] if option == "--log" => (Some(File::create(log)?), path),
        [path] => (None, path),
        _ => return Err("bidi_pad [--log FILE] TEXT".into()),
    };
    let mut pad = Pad::open(path)?;
    terminal::enable_raw_mode()?;
    execute!(stdout(), EnterAlternateScreen, DisableLineWrap)?;
    let ended = pad.run(log);
    execute!(stdout(), EnableLineWrap, LeaveAlternateScreen)?;
    terminal::disable_raw_mode()?;
    ended
}
