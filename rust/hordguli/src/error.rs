use std::fmt;

use hordguli_sys::*;

use crate::ffi;
use crate::numbers::{Cause, TABLE_FILES};

/// Why a call failed. After an error, nothing has changed.
#[derive(Clone, Copy, Debug, PartialEq, Eq, Hash)]
#[non_exhaustive]
pub enum Error {
    /// A position, range, line or paragraph is past the end.
    OutOfRange,
    /// The width is 0, or above 2,147,483,647 in a measured session.
    WidthOutOfRange,
    /// The text would have more than 16,777,216 characters.
    TextTooLong,
    /// A paragraph would have more than 1,048,576 characters, or its advances would add up to more than 4,294,967,295.
    ParagraphTooLong,
    /// Out of memory.
    OutOfMemory,
    /// A [`BytePos`](crate::BytePos) or [`Utf16Pos`](crate::Utf16Pos) is inside a character.
    NotCharBoundary,
    /// The session was not opened by [`Session::open_measured`](crate::Session::open_measured).
    NotMeasured,
    /// The bytes are not valid UTF-8.
    NotUtf8,
    /// The library does not know the Unicode version.
    UnknownVersion,
    /// A table file or an image is malformed.
    TableFault(TableFault),
    /// The table file with this name cannot be read, or the path of its folder has a NUL. If it cannot be read,
    /// [`std::io::Error::last_os_error`] says why, directly after the call.
    UnreadFile(&'static str),
    /// A status that no call of this crate should return.
    Unexpected(i32),
}

impl Error {
    pub(crate) fn from_status(status: hordguli_status) -> Self {
        match status {
            HORDGULI_OUT_OF_RANGE => Error::OutOfRange,
            HORDGULI_WIDTH_OUT_OF_RANGE => Error::WidthOutOfRange,
            HORDGULI_TEXT_TOO_LONG => Error::TextTooLong,
            HORDGULI_PARAGRAPH_TOO_LONG => Error::ParagraphTooLong,
            HORDGULI_NO_MEMORY => Error::OutOfMemory,
            HORDGULI_NOT_MEASURED => Error::NotMeasured,
            HORDGULI_NOT_UTF8 => Error::NotUtf8,
            // (options and print flags have known bits only)
            HORDGULI_UNKNOWN_OPTION => Error::UnknownVersion,
            other => Error::Unexpected(other),
        }
    }

    /// Returns the status of an error that a text of the library describes.
    fn status(self) -> hordguli_status {
        match self {
            Error::OutOfRange => HORDGULI_OUT_OF_RANGE,
            Error::WidthOutOfRange => HORDGULI_WIDTH_OUT_OF_RANGE,
            Error::TextTooLong => HORDGULI_TEXT_TOO_LONG,
            Error::ParagraphTooLong => HORDGULI_PARAGRAPH_TOO_LONG,
            Error::OutOfMemory => HORDGULI_NO_MEMORY,
            Error::NotMeasured => HORDGULI_NOT_MEASURED,
            Error::NotUtf8 => HORDGULI_NOT_UTF8,
            Error::UnknownVersion | Error::NotCharBoundary => HORDGULI_UNKNOWN_OPTION,
            Error::TableFault(_) => HORDGULI_TABLE_FAULT,
            Error::UnreadFile(_) => HORDGULI_UNREAD_FILE,
            Error::Unexpected(status) => status,
        }
    }
}

impl fmt::Display for Error {
    fn fmt(&self, f: &mut fmt::Formatter<'_>) -> fmt::Result {
        match self {
            Error::NotCharBoundary => f.write_str("an offset is inside a character"),
            Error::UnknownVersion => f.write_str("unknown Unicode version"),
            Error::TableFault(fault) => fault.fmt(f),
            Error::UnreadFile(file) => write!(f, "cannot read {file}"),
            error => f.write_str(ffi::status_text(error.status())),
        }
    }
}

impl std::error::Error for Error {}

/// The first malformed line of the table files, in the order of files and then of lines, or the fault in an image.
#[derive(Clone, Copy, Debug, PartialEq, Eq, Hash)]
#[non_exhaustive]
pub struct TableFault {
    /// The name of the file, or `image`.
    pub file: &'static str,
    /// The number of the line, from 1. It is 0 for an image.
    pub line: usize,
    /// What is wrong.
    pub cause: Cause,
}

impl TableFault {
    pub(crate) fn new(fault: &hordguli_table_fault) -> Self {
        TableFault {
            file: TABLE_FILES.get(fault.file).copied().unwrap_or("image"),
            line: fault.line,
            cause: Cause::new(fault.cause),
        }
    }
}

impl fmt::Display for TableFault {
    fn fmt(&self, f: &mut fmt::Formatter<'_>) -> fmt::Result {
        f.write_str(self.file)?;
        if self.line > 0 {
            write!(f, ":{}", self.line)?;
        }
        write!(f, ": {}", self.cause)
    }
}

impl fmt::Display for Cause {
    /// Writes the name in lower case, such as `field count`.
    fn fmt(&self, f: &mut fmt::Formatter<'_>) -> fmt::Result {
        match self.known_name() {
            Some(name) => f.write_str(&name.to_ascii_lowercase().replace('_', " ")),
            None => write!(f, "cause {}", self.number()),
        }
    }
}
