//! The calls of the C library. This is the only file with unsafe code.
//!
//! Each comment `SAFETY` says why a call meets the contract of `hordguli.h`, in these terms:
//!
//! - *Handle*: it is initialized as the header requires, is closed once by `drop`, and is in one call at a time. This
//!   holds because it is neither `Sync` nor copied, no method returns a reference to it, and the library makes no
//!   callbacks. A Rust move leaves one handle.
//! - *Input*: a Rust slice, passed with its length. It is valid for reads during the call. A slice has at most `isize::MAX` bytes.
//! - *Output*: a new value, or the unused capacity of a new or exclusively borrowed vector, passed with its length. So it is valid for
//!   writes during the call, and overlaps no handle, input or other output.

use std::cell::UnsafeCell;
use std::ffi::CStr;
use std::os::raw::{c_char, c_void};
use std::ptr::null_mut;

use hordguli_sys::*;

use crate::{Error, Level, TableFault};

/// Returns the error of a status other than `HORDGULI_OK`.
fn check(status: hordguli_status) -> Result<(), Error> {
    match status {
        HORDGULI_OK => Ok(()),
        other => Err(Error::from_status(other)),
    }
}

/// Returns what a call stores through an output parameter.
fn stored<T: Default>(call: impl FnOnce(*mut T) -> hordguli_status) -> Result<T, Error> {
    let mut value = T::default();
    check(call(&mut value))?;
    Ok(value)
}

/// Returns `count` default values.
fn defaults<T: Clone + Default>(count: usize) -> Result<Vec<T>, Error> {
    let mut items = Vec::new();
    items
        .try_reserve_exact(count)
        .map_err(|_| Error::OutOfMemory)?;
    items.resize(count, T::default());
    Ok(items)
}

/// Appends what a call stores in a buffer, whose capacity is at first at least `capacity`. Repeats a call that needs more.
///
/// # Safety
///
/// `call(capacity, buffer, &mut length)` must store at most `capacity` elements. If it returns `HORDGULI_OK`, it must have stored
/// `length` valid elements.
unsafe fn append<T>(
    items: &mut Vec<T>,
    mut capacity: usize,
    mut call: impl FnMut(usize, *mut T, *mut usize) -> hordguli_status,
) -> Result<(), Error> {
    loop {
        items
            .try_reserve(capacity)
            .map_err(|_| Error::OutOfMemory)?;
        let unused = items.spare_capacity_mut();
        let (unused_len, mut length) = (unused.len(), 0);
        match call(unused_len, unused.as_mut_ptr().cast(), &mut length) {
            HORDGULI_NO_ROOM if length > unused_len => capacity = length,
            status => {
                check(status)?;
                // SAFETY: the caller guarantees that `length` elements of the unused capacity are valid.
                unsafe { items.set_len(items.len() + length) };
                return Ok(());
            }
        }
    }
}

/// Like `append`, in a new vector.
///
/// # Safety
///
/// As for `append`.
unsafe fn array<T>(
    capacity: usize,
    call: impl FnMut(usize, *mut T, *mut usize) -> hordguli_status,
) -> Result<Vec<T>, Error> {
    let mut items = Vec::new();
    // SAFETY: as for this function.
    unsafe { append(&mut items, capacity, call) }?;
    Ok(items)
}

/// The number of items for which a call with an array is first made.
const USUAL_COUNT: usize = 16;

/// A text has at most this many characters.
const MOST_CHARACTERS: usize = 1 << 24;

// ---- Texts of the library, and UTF-8 ----

/// Returns a string of the library.
///
/// # Safety
///
/// The string must be static and end with a NUL.
unsafe fn static_text(text: *const c_char) -> &'static str {
    // SAFETY: as for this function.
    unsafe { CStr::from_ptr(text) }.to_str().unwrap_or_default()
}

pub fn status_text(status: hordguli_status) -> &'static str {
    // SAFETY: the function has no requirements. The header says that its result is static.
    unsafe { static_text(hordguli_status_text(status)) }
}

pub fn version() -> &'static str {
    // SAFETY: as in `status_text`.
    unsafe { static_text(hordguli_version()) }
}

pub fn unicode_version() -> &'static str {
    // SAFETY: as in `status_text`.
    unsafe { static_text(hordguli_unicode_version()) }
}

pub fn width_unicode_version() -> &'static str {
    // SAFETY: as in `status_text`.
    unsafe { static_text(hordguli_width_unicode_version()) }
}

pub fn count_utf8(bytes: &[u8]) -> Result<usize, Error> {
    // SAFETY: `bytes` is an input, and the count an output.
    stored(|count| unsafe { hordguli_count_utf8(bytes.as_ptr().cast(), bytes.len(), count) })
}

pub fn valid_utf8(bytes: &[u8]) -> Result<usize, Error> {
    // SAFETY: `bytes` is an input, and the length an output.
    stored(|valid| unsafe { hordguli_valid_utf8(bytes.as_ptr().cast(), bytes.len(), valid) })
}

/// Returns the characters of UTF-8 text, and the offset of each, in bytes.
pub fn decode(bytes: &[u8]) -> Result<(Vec<char>, Vec<usize>), Error> {
    let count = count_utf8(bytes)?;
    let mut chars: Vec<char> = defaults(count)?;
    let mut offsets: Vec<usize> = defaults(count)?;
    // SAFETY: `bytes` is an input, and the two arrays of `count` elements and the count are outputs.
    let _count = stored(|stored| unsafe {
        hordguli_decode(
            bytes.as_ptr().cast(),
            bytes.len(),
            count,
            chars.as_mut_ptr().cast(),
            offsets.as_mut_ptr(),
            stored,
        )
    })?;
    Ok((chars, offsets))
}

pub fn clusters(chars: &[char]) -> Result<Vec<usize>, Error> {
    // SAFETY: `chars` is an input, and the ends and their number are outputs.
    unsafe {
        array(USUAL_COUNT, |capacity, ends, count| {
            hordguli_clusters(chars.len(), chars.as_ptr().cast(), capacity, ends, count)
        })
    }
}

// ---- Tables ----

/// Open tables.
pub struct TablesHandle(UnsafeCell<hordguli_tables>);

// SAFETY: a handle may be used in several threads, one after another. Nothing in the library depends on the thread. What tables share
// is never written, except for an atomic reference count.
unsafe impl Send for TablesHandle {}

impl Drop for TablesHandle {
    fn drop(&mut self) {
        // SAFETY: the handle is initialized, and is not used afterwards.
        unsafe { hordguli_tables_close(self.at()) }
    }
}

impl TablesHandle {
    fn at(&self) -> *mut hordguli_tables {
        self.0.get()
    }

    /// Opens tables by a call that stores a fault on `HORDGULI_TABLE_FAULT` and `HORDGULI_UNREAD_FILE`.
    fn opened(
        open: impl FnOnce(*mut hordguli_tables, *mut hordguli_table_fault) -> hordguli_status,
    ) -> Result<Self, Error> {
        let handle = TablesHandle(UnsafeCell::new(HORDGULI_TABLES_INIT));
        let mut fault = hordguli_table_fault::default();
        match open(handle.at(), &mut fault) {
            HORDGULI_OK => Ok(handle),
            HORDGULI_TABLE_FAULT => Err(Error::TableFault(TableFault::new(&fault))),
            HORDGULI_UNREAD_FILE => Err(Error::UnreadFile(TableFault::new(&fault).file)),
            status => Err(Error::from_status(status)),
        }
    }

    pub fn open_builtin() -> Result<Self, Error> {
        // SAFETY: *handle*.
        Self::opened(|tables, _| unsafe { hordguli_tables_open_builtin(tables) })
    }

    pub fn open_builtin_version(version: u32) -> Result<Self, Error> {
        // SAFETY: *handle*.
        Self::opened(|tables, _| unsafe { hordguli_tables_open_builtin_version(tables, version) })
    }

    pub fn open_image(image: &[u8]) -> Result<Self, Error> {
        // SAFETY: *handle*; `image` is an input, and `fault` an output.
        Self::opened(|tables, fault| unsafe {
            hordguli_tables_open_image(tables, image.as_ptr().cast(), image.len(), fault)
        })
    }

    pub fn read(files: &[&[u8]; HORDGULI_TABLE_FILES]) -> Result<Self, Error> {
        let files = files.map(contents);
        // SAFETY: *handle*; `files` and the contents in it are inputs, and `fault` an output. The array has the required length.
        Self::opened(|tables, fault| unsafe { hordguli_tables_read(tables, files.as_ptr(), fault) })
    }

    pub fn read_version(
        version: u32,
        files: &[&[u8]; HORDGULI_TABLE_FILES],
    ) -> Result<Self, Error> {
        let files = files.map(contents);
        // SAFETY: as in `read`.
        Self::opened(|tables, fault| unsafe {
            hordguli_tables_read_version(tables, version, files.as_ptr(), fault)
        })
    }

    pub fn open_folder(folder: &CStr) -> Result<Self, Error> {
        // SAFETY: *handle*; `folder` ends with a NUL and is valid for reads during the call, and `fault` is an output.
        Self::opened(|tables, fault| unsafe {
            hordguli_tables_open_folder(tables, folder.as_ptr(), fault)
        })
    }

    pub fn open_folder_version(version: u32, folder: &CStr) -> Result<Self, Error> {
        // SAFETY: as in `open_folder`.
        Self::opened(|tables, fault| unsafe {
            hordguli_tables_open_folder_version(tables, version, folder.as_ptr(), fault)
        })
    }

    pub fn version(&self) -> Result<u32, Error> {
        // SAFETY: *handle*; the version is an output.
        stored(|version| unsafe { hordguli_tables_version(self.at(), version) })
    }

    /// Appends the lines of a text.
    pub fn layout(
        &self,
        options: u32,
        width: u32,
        print: u32,
        text: &str,
        buffer: &mut String,
    ) -> Result<(), Error> {
        let expected = text.len() + text.len() / 2 + 64;
        // SAFETY: *handle*; `text` is an input, and the buffer and its length are outputs. The library writes UTF-8.
        unsafe {
            append(buffer.as_mut_vec(), expected, |capacity, bytes, written| {
                hordguli_layout(
                    self.at(),
                    options,
                    width,
                    print,
                    text.as_ptr().cast(),
                    text.len(),
                    capacity,
                    bytes.cast(),
                    written,
                )
            })
        }
    }

    pub fn base(&self, direction: u32, chars: &[char]) -> Result<u32, Error> {
        // SAFETY: *handle*; `chars` is an input, and the level an output.
        stored(|base| unsafe {
            hordguli_base(
                self.at(),
                direction,
                chars.as_ptr().cast(),
                chars.len(),
                base,
            )
        })
    }

    pub fn levels(&self, direction: u32, chars: &[char]) -> Result<Vec<u8>, Error> {
        let mut levels = defaults(chars.len())?;
        // SAFETY: *handle*; `chars` is an input, and `levels` an output of the same length.
        check(unsafe {
            hordguli_levels(
                self.at(),
                direction,
                chars.as_ptr().cast(),
                chars.len(),
                levels.len(),
                levels.as_mut_ptr(),
            )
        })?;
        Ok(levels)
    }

    pub fn marks(&self, options: u32, chars: &[char]) -> Result<Vec<u8>, Error> {
        let mut marks = defaults(chars.len())?;
        // SAFETY: *handle*; `chars` is an input, and `marks` an output of the same length.
        check(unsafe {
            hordguli_marks(
                self.at(),
                options,
                chars.as_ptr().cast(),
                chars.len(),
                marks.len(),
                marks.as_mut_ptr(),
            )
        })?;
        Ok(marks)
    }

    pub fn reasons(&self, direction: u32, chars: &[char]) -> Result<Vec<hordguli_reason>, Error> {
        let mut reasons = defaults(chars.len())?;
        // SAFETY: *handle*; `chars` is an input, and `reasons` an output of the same length.
        check(unsafe {
            hordguli_reasons(
                self.at(),
                direction,
                chars.as_ptr().cast(),
                chars.len(),
                reasons.len(),
                reasons.as_mut_ptr(),
            )
        })?;
        Ok(reasons)
    }

    pub fn break_reasons(
        &self,
        options: u32,
        chars: &[char],
    ) -> Result<Vec<hordguli_break_reason>, Error> {
        let mut reasons = defaults(chars.len())?;
        // SAFETY: *handle*; `chars` is an input, and `reasons` an output of the same length.
        check(unsafe {
            hordguli_break_reasons(
                self.at(),
                options,
                chars.as_ptr().cast(),
                chars.len(),
                reasons.len(),
                reasons.as_mut_ptr(),
            )
        })?;
        Ok(reasons)
    }

    /// Panics if `chars` and `levels` have different lengths.
    pub fn row(
        &self,
        options: u32,
        base: u32,
        chars: &[char],
        levels: &[Level],
    ) -> Result<RawRow, Error> {
        assert_eq!(chars.len(), levels.len(), "one level per character");
        let mut row = RawRow::with_len(chars.len())?;
        // SAFETY: *handle*; `chars` and `levels` are inputs of the same length, and the arrays of `row` are outputs of this length. A
        // `Level` has the layout of a `u8`, and the library stores characters of the input and their mirrors, which are valid `char`s.
        check(unsafe {
            hordguli_row(
                self.at(),
                options,
                base,
                chars.len(),
                chars.as_ptr().cast(),
                levels.as_ptr().cast(),
                chars.len(),
                row.chars.as_mut_ptr().cast(),
                row.levels.as_mut_ptr(),
                row.ltov.as_mut_ptr(),
                row.vtol.as_mut_ptr(),
            )
        })?;
        Ok(row)
    }

    /// Panics if `chars` and `levels` have different lengths.
    pub fn row_runs(
        &self,
        base: u32,
        chars: &[char],
        levels: &[Level],
    ) -> Result<Vec<hordguli_run>, Error> {
        assert_eq!(chars.len(), levels.len(), "one level per character");
        // SAFETY: *handle*; `chars` and `levels` are inputs of the same length, and the runs and their number are outputs.
        unsafe {
            array(USUAL_COUNT, |capacity, runs, count| {
                hordguli_row_runs(
                    self.at(),
                    base,
                    chars.len(),
                    chars.as_ptr().cast(),
                    levels.as_ptr().cast(),
                    capacity,
                    runs,
                    count,
                )
            })
        }
    }

    pub fn script_runs(&self, chars: &[char]) -> Result<Vec<hordguli_script_run>, Error> {
        // SAFETY: *handle*; `chars` is an input, and the runs and their number are outputs.
        unsafe {
            array(USUAL_COUNT, |capacity, runs, count| {
                hordguli_script_runs(
                    self.at(),
                    chars.len(),
                    chars.as_ptr().cast(),
                    capacity,
                    runs,
                    count,
                )
            })
        }
    }

    pub fn properties(&self, chars: &[char]) -> Result<Vec<hordguli_character>, Error> {
        let mut records = defaults(chars.len())?;
        // SAFETY: *handle*; `chars` is an input, and `records` an output of the same length.
        check(unsafe {
            hordguli_properties(
                self.at(),
                chars.len(),
                chars.as_ptr().cast(),
                records.as_mut_ptr(),
            )
        })?;
        Ok(records)
    }
}

fn contents(file: &[u8]) -> hordguli_bytes {
    hordguli_bytes {
        bytes: file.as_ptr().cast::<c_void>(),
        length: file.len(),
    }
}

/// A line or row in visual order.
pub struct RawRow {
    pub chars: Vec<char>,
    pub levels: Vec<u8>,
    pub ltov: Vec<u32>,
    pub vtol: Vec<u32>,
}

impl RawRow {
    fn with_len(count: usize) -> Result<Self, Error> {
        Ok(RawRow {
            chars: defaults(count)?,
            levels: defaults(count)?,
            ltov: defaults(count)?,
            vtol: defaults(count)?,
        })
    }
}

// ---- Sessions ----

/// An open session.
pub struct SessionHandle(UnsafeCell<hordguli_session>);

// SAFETY: as for `TablesHandle`.
unsafe impl Send for SessionHandle {}

impl Drop for SessionHandle {
    fn drop(&mut self) {
        // SAFETY: the handle is initialized, and is not used afterwards.
        unsafe { hordguli_session_close(self.at()) }
    }
}

impl SessionHandle {
    fn at(&self) -> *mut hordguli_session {
        self.0.get()
    }

    pub fn open(
        tables: &TablesHandle,
        options: u32,
        width: u32,
        text: &str,
    ) -> Result<Self, Error> {
        let handle = SessionHandle(UnsafeCell::new(HORDGULI_SESSION_INIT));
        // SAFETY: both are *handles*, and `text` is an input.
        check(unsafe {
            hordguli_session_open(
                handle.at(),
                tables.at(),
                options,
                width,
                text.as_ptr().cast(),
                text.len(),
            )
        })?;
        Ok(handle)
    }

    pub fn open_measured(
        tables: &TablesHandle,
        options: u32,
        width: u32,
        text: &str,
    ) -> Result<Self, Error> {
        let handle = SessionHandle(UnsafeCell::new(HORDGULI_SESSION_INIT));
        // SAFETY: as in `open`.
        check(unsafe {
            hordguli_session_open_measured(
                handle.at(),
                tables.at(),
                options,
                width,
                text.as_ptr().cast(),
                text.len(),
            )
        })?;
        Ok(handle)
    }

    // ---- Edits ----

    pub fn insert(&mut self, pos: usize, text: &str) -> Result<hordguli_damage, Error> {
        // SAFETY: *handle*; `text` is an input, and the damage an output.
        stored(|damage| unsafe {
            hordguli_insert(self.at(), pos, text.as_ptr().cast(), text.len(), damage)
        })
    }

    pub fn delete(&mut self, pos: usize, count: usize) -> Result<hordguli_damage, Error> {
        // SAFETY: *handle*; the damage is an output.
        stored(|damage| unsafe { hordguli_delete(self.at(), pos, count, damage) })
    }

    pub fn replace(
        &mut self,
        pos: usize,
        count: usize,
        text: &str,
    ) -> Result<hordguli_damage, Error> {
        // SAFETY: *handle*; `text` is an input, and the damage an output.
        stored(|damage| unsafe {
            hordguli_replace(
                self.at(),
                pos,
                count,
                text.as_ptr().cast(),
                text.len(),
                damage,
            )
        })
    }

    pub fn set_width(&mut self, width: u32) -> Result<hordguli_damage, Error> {
        // SAFETY: *handle*; the damage is an output.
        stored(|damage| unsafe { hordguli_set_width(self.at(), width, damage) })
    }

    pub fn set_measured_width(&mut self, width: u32) -> Result<hordguli_damage, Error> {
        // SAFETY: *handle*; the damage is an output.
        stored(|damage| unsafe { hordguli_set_measured_width(self.at(), width, damage) })
    }

    pub fn set_advances(&mut self, pos: usize, advances: &[u32]) -> Result<hordguli_damage, Error> {
        // SAFETY: *handle*; `advances` is an input, and the damage an output.
        stored(|damage| unsafe {
            hordguli_set_advances(self.at(), pos, advances.len(), advances.as_ptr(), damage)
        })
    }

    // ---- Sizes ----

    pub fn counts(&self) -> Result<hordguli_counts, Error> {
        // SAFETY: *handle*; the counts are an output.
        stored(|counts| unsafe { hordguli_session_counts(self.at(), counts) })
    }

    pub fn work(&self) -> Result<hordguli_work, Error> {
        // SAFETY: *handle*; the work is an output.
        stored(|work| unsafe { hordguli_session_work(self.at(), work) })
    }

    pub fn changed_lines(&self) -> Result<hordguli_changed, Error> {
        // SAFETY: *handle*; the lines are an output.
        stored(|changed| unsafe { hordguli_changed_lines(self.at(), changed) })
    }

    // ---- Lines and text ----

    pub fn line_start(&self, line: usize) -> Result<usize, Error> {
        // SAFETY: *handle*; the position is an output.
        stored(|start| unsafe { hordguli_line_start(self.at(), line, start) })
    }

    pub fn line_info(&self, line: usize) -> Result<hordguli_line_info, Error> {
        stored(|info| {
            // SAFETY: *handle*; the information is an output. The other pointers may be null.
            let status = unsafe {
                hordguli_line(
                    self.at(),
                    line,
                    info,
                    0,
                    null_mut(),
                    null_mut(),
                    null_mut(),
                    null_mut(),
                    null_mut(),
                )
            };
            without_arrays(status)
        })
    }

    /// `shown` must be the number of shown characters.
    pub fn line_row(&self, line: usize, shown: usize) -> Result<RawRow, Error> {
        let mut row = RawRow::with_len(shown)?;
        let mut info = hordguli_line_info::default();
        // SAFETY: *handle*; the information and the arrays of `row`, which all have this length, are outputs. The library stores
        // Unicode scalar values, which are valid `char`s. The last pointer may be null.
        check(unsafe {
            hordguli_line(
                self.at(),
                line,
                &mut info,
                shown,
                row.chars.as_mut_ptr().cast(),
                row.levels.as_mut_ptr(),
                row.ltov.as_mut_ptr(),
                row.vtol.as_mut_ptr(),
                null_mut(),
            )
        })?;
        Ok(row)
    }

    /// `shown` must be the number of shown characters.
    pub fn line_columns(&self, line: usize, shown: usize) -> Result<Vec<usize>, Error> {
        let mut columns = defaults(shown)?;
        let mut info = hordguli_line_info::default();
        // SAFETY: *handle*; the information and `columns` are outputs. The other pointers may be null.
        check(unsafe {
            hordguli_line(
                self.at(),
                line,
                &mut info,
                shown,
                null_mut(),
                null_mut(),
                null_mut(),
                null_mut(),
                columns.as_mut_ptr(),
            )
        })?;
        Ok(columns)
    }

    pub fn runs(&self, line: usize) -> Result<Vec<hordguli_run>, Error> {
        // SAFETY: *handle*; the runs and their number are outputs.
        unsafe {
            array(USUAL_COUNT, |capacity, runs, count| {
                hordguli_runs(self.at(), line, capacity, runs, count)
            })
        }
    }

    pub fn lines_utf8(
        &self,
        first: usize,
        count: usize,
        print: u32,
        buffer: &mut String,
    ) -> Result<(), Error> {
        // SAFETY: *handle*; the buffer and its length are outputs. The library writes UTF-8.
        unsafe {
            append(buffer.as_mut_vec(), 256, |capacity, bytes, length| {
                hordguli_lines_utf8(
                    self.at(),
                    first,
                    count,
                    print,
                    capacity,
                    bytes.cast(),
                    length,
                )
            })
        }
    }

    pub fn text(&self, pos: usize, count: usize, buffer: &mut String) -> Result<(), Error> {
        let expected = self.utf8_length(pos, count)?;
        // SAFETY: *handle*; the buffer and its length are outputs. The library writes UTF-8.
        unsafe {
            append(buffer.as_mut_vec(), expected, |capacity, bytes, length| {
                hordguli_text(self.at(), pos, count, capacity, bytes.cast(), length)
            })
        }
    }

    pub fn text_utf32(&self, pos: usize, count: usize) -> Result<Vec<char>, Error> {
        let expected = count.min(MOST_CHARACTERS);
        // SAFETY: *handle*; the characters and their number are outputs. The library stores Unicode scalar values, which are valid
        // `char`s.
        unsafe {
            array(expected, |capacity, chars: *mut char, length| {
                hordguli_text_utf32(self.at(), pos, count, capacity, chars.cast(), length)
            })
        }
    }

    pub fn utf8_length(&self, pos: usize, count: usize) -> Result<usize, Error> {
        // SAFETY: *handle*; the length is an output.
        stored(|length| unsafe { hordguli_utf8_length(self.at(), pos, count, length) })
    }

    pub fn byte_of(&self, pos: usize) -> Result<usize, Error> {
        // SAFETY: *handle*; the offset is an output.
        stored(|byte| unsafe { hordguli_byte_of(self.at(), pos, byte) })
    }

    pub fn utf16_of(&self, pos: usize) -> Result<usize, Error> {
        // SAFETY: *handle*; the offset is an output.
        stored(|unit| unsafe { hordguli_utf16_of(self.at(), pos, unit) })
    }

    pub fn position_of_byte(&self, byte: usize) -> Result<hordguli_position, Error> {
        // SAFETY: *handle*; the position is an output.
        stored(|position| unsafe { hordguli_position_of_byte(self.at(), byte, position) })
    }

    pub fn position_of_utf16(&self, unit: usize) -> Result<hordguli_position, Error> {
        // SAFETY: *handle*; the position is an output.
        stored(|position| unsafe { hordguli_position_of_utf16(self.at(), unit, position) })
    }

    pub fn paragraph_info(&self, paragraph: usize) -> Result<hordguli_paragraph_info, Error> {
        stored(|info| {
            // SAFETY: *handle*; the information is an output. The other pointers may be null.
            let status = unsafe {
                hordguli_paragraph(self.at(), paragraph, info, 0, null_mut(), null_mut())
            };
            without_arrays(status)
        })
    }

    /// Returns the levels and the break marks of a paragraph. `length` must be the number of its characters.
    pub fn paragraph_arrays(
        &self,
        paragraph: usize,
        length: usize,
    ) -> Result<(Vec<u8>, Vec<u8>), Error> {
        let (mut levels, mut marks) = (defaults(length)?, defaults(length)?);
        let mut info = hordguli_paragraph_info::default();
        // SAFETY: *handle*; the information and the two arrays, which have the same length, are outputs.
        check(unsafe {
            hordguli_paragraph(
                self.at(),
                paragraph,
                &mut info,
                length,
                levels.as_mut_ptr(),
                marks.as_mut_ptr(),
            )
        })?;
        Ok((levels, marks))
    }

    // ---- Carets and edges ----

    pub fn place_of(&self, pos: usize) -> Result<hordguli_place, Error> {
        // SAFETY: *handle*; the place is an output.
        stored(|place| unsafe { hordguli_place_of(self.at(), pos, place) })
    }

    pub fn caret_at(&self, pos: usize) -> Result<hordguli_caret, Error> {
        // SAFETY: *handle*; the caret is an output.
        stored(|caret| unsafe { hordguli_caret_at(self.at(), pos, caret) })
    }

    pub fn hit_at(&self, line: usize, column: usize) -> Result<hordguli_hit, Error> {
        // SAFETY: *handle*; the hit is an output.
        stored(|hit| unsafe { hordguli_hit_at(self.at(), line, column, hit) })
    }

    pub fn cluster_at(&self, pos: usize) -> Result<hordguli_cluster, Error> {
        // SAFETY: *handle*; the cluster is an output.
        stored(|cluster| unsafe { hordguli_cluster_at(self.at(), pos, cluster) })
    }

    pub fn word_at(&self, pos: usize) -> Result<hordguli_word, Error> {
        // SAFETY: *handle*; the word is an output.
        stored(|word| unsafe { hordguli_word_at(self.at(), pos, word) })
    }

    pub fn spans(&self, line: usize, from: usize, to: usize) -> Result<Vec<hordguli_span>, Error> {
        // SAFETY: *handle*; the spans and their number are outputs.
        unsafe {
            array(USUAL_COUNT, |capacity, spans, count| {
                hordguli_spans(self.at(), line, from, to, capacity, spans, count)
            })
        }
    }

    pub fn edge_caret(&self, edge: hordguli_edge) -> Result<hordguli_caret, Error> {
        // SAFETY: *handle*; the caret is an output.
        stored(|caret| unsafe { hordguli_edge_caret(self.at(), edge, caret) })
    }

    /// Returns `None` at the end of the line.
    pub fn step(
        &self,
        edge: hordguli_edge,
        direction: u32,
    ) -> Result<Option<hordguli_edge>, Error> {
        let mut next = hordguli_edge::default();
        // SAFETY: *handle*; the edge and whether there is one are outputs.
        let moved =
            stored(|moved| unsafe { hordguli_step(self.at(), edge, direction, &mut next, moved) })?;
        Ok((moved != 0).then_some(next))
    }

    pub fn edge_at(&self, line: usize, column: usize) -> Result<hordguli_edge, Error> {
        // SAFETY: *handle*; the edge is an output.
        stored(|edge| unsafe { hordguli_edge_at(self.at(), line, column, edge) })
    }

    pub fn nearest_edge(&self, line: usize, column: usize) -> Result<hordguli_edge, Error> {
        // SAFETY: *handle*; the edge is an output.
        stored(|edge| unsafe { hordguli_nearest_edge(self.at(), line, column, edge) })
    }

    pub fn line_edges(&self, line: usize) -> Result<(hordguli_edge, hordguli_edge), Error> {
        let mut last = hordguli_edge::default();
        // SAFETY: *handle*; both edges are outputs.
        let first =
            stored(|first| unsafe { hordguli_line_edges(self.at(), line, first, &mut last) })?;
        Ok((first, last))
    }

    pub fn line_clusters(&self, line: usize) -> Result<Vec<usize>, Error> {
        // SAFETY: *handle*; the ends and their number are outputs.
        unsafe {
            array(USUAL_COUNT, |capacity, ends, count| {
                hordguli_line_clusters(self.at(), line, capacity, ends, count)
            })
        }
    }
}

/// For calls that store information and arrays: without arrays, `HORDGULI_NO_ROOM` means that the information is stored.
fn without_arrays(status: hordguli_status) -> hordguli_status {
    match status {
        HORDGULI_NO_ROOM => HORDGULI_OK,
        other => other,
    }
}
