use std::ffi::CString;
use std::fmt;
use std::path::Path;

use crate::ffi::TablesHandle;
use crate::numbers::{UnicodeVersion, TABLE_FILES};
use crate::Error;

/// Character properties from the Unicode Character Database, version 15.0 or 17.0. Line breaks follow the rules of this
/// version.
///
/// The library contains the tables of both versions. [`builtin`](Tables::builtin) opens the tables of 15.0.
///
/// Tables can be sent to another thread, but not shared by threads, since a call needs exclusive access:
///
/// ```compile_fail,E0277
/// fn share<T: Sync>(_: T) {}
/// share(hordguli::Tables::builtin().unwrap());
/// ```
///
/// [`layout`](crate::layout) keeps at most 5 MB of memory in the tables for its next call. Sessions share the tables
/// that they were opened with, and the tables may be dropped before the sessions.
pub struct Tables {
    pub(crate) handle: TablesHandle,
}

impl Tables {
    fn new(handle: TablesHandle) -> Self {
        Tables { handle }
    }

    /// Opens the built-in tables of Unicode 15.0. Reads no file.
    ///
    /// # Errors
    ///
    /// [`Error::OutOfMemory`].
    pub fn builtin() -> Result<Self, Error> {
        TablesHandle::open_builtin().map(Self::new)
    }

    /// Opens the built-in tables of a Unicode version. Reads no file.
    ///
    /// ```
    /// use hordguli::{Tables, UnicodeVersion};
    ///
    /// let tables = Tables::builtin_with_version(UnicodeVersion::V17_0)?;
    /// assert_eq!(tables.version().to_string(), "17.0");
    /// # Ok::<(), hordguli::Error>(())
    /// ```
    ///
    /// # Errors
    ///
    /// [`Error::UnknownVersion`], [`Error::OutOfMemory`].
    pub fn builtin_with_version(version: UnicodeVersion) -> Result<Self, Error> {
        TablesHandle::open_builtin_version(version.number()).map(Self::new)
    }

    /// Opens tables from a compiled image, such as the file `tables.image` that is installed with the table files. The
    /// tables have the version of the image.
    ///
    /// # Errors
    ///
    /// [`Error::TableFault`], [`Error::OutOfMemory`].
    pub fn from_image(image: &[u8]) -> Result<Self, Error> {
        TablesHandle::open_image(image).map(Self::new)
    }

    /// Opens tables of Unicode 15.0 from the contents of the files named in [`TABLE_FILES`], in this order.
    ///
    /// # Errors
    ///
    /// [`Error::TableFault`], [`Error::OutOfMemory`].
    pub fn from_files(files: &[&[u8]; TABLE_FILES.len()]) -> Result<Self, Error> {
        TablesHandle::read(files).map(Self::new)
    }

    /// Opens tables as [`from_files`](Tables::from_files) does, from files of `version`.
    ///
    /// # Errors
    ///
    /// [`Error::UnknownVersion`], [`Error::TableFault`], [`Error::OutOfMemory`].
    pub fn from_files_with_version(
        version: UnicodeVersion,
        files: &[&[u8]; TABLE_FILES.len()],
    ) -> Result<Self, Error> {
        TablesHandle::read_version(version.number(), files).map(Self::new)
    }

    /// Opens tables of Unicode 15.0 from the files in a folder.
    ///
    /// # Errors
    ///
    /// [`Error::UnreadFile`], [`Error::TableFault`], [`Error::OutOfMemory`].
    pub fn from_folder(folder: impl AsRef<Path>) -> Result<Self, Error> {
        TablesHandle::open_folder(&c_path(folder.as_ref())?).map(Self::new)
    }

    /// Opens tables from the files of `version` in a folder.
    ///
    /// # Errors
    ///
    /// [`Error::UnknownVersion`], [`Error::UnreadFile`], [`Error::TableFault`], [`Error::OutOfMemory`].
    pub fn from_folder_with_version(
        version: UnicodeVersion,
        folder: impl AsRef<Path>,
    ) -> Result<Self, Error> {
        TablesHandle::open_folder_version(version.number(), &c_path(folder.as_ref())?)
            .map(Self::new)
    }

    /// Returns the Unicode version of the tables.
    #[must_use]
    pub fn version(&self) -> UnicodeVersion {
        // (only a closed handle has no version)
        UnicodeVersion::new(self.handle.version().unwrap_or_default())
    }
}

impl fmt::Debug for Tables {
    fn fmt(&self, f: &mut fmt::Formatter<'_>) -> fmt::Result {
        f.debug_struct("Tables")
            .field("version", &self.version())
            .finish_non_exhaustive()
    }
}

/// Returns a path as a C string.
fn c_path(path: &Path) -> Result<CString, Error> {
    use std::os::unix::ffi::OsStrExt;
    CString::new(path.as_os_str().as_bytes()).map_err(|_| Error::UnreadFile(TABLE_FILES[0]))
}

impl UnicodeVersion {
    /// Returns the major version, such as 15.
    #[must_use]
    pub const fn major(self) -> u32 {
        self.number() >> 16
    }

    /// Returns the minor version, such as 0.
    #[must_use]
    pub const fn minor(self) -> u32 {
        self.number() >> 8 & 0xFF
    }
}

impl fmt::Display for UnicodeVersion {
    /// Writes the major and the minor version, such as `15.0`.
    fn fmt(&self, f: &mut fmt::Formatter<'_>) -> fmt::Result {
        write!(f, "{}.{}", self.major(), self.minor())
    }
}
