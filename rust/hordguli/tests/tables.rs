//! Tables and their errors.
use hordguli::{Cause, Error, Tables, UnicodeVersion, TABLE_FILES};

/// The contents of the table files, of which one is given and the others are empty.
fn files(number: usize, content: &str) -> [&[u8]; 7] {
    let mut files: [&[u8]; 7] = [b""; 7];
    files[number] = content.as_bytes();
    files
}

fn fault_of(result: Result<Tables, Error>) -> (&'static str, usize, Cause) {
    match result {
        Err(Error::TableFault(fault)) => (fault.file, fault.line, fault.cause),
        other => panic!("{other:?}"),
    }
}

#[test]
fn versions_of_the_library() {
    assert_eq!(Tables::builtin().unwrap().version(), UnicodeVersion::V15_0);
    let tables = Tables::builtin_with_version(UnicodeVersion::V17_0).unwrap();
    assert_eq!(tables.version(), UnicodeVersion::V17_0);
    assert_eq!(
        (tables.version().major(), tables.version().minor()),
        (17, 0)
    );
}

#[test]
fn malformed_line_is_reported() {
    let found = fault_of(Tables::from_files(&files(3, "0041;AL\nx;AL\n")));
    assert_eq!(found, ("LineBreak.txt", 2, Cause::CODE_POINT));
    let found = Tables::from_files_with_version(UnicodeVersion::V17_0, &files(0, "0041;Q\n"));
    assert_eq!(
        found.unwrap_err().to_string(),
        "DerivedBidiClass.txt:1: value"
    );
}

#[test]
fn fault_of_an_image_is_reported() {
    assert_eq!(
        fault_of(Tables::from_image(b"")),
        ("image", 0, Cause::TRUNCATED)
    );
    let found = Tables::from_image(&[b'x'; 1000]);
    assert_eq!(found.unwrap_err().to_string(), "image: magic");
}

#[test]
fn missing_file_is_reported() {
    let found = Tables::from_folder("/no/such/folder").unwrap_err();
    let reason = std::io::Error::last_os_error();
    assert_eq!(found, Error::UnreadFile(TABLE_FILES[0]));
    assert_eq!(reason.kind(), std::io::ErrorKind::NotFound);
    assert_eq!(found.to_string(), "cannot read DerivedBidiClass.txt");
    let version = UnicodeVersion::V17_0;
    assert!(Tables::from_folder_with_version(version, "/no/such/folder").is_err());
}

#[test]
fn path_with_a_nul_is_refused() {
    assert_eq!(
        Tables::from_folder("a\0b").unwrap_err(),
        Error::UnreadFile(TABLE_FILES[0])
    );
}

#[test]
fn errors_have_texts() {
    let text = |error: Error| error.to_string();
    assert_eq!(
        text(Error::OutOfRange),
        "no such position, range, line or paragraph"
    );
    assert_eq!(text(Error::WidthOutOfRange), "width out of range");
    assert_eq!(text(Error::NotMeasured), "not a measured session");
    assert_eq!(text(Error::TextTooLong), "text too long");
    assert_eq!(text(Error::ParagraphTooLong), "paragraph too long");
    assert_eq!(text(Error::OutOfMemory), "out of memory");
    assert_eq!(text(Error::NotUtf8), "not UTF-8");
    assert_eq!(
        text(Error::NotCharBoundary),
        "an offset is inside a character"
    );
    assert_eq!(text(Error::UnknownVersion), "unknown Unicode version");
    assert_eq!(text(Error::Unexpected(13)), "null pointer");
    let error: Box<dyn std::error::Error + Send + Sync> = Error::OutOfRange.into();
    assert!(error.source().is_none());
}
