//! Tables that are read from files and images.
use std::fs;

use hordguli::{layout, Options, Print, Tables, UnicodeVersion, TABLE_FILES};

/// Returns the path of a folder of table files.
fn folder(name: &str) -> String {
    format!("{}/../../{name}", env!("CARGO_MANIFEST_DIR"))
}

/// Text that Unicode 17.0 breaks differently from 15.0.
fn sample() -> String {
    "\u{4e2d}\u{201c}\u{4e2d}\u{201d} \u{5d0}-\u{5d1} 12,3 (\u{627})\n".repeat(3)
}

fn printed(tables: &Tables) -> String {
    layout(
        tables,
        &sample(),
        5,
        Options::new(),
        Print::DEFAULT | Print::LEVELS,
    )
    .unwrap()
}

fn contents(name: &str) -> Vec<Vec<u8>> {
    let read = |file| fs::read(format!("{}/{file}", folder(name))).unwrap();
    TABLE_FILES.iter().map(read).collect()
}

fn slices(contents: &[Vec<u8>]) -> [&[u8]; 7] {
    [0, 1, 2, 3, 4, 5, 6].map(|k| &contents[k][..])
}

#[test]
fn tables_of_files_equal_the_builtin_ones() {
    let builtin = printed(&Tables::builtin().unwrap());
    let files = contents("ucd");
    let image = fs::read(folder("ucd/tables.image")).unwrap();
    assert_eq!(
        printed(&Tables::from_folder(folder("ucd")).unwrap()),
        builtin
    );
    assert_eq!(
        printed(&Tables::from_files(&slices(&files)).unwrap()),
        builtin
    );
    assert_eq!(printed(&Tables::from_image(&image).unwrap()), builtin);
}

#[test]
fn tables_of_files_have_the_given_version() {
    let version = UnicodeVersion::V17_0;
    let builtin = Tables::builtin_with_version(version).unwrap();
    let files = contents("ucd-17.0");
    let image = fs::read(folder("ucd-17.0/tables.image")).unwrap();
    for tables in [
        Tables::from_folder_with_version(version, folder("ucd-17.0")).unwrap(),
        Tables::from_files_with_version(version, &slices(&files)).unwrap(),
        Tables::from_image(&image).unwrap(),
    ] {
        assert_eq!(
            (tables.version(), printed(&tables)),
            (version, printed(&builtin))
        );
    }
    assert_ne!(printed(&builtin), printed(&Tables::builtin().unwrap()));
}
