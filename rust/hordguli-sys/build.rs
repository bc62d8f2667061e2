//! Tells Cargo how to link the C library.
use std::env;
use std::path::{Path, PathBuf};
use std::process::{exit, Command};

const ARCHIVE: &str = "libhordguli.a";

fn main() {
    println!("cargo:rerun-if-changed=build.rs");
    let linked = if env::var_os("CARGO_FEATURE_VENDORED").is_some() {
        link_archive()
    } else {
        link_by_pkg_config()
    };
    if let Err(reason) = linked {
        eprintln!("hordguli-sys: {reason}");
        exit(1);
    }
}

/// Links the archive in the folder that `HORDGULI_DIR` names.
fn link_archive() -> Result<(), String> {
    println!("cargo:rerun-if-env-changed=HORDGULI_DIR");
    let folder = env::var_os("HORDGULI_DIR")
        .ok_or("the feature `vendored` needs HORDGULI_DIR, the folder of an unpacked tarball")?;
    let folder = library_folder(&PathBuf::from(folder))?;
    println!("cargo:rerun-if-changed={}", folder.join(ARCHIVE).display());
    println!("cargo:rustc-link-search=native={}", folder.display());
    println!("cargo:rustc-link-lib=static=hordguli");
    Ok(())
}

/// Returns the folder of the archive: `lib` in the given folder, or the folder itself.
fn library_folder(folder: &Path) -> Result<PathBuf, String> {
    [folder.join("lib"), folder.to_path_buf()]
        .into_iter()
        .find(|folder| folder.join(ARCHIVE).is_file())
        .ok_or_else(|| format!("no {ARCHIVE} in {} (HORDGULI_DIR)", folder.display()))
}

/// Links the library that `pkg-config` finds.
fn link_by_pkg_config() -> Result<(), String> {
    for name in [
        "PKG_CONFIG",
        "PKG_CONFIG_PATH",
        "PKG_CONFIG_LIBDIR",
        "PKG_CONFIG_SYSROOT_DIR",
    ] {
        println!("cargo:rerun-if-env-changed={name}");
    }
    for flag in split_flags(&pkg_config()?) {
        if let Some(folder) = flag.strip_prefix("-L") {
            println!("cargo:rustc-link-search=native={folder}");
        } else if let Some(library) = flag.strip_prefix("-l") {
            println!("cargo:rustc-link-lib={library}");
        }
    }
    Ok(())
}

/// Returns what `pkg-config --libs` prints. The library must have the version of this crate, or a later compatible one.
fn pkg_config() -> Result<String, String> {
    let program = env::var_os("PKG_CONFIG").unwrap_or_else(|| "pkg-config".into());
    let wanted = concat!("hordguli >= ", env!("CARGO_PKG_VERSION"));
    let ran = Command::new(&program)
        .args(["--libs", wanted])
        .output()
        .map_err(|error| format!("cannot run {}: {error}", Path::new(&program).display()))?;
    if ran.status.success() {
        Ok(String::from_utf8_lossy(&ran.stdout).into_owned())
    } else {
        Err(String::from_utf8_lossy(&ran.stderr).into_owned())
    }
}

/// Splits the output of `pkg-config` at spaces. A backslash precedes a space that is part of a path.
fn split_flags(output: &str) -> Vec<String> {
    let mut flags = vec![String::new()];
    let mut chars = output.chars();
    while let Some(c) = chars.next() {
        match c {
            '\\' => flags.last_mut().unwrap().extend(chars.next()),
            c if c.is_whitespace() => flags.push(String::new()),
            c => flags.last_mut().unwrap().push(c),
        }
    }
    flags.retain(|flag| !flag.is_empty());
    flags
}
