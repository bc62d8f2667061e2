//! Declarations of the C library hordguli, which lays out bidirectional text in lines.
//!
//! `hordguli.h` documents them. Its first lines say what applies to all calls, such as which pointers may be
//! null, how buffers are filled, and which threads may use a handle. The crate `hordguli` is a safe interface.
//!
//! The library is found by `pkg-config`. With the feature `vendored`, it is `libhordguli.a` in the folder `lib` of the folder that
//! the environment variable `HORDGULI_DIR` names, such as an unpacked tarball, or in that folder itself.
#![allow(non_camel_case_types, non_snake_case)]

mod declarations;

pub use declarations::*;
