//! The library that `bindings/include/langtag.h` declares, for every target of Rust. Build it in this folder:
//!
//! ```sh
//! cargo build --release
//! ```
//!
//! This writes `target/release/liblangtag_verified.a`, and the shared library beside it. All modules except `calls`,
//! `exports` and `panic` are shared with the Rust crate. `tools/erase` made the modules from the proved sources,
//! except `exports`, which `bindings/generate.py` writes, and `panic`, `shim` and `message`, which are written by hand.
#![no_std]
#![deny(unsafe_code)]
#![allow(dead_code, unused_imports, unused_macros, clippy::all)] // The Rust crate uses more items, and has its own lints.

#[cfg(feature = "std")]
extern crate std;

#[cfg(not(feature = "std"))]
mod panic;

#[path = "../../src/shim.rs"]
#[macro_use]
mod shim;

mod erased;
#[path = "../../src/message.rs"]
mod message;

mod calls;
mod exports;
