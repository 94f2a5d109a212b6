//! SNOW-V, SNOW-V-GCM and the sealing of guest pages, written from the documents and not from the code of the library under test.
//!
//! "The paper" is document 001: Ekdahl, Johansson, Maximov, Yang, "A new SNOW stream cipher called SNOW-V". "Document 01" is the
//! contract of the library: refusals and their orders, sessions, the suspended block, trace and the program. "Document 02" is what was
//! asked for later: the page file, states that count their blocks, dates, keeping by calendar months, the key store, the search, and the
//! scheduler. Where the first two differ about the cipher, the paper decides. The forms of a session and of a scheduler in bytes, which they
//! leave open, are taken from the definitions that the library's contracts name.
//!
//! Each module renders one part of them, as plainly as it stands there: cells of 16 bits, one clock at a time, GHASH bit by bit.
//! Nothing here hides the time it takes.

#![deny(unsafe_code)]
#![warn(missing_docs)]

pub mod aes;
pub mod block;
pub mod calendar;
pub mod calls;
pub mod cipher;
pub mod dumps;
#[allow(unsafe_code)]
pub mod ffi;
pub mod ghash;
pub mod keeping;
pub mod key_store;
pub mod keys;
pub mod lfsr;
pub mod page;
pub mod page_file;
pub mod program;
pub mod refusal;
pub mod saturday;
pub mod scheduler;
pub mod search;
pub mod season;
pub mod session;
pub mod suspended;
pub mod trace;
