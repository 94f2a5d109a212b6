//! libtulvekas.a held against the reference, call by call and byte by byte.
//!
//! `TULVEKAS_SEED` chooses other random cases, `TULVEKAS_ROUNDS` how many of all cases are run, in percent. With
//! `TULVEKAS_CANARIES=0` each buffer is an allocation of its own, for runs under a memory checker.

mod arbitrary;
mod calendar;
mod cipher;
mod cuts;
mod keeping;
mod key_store;
mod lent;
mod library;
mod orders;
mod page_file;
mod pages;
mod random;
mod scheduler;
mod search;
mod sessions;
mod stack;
mod suspended;
mod tester;
mod wide;
