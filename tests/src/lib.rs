//! A host of the exported calls that believes none of them: whatever a call replies and writes is held against a
//! reader written from documents 01 and 02 alone.
//!
//! A further call needs three things: its declaration and a safe wrapper in [`ffi`], what it must answer in a module
//! like [`reference`], put together in [`expected`], and a method of [`host::Host`] that compares the two. What the
//! tests of several calls have in common is in [`lent`], [`answers`] and [`handmade`].

pub mod answers;
pub mod connections;
pub mod damage;
pub mod direct;
pub mod examples;
pub mod expected;
pub mod ffi;
pub mod following;
pub mod generate;
pub mod handmade;
pub mod host;
pub mod lent;
pub mod lines;
pub mod random;
pub mod reference;
pub mod search;
pub mod stack;
pub mod store;
pub mod tables;
pub mod timetable;
pub mod two_rules;
pub mod words;
