//! A second key module and what is needed to compare another one with it.

pub mod calls;
pub mod carry;
pub mod chance;
pub mod compare;
pub mod console;
pub mod fetched;
pub mod grouped;
pub mod malformed;
pub mod module;
pub mod pins;
pub mod script;
pub mod typed;
pub mod undo;
pub mod words;
