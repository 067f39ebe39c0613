//! A second, independent implementation of document 01. It keeps the history of steps and works
//! out from it, each time anew, what the machine holds. Litmus texts it reads in passes over the
//! whole text. It shares nothing with the proved code.

#![forbid(unsafe_code)]

pub mod calls;
pub mod case;
pub mod compare;
pub mod dice;
pub mod escapes;
pub mod examples;
pub mod folder;
pub mod forms;
pub mod generate;
pub mod kinds;
pub mod listing;
pub mod lists;
pub mod litmus_tests;
pub mod litmus_text;
pub mod origins;
pub mod peer;
pub mod record;
pub mod reply;
pub mod results;
pub mod run;
pub mod search;
pub mod shown;
pub mod stated;
pub mod table;
pub mod tally;
pub mod text;
pub mod wire;
