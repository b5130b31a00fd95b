//! The built program, run as a user runs it. What is expected was worked out by hand from document 01.

mod attempt;
mod bad_files;
mod bad_words;
mod case;
mod endings;
mod files;
mod help;
mod interrupted;
mod manual;
mod trail;
mod whole;
