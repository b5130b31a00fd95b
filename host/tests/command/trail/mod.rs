//! `vma trail`. The trail files are written out by hand, from the table of R-1, but in `eight_calls`.

mod bytes;
mod damage;
mod eight_calls;
mod large;
mod show;
mod unusable;
