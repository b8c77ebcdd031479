//! Reasons for conflicts, as they are printed.

mod each;
mod limits;
mod printed;
mod together;
mod without_texts;
