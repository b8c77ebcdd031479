//! Trees: worked ones, those of long texts, small ones by hand.

mod lines;
mod long_texts;
mod small_trees;
mod worked_trees;
