//! Graphs, how many items closings visit, and what graphs answer.

mod counts;
mod getters;
mod large;
mod limits;
mod lookups;
mod printed;
mod refusals;
mod visits;
mod walks;
mod worked;
