//! Tests of what is public, and of the parts of graphs below it. They are compiled without a proof (docs/CHECKING.md).

mod ambiguities;
mod commands;
mod contests;
mod decided;
mod examples;
mod fixtures;
mod forms;
mod grammars;
mod graphs;
mod losses;
mod machines;
mod reasons;
mod tables;
mod trees;
