//! Statuses and lines of the program, and lines through devices.

mod commands;
mod lines;
