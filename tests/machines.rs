//! Runs, texts drawn at random and their trees, long lines, devices that fail.

mod beginnings;
mod derivations;
mod devices;
mod drawn_texts;
mod draws;
mod failing_devices;
mod long_lines;
mod plain_machine;
mod runs;
