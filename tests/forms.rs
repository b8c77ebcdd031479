//! Forms that are derived in two ways: what is found at conflicts, and that the moves read it both ways.

mod continued;
mod found;
mod limits;
mod outlooks;
mod replays;
mod told;
