//! Item sets and tables: cells, gotos, conflicts, limits.

mod alone;
mod cells;
mod conflicts;
mod item_sets;
mod limits;
mod matrices;
mod refused_tables;
mod sizes;
mod states;
mod told;
