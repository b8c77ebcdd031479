//! Lists after which conflicts are real.

mod lists;
