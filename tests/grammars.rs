//! What texts mean, which parts are refused, indices, bit vectors.

mod bits;
mod error_texts;
mod indices;
mod refused_parts;
mod told;
mod worked;
