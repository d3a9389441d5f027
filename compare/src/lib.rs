//! The proved leaves beside the reference: `proved` calls the leaves, `engine` the engine, `cases` makes what both are given, `wide` knows
//! which words can be too wide, `full` has a book as full as can be, and `earlier` holds a book by the earlier interface.

pub mod bodies;
pub mod cases;
pub mod earlier;
pub mod engine;
pub mod full;
pub mod proved;
pub mod wide;
