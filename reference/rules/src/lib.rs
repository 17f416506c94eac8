//! What the papers say: an ordinary kernel, tape and judge, and the layers
//! around them. Nothing here reads files or prints, and nothing here knows of
//! the crates that do, or of the generator.

pub mod answers;
pub mod bench;
pub mod book;
pub mod choosing;
pub mod commands;
pub mod decide;
pub mod due;
pub mod edition;
pub mod feed;
pub mod hex;
pub mod judge;
pub mod kernel;
pub mod lists;
pub mod objects;
pub mod recover;
pub mod reset;
pub mod t0;
pub mod t1;
pub mod tape;
pub mod terminal;
pub mod verify;
