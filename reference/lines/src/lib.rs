//! What the rules come to, as lines of text: what the program reads and
//! prints, and the forms in which vectors are written and read.

pub mod answers;
pub mod books;
pub mod calls;
pub mod check;
pub mod console;
pub mod exchanges;
pub mod json;
pub mod objects;
pub mod play;
pub mod resets;
pub mod samples;
pub mod selection;
pub mod t1;
pub mod tapes;
