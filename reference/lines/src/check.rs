//! Files of vectors made elsewhere, one JSON object a line, held against the
//! rules.

mod books;
mod compare;
mod exchanges;
mod remains;
mod resets;
mod selection;
mod t1;

pub use books::check_books;
pub use exchanges::check_exchanges;
pub use remains::check_remains;
pub use resets::check_resets;
pub use selection::check_selection;
pub use t1::check_blocks;
