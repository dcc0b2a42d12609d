//! `compare bench`: the Rust and the subject on the same bytes, decoding and measuring, what the
//! catalogue takes beyond keys, and bookmarks beside calls for half of an input.

mod bookmark;
mod case;
mod cases;
mod inputs;
mod middle;
mod only;
mod side;
mod stock;
mod table;
mod times;

pub use case::{Case, Ready, Work};
pub use middle::middle;
pub use only::{list, only};
pub use side::Side;
pub use stock::Stock;
pub use table::{Column, Compared, Table, tables};
pub use times::print;
