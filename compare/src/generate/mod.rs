//! Lists of calls from seeds. The same seed gives the same list.

mod calls;
mod damage;
mod maker;
mod profiles;
mod ranks;
mod reply;
mod request;
mod start;
mod state;
mod targets;
mod time;
mod world;

pub use profiles::list;
pub use state::{any_route, any_row};
