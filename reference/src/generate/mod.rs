//! Cases: written by hand, and made at random from a seed.

mod batch;
pub mod damage;
pub mod edges;
mod ledger;
pub mod message;
mod random;
mod settings;
pub mod store;
pub mod stored;
pub mod table;
mod tape;
pub mod text;

pub use batch::{batch, Batch};
pub use edges::{edges, Edge};
pub use ledger::ledger_batch;
pub use random::Random;
pub use settings::{settings_batch, Asked, SettingsBatch};
pub use tape::tape_batch;
