//! What the peers in Rust share: two state machines, how packets are admitted and joined, and what submitters send and count.

mod checks;
mod codes;
pub mod events;
pub mod hash;
pub mod layout;
pub mod live;
pub mod lock;
pub mod machine;
pub mod packet;
pub mod state_machine;
pub mod strong;
pub mod tally;
