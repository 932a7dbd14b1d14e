//! Makes what is offered, sent and lent, from a seed: goals first, and then the bytes that steer
//! toward them.

pub mod blocks;
pub mod clients;
pub mod cuts;
pub mod descriptions;
pub mod drafts;
pub mod goals;
pub mod lists;
pub mod memories;
mod operands;
pub mod random;
pub mod recordings;
pub mod streams;
pub mod timing;
mod waits;
