//! A store of eight small files over a write-back page cache, as document 01
//! describes it, and trip lists and the store on an append-only part, as
//! document 02 does. It shares no code with the product, which is compared with
//! it.

pub mod device;
pub mod model;
pub mod part;
pub mod part_device;
pub mod part_store;
pub mod session;
pub mod store;
pub mod trips;
