//! Eight small files on one media part, in a box whose power can go at any
//! moment.
//!
//! The store is the proved one: this crate links its archive, `libboxstore.a`,
//! and adds Rust types around it. A [`Device`] is the memory of one store, with
//! the calls on it; [`raw`] has the calls over memory of the caller's own.
//!
//! A file is 0 to 4,096 bytes. A write goes into a cache of 24 pages of 256
//! bytes, and a [sync](Device::sync) brings a file to the media. After a loss
//! of power a [mount](Device::mount) finds each file as its last completed sync
//! left it, changed by a first part of the bytes of each later write, from none
//! to all, and by each later truncate or not.
//!
//! The premise: the media does each media write whole or not at all, in order,
//! and nothing else alters media, sizes, frames or state between calls. A
//! [`Device`] has its media in memory; `boxstore.h` says which media writes of
//! a call a driver carries from there to a part, and in which order, by the
//! [state](Device::state) and the [frames](Device::frames) before the call.
//!
//! ```
//! use boxstore::{Device, MOUNT_WRITES, SYNC_WRITES};
//!
//! # fn main() -> Result<(), boxstore::Error> {
//! let mut device = Device::new();
//! device.format(MOUNT_WRITES)?;
//! device.mount(MOUNT_WRITES)?;
//! device.write(0, 0, b"SN-000042-A7")?;
//! device.sync(0, SYNC_WRITES)?;
//! device.cut_power();
//! device.mount(MOUNT_WRITES)?;
//! let mut serial = [0; 12];
//! assert_eq!(device.read(0, 0, &mut serial)?, 12);
//! assert_eq!(&serial, b"SN-000042-A7");
//! # Ok(())
//! # }
//! ```
//!
//! # Budgets
//!
//! Sync, mount and format are told how many media writes the hold-up capacitor
//! still pays for. Where they need more they do that many and answer
//! [`Error::Cut`]: the device is then down, as if the power had gone at that
//! moment. [`SYNC_WRITES`] and [`MOUNT_WRITES`] are never cut.
//!
//! # Trip lists
//!
//! A trip list is text, at most [`LIST_BYTES`] of it, as a file of the store may
//! hold: for each trip a line `minute,metres,driver` that ends with LF. A number
//! has 1 to 10 digits, leading zeros allowed, and fits a `u32`; a driver is 1 to
//! 16 of A to Z and 0 to 9; the minutes rise from line to line. [`trips`] goes
//! through a list, [`read_trip`] takes one trip of it, and [`write_trips`] gives
//! it the spelling that all lists of the same trips share. [`join_trips`] makes
//! one list of two.
//!
//! # Without `std`
//!
//! The feature `std`, on by default, adds `Device::read_all` and no more.
//! With `default-features = false` the crate rests on `core`, and allocates
//! nothing. A device has its memory inline; a new one is all zeros, so that a
//! `static` one takes no room in the image of a program:
//!
//! ```
//! use boxstore::{Device, MOUNT_WRITES};
//! # use std::sync::Mutex;
//!
//! // the Mutex of the platform
//! static STORE: Mutex<Device> = Mutex::new(Device::new());
//!
//! let mut device = STORE.lock().unwrap();
//! assert_eq!(device.mount(MOUNT_WRITES), Ok(0));
//! ```

#![no_std]

#[cfg(any(feature = "std", test))]
extern crate std;

mod device;
mod error;
pub mod raw;
mod trips;

pub use device::Device;
pub use error::Error;
pub use trips::{join_trips, read_trip, trips, write_trips, Trip, Trips};

#[doc(inline)]
pub use layout::{
    FILES, FILE_BYTES, FRAMES_BYTES, LIST_BYTES, MEDIA_BYTES, MOUNT_WRITES, PAGE_BYTES, SLOTS,
    STATE_BYTES, STATE_FLOOR, STATE_LOGICAL, STATE_MOUNTED, STATE_SLOTS, SYNC_WRITES,
};
