//! A program without `std`: a serial that survives a loss of power, in a
//! `static` device. Ends with 0, with 1 where the serial or a text is another
//! than it must be, or with the number of the refusal. `.ci/linked` builds it.

#![no_std]
#![no_main]

use boxstore::{Device, Error, FILES, MOUNT_WRITES, SYNC_WRITES};
use core::fmt::{self, Write};
use core::panic::PanicInfo;

static mut DEVICE: Device = Device::new();

const SERIAL: &[u8; 12] = b"SN-000042-A7";

/// Whether the serial is there after the loss of power, and nothing else.
fn survives(device: &mut Device) -> Result<bool, Error> {
    device.mount(MOUNT_WRITES)?;
    device.write(0, 0, SERIAL)?;
    device.sync(0, SYNC_WRITES)?;
    device.write(1, 0, SERIAL)?;
    device.cut_power();
    device.mount(MOUNT_WRITES)?;
    let mut serial = [0; 16];
    let count = device.read(0, 0, &mut serial)?;
    Ok(&serial[..count] == SERIAL && device.look(0, 3)? == b"000042-A7" && device.len(1)? == 0)
}

/// A text in memory of its own.
struct Text {
    bytes: [u8; 64],
    len: usize,
}

impl Write for Text {
    fn write_str(&mut self, s: &str) -> fmt::Result {
        let end = self.len + s.len();
        let room = self.bytes.get_mut(self.len..end).ok_or(fmt::Error)?;
        room.copy_from_slice(s.as_bytes());
        self.len = end;
        Ok(())
    }
}

/// Whether an error prints its meaning, as any `core` error.
fn tells(error: &dyn core::error::Error) -> bool {
    let mut text = Text {
        bytes: [0; 64],
        len: 0,
    };
    write!(text, "{error:?}").is_ok()
        && &text.bytes[..text.len] == b"NO FILE (6): the file number is above 7"
}

#[no_mangle]
extern "C" fn main() -> i32 {
    // SAFETY: the only reference to it; this runs once.
    let device = unsafe { &mut *(&raw mut DEVICE) };
    match survives(device) {
        Ok(true) if device.len(FILES).is_err_and(|error| tells(&error)) => 0,
        Ok(_) => 1,
        Err(error) => error.number() as i32,
    }
}

#[panic_handler]
fn panic(_: &PanicInfo) -> ! {
    extern "C" {
        fn abort() -> !;
    }
    // SAFETY: it asks nothing of its caller.
    unsafe { abort() }
}

/// The `core` of a target with an operating system names it. Nothing unwinds
/// here.
#[no_mangle]
extern "C" fn rust_eh_personality() {}
