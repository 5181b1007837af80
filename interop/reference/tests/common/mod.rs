//! Helpers shared by the tests.
#![allow(dead_code)]

use reference::device::Device;
use reference::store::{Answer, Refusal, FILE_MAX};

/// Splitmix64.
pub struct Rng(pub u64);

impl Rng {
    pub fn next(&mut self) -> u64 {
        self.0 = self.0.wrapping_add(0x9e37_79b9_7f4a_7c15);
        let mut z = self.0;
        z = (z ^ (z >> 30)).wrapping_mul(0xbf58_476d_1ce4_e5b9);
        z = (z ^ (z >> 27)).wrapping_mul(0x94d0_49bb_1331_11eb);
        z ^ (z >> 31)
    }

    /// A number below `limit`.
    pub fn below(&mut self, limit: usize) -> usize {
        (self.next() % limit as u64) as usize
    }

    /// True once in `n` times.
    pub fn one_in(&mut self, n: usize) -> bool {
        self.below(n) == 0
    }

    pub fn pick<T: Copy>(&mut self, values: &[T]) -> T {
        values[self.below(values.len())]
    }

    pub fn fill(&mut self, bytes: &mut [u8]) {
        for byte in bytes {
            *byte = self.next() as u8;
        }
    }
}

/// A formatted and mounted box.
pub fn mounted() -> Device {
    let mut device = Device::new();
    assert_eq!(device.format(0), Answer::Done(0));
    assert_eq!(device.mount(0), Answer::Done(0));
    device
}

/// A formatted and mounted box with these bytes synced to file 0.
pub fn synced(bytes: &[u8]) -> Device {
    let mut device = mounted();
    assert_eq!(device.write(0, 0, bytes), Answer::Done(bytes.len()));
    assert!(matches!(device.sync(0, 18), Answer::Done(_)));
    device
}

/// All live bytes of a file.
pub fn contents(device: &Device, file: usize) -> Vec<u8> {
    let mut bytes = vec![0xee; FILE_MAX + 1];
    let Answer::Done(count) = device.read(file, 0, &mut bytes) else {
        panic!("not mounted");
    };
    assert!(bytes[count..].iter().all(|&byte| byte == 0xee));
    bytes.truncate(count);
    bytes
}

/// The bytes of a file on the media, up to its stored size.
pub fn on_media(device: &Device, file: usize) -> &[u8] {
    &device.media[file * FILE_MAX..][..device.sizes[file] as usize]
}

/// Runs of bytes: `runs(&[(256, b'B'), (44, b'A')])`.
pub fn runs(parts: &[(usize, u8)]) -> Vec<u8> {
    parts
        .iter()
        .flat_map(|&(count, byte)| std::iter::repeat_n(byte, count))
        .collect()
}

pub fn refused(refusal: Refusal) -> Answer {
    Answer::Refused(refusal)
}

pub fn cut(count: usize) -> Answer {
    Answer::Refused(Refusal::Cut(count))
}
