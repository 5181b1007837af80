//! Long random histories with cuts and lost power, checked by model files.

mod common;

use common::{contents, on_media, Rng};
use reference::device::Device;
use reference::model::ModelFile;
use reference::store::{Answer, CacheState, Refusal, FILES, FILE_MAX};

/// How often the events came that the test is about.
#[derive(Debug, Default)]
struct Seen {
    cut_syncs: [usize; 18],
    cut_mounts: usize,
    trimming_mounts: usize,
    partial: usize,
    short_writes: usize,
    no_room: usize,
    power_losses: usize,
    down_calls: usize,
}

fn position(rng: &mut Rng, device: &Device, file: usize) -> usize {
    let near = rng.below(7);
    match rng.below(5) {
        0 => (256 * rng.below(17) + near).saturating_sub(3),
        1 => (device.state.logical[file] + near).saturating_sub(3),
        2 => (device.sizes[file] as usize + near).saturating_sub(3),
        3 => rng.below(4100),
        _ => rng.below(600),
    }
}

fn history(seed: u64, calls: usize, seen: &mut Seen) {
    let mut rng = Rng(seed);
    let mut device = Device::new();
    // Any box: any media, any stored sizes, any frames.
    rng.fill(&mut device.frames);
    if rng.one_in(2) {
        rng.fill(&mut device.media);
        for size in &mut device.sizes {
            *size = rng.below(FILE_MAX + 1) as u32;
        }
    }
    let mut files: Vec<ModelFile> = vec![ModelFile::default(); FILES];
    assert!(device.mount(8).done().is_some());
    for (file, model) in files.iter_mut().enumerate() {
        model.mount(on_media(&device, file));
    }
    let mut mounted = true;
    let mut value = 0_u8;

    for _ in 0..calls {
        let focus = rng.pick(&[1, 3, 8]);
        let file = rng.below(focus);
        assert_eq!(device.state.mounted == 1, mounted);
        assert!(device.state.is_sound(&device.sizes));
        match rng.below(if mounted { 40 } else { 6 }) {
            0..=1 if mounted && rng.one_in(2) => {
                seen.power_losses += 1;
                device.state = CacheState::DOWN;
                rng.fill(&mut device.frames);
                mounted = false;
            }
            0..=3 if !mounted || rng.one_in(4) => {
                let budget = rng.below(3);
                match device.mount(budget) {
                    Answer::Done(count) => {
                        seen.trimming_mounts += usize::from(count > 0);
                        mounted = true;
                        for (file, model) in files.iter_mut().enumerate() {
                            let found = on_media(&device, file);
                            assert!(
                                model.explains(found),
                                "seed {seed} file {file}: {model:?} {found:?}"
                            );
                            if found != model.durable && found != model.current {
                                seen.partial += 1;
                            }
                            assert_eq!(contents(&device, file), found);
                            model.mount(found);
                        }
                    }
                    Answer::Refused(refusal) => {
                        assert_eq!(refusal, Refusal::Cut(budget));
                        seen.cut_mounts += 1;
                        mounted = false;
                    }
                }
            }
            0..=18 => {
                value = value.wrapping_add(1);
                let position = position(&mut rng, &device, file);
                let length = rng.pick(&[0, 1, 5, 100, 256, 300, 1000, 4096]);
                let length = if rng.one_in(10) {
                    length
                } else {
                    length.min(FILE_MAX.saturating_sub(position))
                };
                let bytes = vec![value; length];
                let answer = device.write(file, position, &bytes);
                match answer {
                    Answer::Done(count) => seen.short_writes += usize::from(count < length),
                    Answer::Refused(Refusal::NoRoom) => seen.no_room += 1,
                    Answer::Refused(Refusal::Down) => seen.down_calls += 1,
                    Answer::Refused(refusal) => assert_eq!(refusal, Refusal::Range),
                }
                files[file].write(position, &bytes, answer);
            }
            19..=26 => {
                let size = position(&mut rng, &device, file);
                let answer = device.truncate(file, size);
                files[file].truncate(size, answer);
            }
            27..=33 => {
                let mut budget = if rng.one_in(3) { rng.below(19) } else { 18 };
                if rng.one_in(20) {
                    // A long sync: the whole file anew after a truncate.
                    budget = 12 + rng.below(7);
                    let answer = device.truncate(file, 10);
                    files[file].truncate(10, answer);
                    let bytes = vec![value; FILE_MAX];
                    let answer = device.write(file, 0, &bytes);
                    files[file].write(0, &bytes, answer);
                }
                let answer = device.sync(file, budget);
                files[file].sync(answer);
                match answer {
                    Answer::Done(_) => {
                        assert_eq!(on_media(&device, file), files[file].current);
                        assert_eq!(contents(&device, file), files[file].current);
                    }
                    Answer::Refused(refusal) => {
                        assert_eq!(refusal, Refusal::Cut(budget));
                        seen.cut_syncs[budget] += 1;
                        mounted = false;
                    }
                }
            }
            34 => {
                // Refused calls change nothing.
                let before = device.clone();
                let file = 8 + rng.below(3);
                assert_eq!(device.sync(file, 0), common::refused(Refusal::NoFile));
                assert_eq!(
                    device.truncate(file - 8, 4097),
                    common::refused(Refusal::Range)
                );
                assert!(device == before);
            }
            _ => {
                let position = position(&mut rng, &device, file).min(FILE_MAX);
                let current = &files[file].current;
                let rest = current.get(position..).unwrap_or(&[]);
                let mut buffer = vec![0xaa; rng.below(700)];
                let count = rest.len().min(buffer.len());
                assert_eq!(
                    device.read(file, position, &mut buffer),
                    Answer::Done(count)
                );
                assert_eq!(buffer[..count], rest[..count]);
                assert!(rest.starts_with(device.look(file, position)));
                assert_eq!(contents(&device, file), *current);
            }
        }
    }
}

#[test]
fn every_mount_is_explained() {
    let mut seen = Seen::default();
    for seed in 0..60 {
        history(seed, 3000, &mut seen);
    }
    println!("{seen:?}");
    for (stores, count) in seen.cut_syncs.iter().enumerate() {
        assert!(*count > 0, "no sync was cut after {stores}: {seen:?}");
    }
    assert!(seen.cut_mounts > 100, "{seen:?}");
    assert!(seen.trimming_mounts > 100, "{seen:?}");
    assert!(seen.partial > 100, "{seen:?}");
    assert!(seen.short_writes > 100, "{seen:?}");
    assert!(seen.no_room > 100, "{seen:?}");
    assert!(seen.power_losses > 1000, "{seen:?}");
    assert!(seen.down_calls > 100, "{seen:?}");
}
