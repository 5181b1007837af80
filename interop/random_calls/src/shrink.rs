//! Makes a call that shows a difference simpler, and the memory it is made on.

use crate::call::Call;
use crate::random_memory::GuardedMemory;

/// Most tries.
const TRIES: usize = 5_000;

/// Simplifies as long as `fails` holds of what is simpler.
pub fn shrink(
    mut memory: GuardedMemory,
    mut call: Call,
    fails: impl Fn(&GuardedMemory, &Call) -> bool,
) -> (GuardedMemory, Call) {
    let mut tries = 0;
    loop {
        let mut found = false;
        for change in 0..GuardedMemory::SIMPLER {
            let Some(simpler) = memory.simpler(change) else {
                continue;
            };
            tries += 1;
            if fails(&simpler, &call) {
                memory = simpler;
                found = true;
            }
        }
        while let Some(simpler) = call
            .simpler()
            .into_iter()
            .inspect(|_| tries += 1)
            .find(|simpler| fails(&memory, simpler))
        {
            call = simpler;
            found = true;
            if tries > TRIES {
                break;
            }
        }
        if !found || tries > TRIES {
            return (memory, call);
        }
    }
}

#[cfg(test)]
mod tests {
    use super::*;
    use layout::STATE_MOUNTED;
    use random_sessions::rng::Rng;

    #[test]
    fn keeps_what_the_failure_needs() {
        let mut rng = Rng::new(5);
        let memory = std::iter::repeat_with(|| GuardedMemory::random(&mut rng))
            .find(|memory| memory.has_right_lengths() && memory.is_sound() && memory.sizes[3] > 7)
            .unwrap();
        let call = Call::Write {
            file: 6,
            position: 1_000,
            bytes: (0..200).collect(),
        };
        let (memory, call) = shrink(memory, call, |memory, call| {
            memory.sizes[3] > 7
                && memory.state[STATE_MOUNTED] == 1
                && matches!(call, Call::Write { position, bytes, .. } if *position >= 300 && bytes.len() > 2)
        });
        let mut small = GuardedMemory::new();
        small.sizes[3] = memory.sizes[3];
        small.state[STATE_MOUNTED] = 1;
        assert_eq!(memory, small);
        assert_eq!(
            call,
            Call::Write {
                file: 0,
                position: 300,
                bytes: vec![1; 3],
            }
        );
    }
}
