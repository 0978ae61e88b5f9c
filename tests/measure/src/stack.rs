//! How much stack a call takes: the stack below it is painted beforehand, and looked at afterwards.

use std::thread;

/// What is painted, and what the thread has on top of it.
const PAINTED: usize = 1 << 20;
const MORE: usize = 1 << 18;
/// Room for the frames of the painter itself. A call that takes less seems to take this much.
const GAP: usize = 1_024;

/// The bytes of stack between the caller's frame and the deepest byte that the call wrote. Two
/// colours, since a call may write one of them by chance.
pub fn stack_of(call: impl Fn() + Sync) -> usize {
    let depths = [0xA5, 0x5A].map(|colour| {
        thread::scope(|scope| {
            let measure = || depth_of(&call, colour);
            let thread = thread::Builder::new().stack_size(PAINTED + MORE);
            let thread = thread.spawn_scoped(scope, measure).expect("a thread starts");
            thread.join().expect("the call returns")
        })
    });
    depths[0].max(depths[1])
}

#[inline(never)]
fn depth_of(call: &dyn Fn(), colour: u8) -> usize {
    let frame = 0_u8;
    let top = &frame as *const u8 as usize - GAP;
    paint(top, colour);
    call();
    GAP + written_below(top, colour)
}

/// Paints the stack below this address.
#[inline(never)]
fn paint(top: usize, colour: u8) {
    for below in 1..=PAINTED {
        // SAFETY: the thread's stack reaches further down, and no live frame lies below the gap.
        unsafe { ((top - below) as *mut u8).write_volatile(colour) };
    }
}

/// How far below this address the paint is gone.
#[inline(never)]
fn written_below(top: usize, colour: u8) -> usize {
    let is_written = |below: &usize| {
        // SAFETY: the same bytes as were painted.
        unsafe { ((top - *below) as *const u8).read_volatile() != colour }
    };
    (1..=PAINTED).rev().find(is_written).unwrap_or(0)
}

#[cfg(test)]
mod tests {
    use super::*;
    use std::hint::black_box;

    #[test]
    fn an_array_on_the_stack_is_seen() {
        let small = stack_of(|| ());
        let large = stack_of(|| {
            let mut array = [0_u8; 20_000];
            black_box(&mut array);
        });
        assert!(small < 3_000, "{small}");
        assert!((20_000..23_000).contains(&large), "{large}");
    }
}
