//! How deep a call goes into the stack: an area below the caller is painted, the call is made, and
//! what lost its paint was used. The few bytes that `paint` itself keeps above the area are not
//! seen; what `used` needs to make the call counts too, where it is not inlined.

use std::hint::black_box;
use std::mem::MaybeUninit;

/// How much of the stack is watched.
const AREA: usize = 64 * 1024;

/// No call writes this byte everywhere.
const PAINT: u8 = 0xA5;

/// How many bytes below this function's frame a call used.
#[inline(never)]
pub fn used(call: impl FnOnce()) -> usize {
    let lowest = paint();
    call();
    // SAFETY: `paint` has written each of these places of this thread's stack, which has not shrunk since.
    let is_painted = |at: usize| unsafe { (lowest as *const u8).add(at).read_volatile() } == PAINT;
    AREA - (0..AREA).find(|at| !is_painted(*at)).unwrap_or(AREA)
}

/// Paints the area below the caller's frame, and tells where it begins.
#[inline(never)]
fn paint() -> usize {
    let mut area = MaybeUninit::<[u8; AREA]>::uninit();
    let lowest = area.as_mut_ptr().cast::<u8>();
    for at in 0..AREA {
        // SAFETY: `at` lies within the area.
        unsafe { lowest.add(at).write_volatile(PAINT) };
    }
    black_box(&mut area);
    lowest as usize
}
