//! How much stack a call touches: it is made on a thread whose stack was filled with a pattern.

use std::ffi::c_void;
use std::hint::black_box;
use std::ptr::{null_mut, NonNull};

const PAGE: usize = 4096;
/// The thread's stack, in pages: far more than a call takes.
const PAGES: usize = 256;

#[derive(Clone)]
#[repr(align(4096))]
struct Page([u8; PAGE]);

/// The bytes between the frame that makes the call and the deepest byte that the call wrote. A byte written with the pattern itself does not show, so
/// there are two patterns.
pub fn touched(mut call: impl FnMut()) -> usize {
    [0xa5, 0x5a].map(|pattern| touched_over(pattern, &mut call)).into_iter().max().expect("two patterns")
}

fn touched_over(pattern: u8, call: &mut dyn FnMut()) -> usize {
    let mut stack = vec![Page([pattern; PAGE]); PAGES];
    let lowest = stack.as_ptr() as usize;
    let frame = on_stack(&mut stack, call);
    let untouched = stack.iter().flat_map(|page| page.0).take_while(|&byte| byte == pattern).count();
    frame - (lowest + untouched)
}

struct Job<'c> {
    call: &'c mut dyn FnMut(),
    frame: usize,
}

/// Makes the call on a thread with this stack, and gives the address of a local of the function that made it.
fn on_stack(stack: &mut [Page], call: &mut dyn FnMut()) -> usize {
    let mut job = Job { call, frame: 0 };
    let (mut attributes, mut thread) = (Attributes([0; 64]), 0);
    // The thread has ended before `stack` and `job` are used again.
    unsafe {
        done(pthread_attr_init(&mut attributes));
        done(pthread_attr_setstack(&mut attributes, stack.as_mut_ptr().cast(), std::mem::size_of_val(stack)));
        done(pthread_create(&mut thread, &attributes, run, NonNull::from(&mut job).as_ptr().cast()));
        done(pthread_join(thread, null_mut()));
        done(pthread_attr_destroy(&mut attributes));
    }
    job.frame
}

extern "C" fn run(job: *mut c_void) -> *mut c_void {
    let job = unsafe { &mut *job.cast::<Job>() };
    let here = 0u64;
    job.frame = black_box(&here) as *const u64 as usize;
    (job.call)();
    null_mut()
}

fn done(error: i32) {
    assert_eq!(error, 0, "a thread with a stack of its own");
}

/// Room for a `pthread_attr_t`, which has 56 bytes on x86-64.
#[repr(C, align(16))]
struct Attributes([u8; 64]);

extern "C" {
    fn pthread_attr_init(attributes: *mut Attributes) -> i32;
    fn pthread_attr_setstack(attributes: *mut Attributes, lowest: *mut c_void, bytes: usize) -> i32;
    fn pthread_attr_destroy(attributes: *mut Attributes) -> i32;
    fn pthread_create(thread: *mut usize, attributes: *const Attributes, start: extern "C" fn(*mut c_void) -> *mut c_void, job: *mut c_void) -> i32;
    fn pthread_join(thread: usize, result: *mut *mut c_void) -> i32;
}

#[cfg(test)]
mod tests {
    use super::touched;
    use std::hint::black_box;

    #[inline(never)]
    fn fill<const BYTES: usize>() {
        black_box(&mut [0xa5u8; BYTES]).fill(0xa5);
    }

    #[test]
    fn what_is_touched_is_counted() {
        assert!(touched(|| ()) < 500);
        for (bytes, call) in [(10_000, fill::<10_000> as fn()), (100_000, fill::<100_000>)] {
            let seen = touched(call);
            assert!((bytes..bytes + 1000).contains(&seen), "{seen} for {bytes}");
        }
    }
}
