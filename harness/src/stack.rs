//! How much stack a call uses: it runs on memory that was filled with a pattern before.
use std::alloc::{alloc, dealloc, Layout};
use std::ffi::{c_int, c_void};
use std::ptr;

/// Far more than a call may need, so that an excess is measured and not a crash.
const SIZE: usize = 4 << 20;
const PATTERN: u8 = 0xA5;

/// Room for a `pthread_attr_t`.
#[repr(C, align(16))]
struct Attributes([u8; 256]);

type Start = extern "C" fn(*mut c_void) -> *mut c_void;

extern "C" {
    fn pthread_attr_init(attributes: *mut Attributes) -> c_int;
    fn pthread_attr_setstack(attributes: *mut Attributes, stack: *mut c_void, size: usize) -> c_int;
    fn pthread_attr_destroy(attributes: *mut Attributes) -> c_int;
    fn pthread_create(thread: *mut usize, attributes: *const Attributes, start: Start, given: *mut c_void) -> c_int;
    fn pthread_join(thread: usize, result: *mut *mut c_void) -> c_int;
}

struct Given<F> {
    call: Option<F>,
    /// An address in the frame that makes the call.
    top: usize,
}

/// In a frame of its own, below its caller's.
#[inline(never)]
fn apart<F: FnOnce()>(call: F) {
    call();
}

extern "C" fn start<F: FnOnce()>(given: *mut c_void) -> *mut c_void {
    let given = unsafe { &mut *given.cast::<Given<F>>() };
    let here = 0u8;
    given.top = &raw const here as usize;
    apart(given.call.take().expect("the thread starts once"));
    ptr::null_mut()
}

/// The bytes of stack that a call uses, measured from its caller's frame. The end of the thread
/// uses some too, so that less than about a kilobyte is not told apart.
pub fn used<F: FnOnce() + Send>(call: F) -> usize {
    let layout = Layout::from_size_align(SIZE, 1 << 12).unwrap();
    let mut given = Given { call: Some(call), top: 0 };
    unsafe {
        let stack = alloc(layout);
        assert!(!stack.is_null());
        ptr::write_bytes(stack, PATTERN, SIZE);
        let mut attributes = Attributes([0; 256]);
        let mut thread = 0;
        assert_eq!(pthread_attr_init(&mut attributes), 0);
        assert_eq!(pthread_attr_setstack(&mut attributes, stack.cast(), SIZE), 0);
        assert_eq!(pthread_create(&mut thread, &attributes, start::<F>, (&raw mut given).cast()), 0);
        assert_eq!(pthread_join(thread, ptr::null_mut()), 0);
        pthread_attr_destroy(&mut attributes);
        // The stack grows down: the pattern is left at its low end.
        let left = std::slice::from_raw_parts(stack, SIZE).iter().take_while(|&&byte| byte == PATTERN).count();
        let lowest = stack as usize + left;
        dealloc(stack, layout);
        assert!(left > 0, "more than {SIZE} bytes of stack");
        given.top - lowest
    }
}

#[cfg(test)]
mod tests {
    use super::*;

    // Catches a measure that sees nothing, or everything: known amounts of stack.
    #[test]
    fn known_amounts() {
        fn fill<const N: usize>() {
            let mut bytes = [0u8; N];
            std::hint::black_box(&mut bytes);
        }
        for (used, bytes) in
            [(used(fill::<1_000>), 1_000), (used(fill::<50_000>), 50_000), (used(fill::<500_000>), 500_000)]
        {
            assert!((bytes..bytes + 1_000).contains(&used), "{used} for {bytes}");
        }
    }
}
