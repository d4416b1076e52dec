//! How much stack a call needs: it runs in a thread whose stack is a buffer of ours, filled
//! with a pattern before and looked through after.

use std::ffi::{c_int, c_void};
use std::ptr::{null_mut, NonNull};

const PATTERN: u64 = 0x5AA5_C33C_9669_F00F;

/// Far more than any call needs.
const STACK_BYTES: usize = 1 << 20;

/// `pthread_attr_t`, which has 56 bytes on x86-64 Linux.
#[repr(C, align(8))]
struct Attributes([u8; 64]);

extern "C" {
    fn pthread_attr_init(attributes: *mut Attributes) -> c_int;
    fn pthread_attr_setstack(
        attributes: *mut Attributes,
        lowest: *mut c_void,
        bytes: usize,
    ) -> c_int;
    fn pthread_attr_destroy(attributes: *mut Attributes) -> c_int;
    fn pthread_create(
        thread: *mut usize,
        attributes: *const Attributes,
        start: extern "C" fn(*mut c_void) -> *mut c_void,
        argument: *mut c_void,
    ) -> c_int;
    fn pthread_join(thread: usize, result: *mut *mut c_void) -> c_int;
}

/// A call, where the stack of its thread begins, and what is found out.
struct Task<F, T> {
    call: Option<F>,
    lowest: *const u64,
    result: Option<T>,
    bytes: usize,
}

/// The first function of the thread. Nothing but the call writes below its frame.
extern "C" fn start<F: FnOnce() -> T, T>(task: *mut c_void) -> *mut c_void {
    let frame = 0_u8;
    let top = &raw const frame as usize;
    // SAFETY: `needs` passes its task and waits for this thread, and the words from the
    // lowest one up to this frame are the thread's stack.
    unsafe {
        let task = NonNull::new_unchecked(task).cast::<Task<F, T>>().as_mut();
        task.result = task.call.take().map(|call| call());
        let mut word = task.lowest;
        while word.read_volatile() == PATTERN {
            word = word.add(1);
        }
        task.bytes = top - word as usize;
    }
    null_mut()
}

fn done(status: c_int) {
    assert_eq!(status, 0, "a thread could not be made");
}

/// The result of a call, and the bytes of stack that it needs.
pub fn needs<F: FnOnce() -> T + Send, T: Send>(call: F) -> (T, usize) {
    let mut stack = vec![PATTERN; STACK_BYTES / 8];
    let mut task = Task {
        call: Some(call),
        lowest: stack.as_ptr(),
        result: None,
        bytes: 0,
    };
    let mut attributes = Attributes([0; 64]);
    let mut thread = 0;
    // SAFETY: the stack and the task outlive the thread, which is waited for, and nothing
    // else uses them meanwhile.
    unsafe {
        done(pthread_attr_init(&mut attributes));
        done(pthread_attr_setstack(
            &mut attributes,
            stack.as_mut_ptr().cast(),
            STACK_BYTES,
        ));
        done(pthread_create(
            &mut thread,
            &attributes,
            start::<F, T>,
            (&raw mut task).cast(),
        ));
        done(pthread_join(thread, null_mut()));
        done(pthread_attr_destroy(&mut attributes));
    }
    (task.result.expect("the thread made the call"), task.bytes)
}

#[cfg(test)]
mod tests {
    use super::needs;
    use std::hint::black_box;

    #[inline(never)]
    fn filled<const BYTES: usize>() -> u8 {
        let mut array = [0; BYTES];
        black_box(&mut array).fill(1);
        array[BYTES / 2]
    }

    /// How much more a call needs that fills so much more.
    #[test]
    fn an_array_is_counted() {
        let ((_, few), (_, many)) = (needs(filled::<1_000>), needs(filled::<50_000>));
        assert!((0..2_000).contains(&(few - 1_000)), "{few}");
        assert!((48_990..49_010).contains(&(many - few)), "{few} and {many}");
    }
}
