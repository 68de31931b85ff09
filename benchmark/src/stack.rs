//! How many bytes of stack a call takes: it runs in a thread whose stack is a buffer
//! of this program, and the buffer shows how far down it was written.

use std::alloc::{alloc, dealloc, Layout};
use std::ffi::c_void;
use std::hint::black_box;
use std::ptr::null_mut;

/// Bytes of the buffer. They are far more than any call takes.
const SIZE: usize = 1 << 20;

/// The numbers that the buffer is filled with beforehand. A byte that a call writes
/// may be one of them by chance, and so the call runs once with each.
const PAINTS: [u8; 2] = [0xa5, 0x5a];

/// More bytes than the C library needs to start a thread and to end it.
const ABOVE: usize = 1 << 14;

/// `pthread_attr_t`, which has at most as many bytes in the C libraries for Linux.
type Attributes = [u64; 16];

/// What a thread of the C library starts with.
type Start = extern "C" fn(*mut c_void) -> *mut c_void;

extern "C" {
    fn pthread_attr_init(attributes: *mut Attributes) -> i32;
    fn pthread_attr_setstack(attributes: *mut Attributes, low: *mut c_void, size: usize) -> i32;
    fn pthread_attr_destroy(attributes: *mut Attributes) -> i32;
    fn pthread_create(
        thread: *mut usize,
        attributes: *const Attributes,
        start: Start,
        argument: *mut c_void,
    ) -> i32;
    fn pthread_join(thread: usize, result: *mut *mut c_void) -> i32;
}

/// A buffer that lies on whole pages.
struct Stack(*mut u8);

impl Stack {
    fn layout() -> Layout {
        Layout::from_size_align(SIZE, 1 << 12).expect("the size is a multiple of a page")
    }

    fn new() -> Stack {
        let low = unsafe { alloc(Stack::layout()) };
        assert!(!low.is_null(), "there is no memory for a stack");
        Stack(low)
    }

    /// Runs a call with the painted buffer as its stack. The answer is how many bytes
    /// there are from the deepest one that was written to the end of the buffer.
    fn used(&self, paint: u8, call: &mut dyn FnMut()) -> usize {
        // SAFETY: the buffer has so many bytes, and no thread runs on it here.
        unsafe { self.0.write_bytes(paint, SIZE) };
        self.run(call);
        let deepest = (0..SIZE).find(|place| unsafe { self.0.add(*place).read() } != paint);
        SIZE - deepest.unwrap_or(SIZE)
    }

    /// Runs a call in a thread of its own, to its end.
    fn run(&self, call: &mut dyn FnMut()) {
        let mut call = call;
        let argument: *mut &mut dyn FnMut() = &mut call;
        let (mut attributes, mut thread): (Attributes, usize) = ([0; 16], 0);
        // SAFETY: the thread has ended when this returns, so that the buffer and the
        // call outlive it; nothing else uses them in the meantime.
        let results = unsafe {
            [
                pthread_attr_init(&mut attributes),
                pthread_attr_setstack(&mut attributes, self.0.cast(), SIZE),
                pthread_create(&mut thread, &attributes, start, argument.cast()),
                pthread_join(thread, null_mut()),
                pthread_attr_destroy(&mut attributes),
            ]
        };
        assert_eq!(results, [0; 5], "the thread does not run");
    }
}

impl Drop for Stack {
    fn drop(&mut self) {
        unsafe { dealloc(self.0, Stack::layout()) }
    }
}

extern "C" fn start(argument: *mut c_void) -> *mut c_void {
    // SAFETY: `run` passes this, and waits until the thread has ended.
    let call: &mut &mut dyn FnMut() = unsafe { &mut *argument.cast() };
    // What the thread itself writes, before the call and after it, ends above these
    // bytes, so that the deepest byte is the call's.
    let mut above = [0u8; ABOVE];
    black_box(&mut above);
    call();
    black_box(&mut above);
    null_mut()
}

/// Bytes from the end of the stack to the deepest one that a call writes. What the
/// thread itself needs is among them: of two calls only the difference says something.
pub fn depth(call: &mut dyn FnMut()) -> usize {
    let stack = Stack::new();
    PAINTS.map(|paint| stack.used(paint, call)).into_iter().max().unwrap_or(0)
}
