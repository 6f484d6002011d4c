//! How much stack a call uses, by painting.
//!
//! The call runs on a thread whose stack is memory of ours. All of it is painted before with words
//! that depend on their place; afterwards the lowest word that lost its paint tells how deep the
//! call went. The depth is counted from a variable in the frame that makes the call, so that the
//! frames of the wrappers between it and the C function count too: the figure is rather too large.
//! A frame may reserve bytes that it never writes; compilers touch every page of a large frame, so
//! less than one page can be missed at the deepest point, and `PAGE` is added for it.
//! The threads are made by the POSIX calls, as the standard library takes no stack from outside.

use std::alloc::{alloc, dealloc, handle_alloc_error, Layout};
use std::ffi::{c_int, c_void};
use std::hint::black_box;
use std::ptr::{null_mut, NonNull};

const STACK_BYTES: usize = 16 << 20;
const PAGE: usize = 4096;
const WORD: usize = 8;

/// Room for the thread attributes of any common C library; theirs are at most 64 bytes.
#[repr(C, align(16))]
struct Attributes([u8; 256]);

type Start = extern "C" fn(*mut c_void) -> *mut c_void;

extern "C" {
    fn pthread_attr_init(attributes: *mut Attributes) -> c_int;
    fn pthread_attr_setstack(attributes: *mut Attributes, low: *mut c_void, bytes: usize) -> c_int;
    fn pthread_attr_destroy(attributes: *mut Attributes) -> c_int;
    fn pthread_create(
        thread: *mut usize,
        attributes: *const Attributes,
        start: Start,
        job: *mut c_void,
    ) -> c_int;
    fn pthread_join(thread: usize, result: *mut *mut c_void) -> c_int;
}

/// The memory that is the stack of one thread.
struct Stack {
    low: NonNull<u64>,
}

impl Stack {
    fn layout() -> Layout {
        Layout::from_size_align(STACK_BYTES, PAGE).expect("a size and alignment that exist")
    }

    fn painted() -> Stack {
        let memory = unsafe { alloc(Stack::layout()) }.cast::<u64>();
        let low = NonNull::new(memory).unwrap_or_else(|| handle_alloc_error(Stack::layout()));
        for place in 0..STACK_BYTES / WORD {
            // In bounds, and nothing else uses the memory yet.
            unsafe { low.add(place).write_volatile(paint(place)) };
        }
        Stack { low }
    }

    /// The lowest address whose paint is gone. Only for a stack whose thread has ended.
    fn lowest_used(&self) -> usize {
        let intact = |place: &usize| unsafe { self.low.add(*place).read_volatile() } == paint(*place);
        let painted = (0..STACK_BYTES / WORD).take_while(intact).count();
        assert!(painted > 0, "the call used the whole stack of {STACK_BYTES} bytes");
        self.low.as_ptr() as usize + painted * WORD
    }
}

impl Drop for Stack {
    fn drop(&mut self) {
        unsafe { dealloc(self.low.as_ptr().cast(), Stack::layout()) };
    }
}

/// A word that no call leaves by chance.
fn paint(place: usize) -> u64 {
    (place as u64 + 1).wrapping_mul(0x9E37_79B9_7F4A_7C15)
}

/// What the thread does, and where its stack stood just before.
struct Job<'j> {
    call: &'j mut dyn FnMut(),
    top: usize,
}

extern "C" fn run(job: *mut c_void) -> *mut c_void {
    let job = unsafe { &mut *job.cast::<Job>() };
    let here = 0u64;
    job.top = black_box(&here) as *const u64 as usize;
    (job.call)();
    null_mut()
}

/// The bytes of stack that the call used at most, with a page for what it may have reserved only.
pub fn peak(call: &mut dyn FnMut()) -> usize {
    // Once before, so that nothing that happens on a first call alone is counted.
    call();
    let stack = Stack::painted();
    let mut job = Job { call, top: 0 };
    run_on(&stack, &mut job);
    let depth = job.top - stack.lowest_used();
    depth + PAGE
}

fn run_on(stack: &Stack, job: &mut Job) {
    let mut attributes = Attributes([0; 256]);
    let mut thread = 0;
    // The job and the stack outlive the thread, which is joined here.
    let answers = unsafe {
        [
            pthread_attr_init(&mut attributes),
            pthread_attr_setstack(&mut attributes, stack.low.as_ptr().cast(), STACK_BYTES),
            pthread_create(&mut thread, &attributes, run, (job as *mut Job).cast()),
            pthread_join(thread, null_mut()),
            pthread_attr_destroy(&mut attributes),
        ]
    };
    assert_eq!(answers, [0; 5], "a thread on a stack of our own");
}
