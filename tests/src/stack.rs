//! How much stack a call uses: it runs on a stack of our own, which is filled at random and looked at afterwards.

use crate::pages::{Element, Pages};
use crate::random::Random;
use std::ffi::{c_int, c_void};
use std::ptr;

/// The stack on which calls are measured; it is more than any call uses.
const BYTES: usize = 4 << 20;

/// Room for `pthread_attr_t`, which has 56 bytes.
#[repr(C, align(16))]
struct Attributes([u8; 64]);

type Entry = extern "C" fn(*mut c_void) -> *mut c_void;

extern "C" {
    fn pthread_attr_init(attributes: *mut Attributes) -> c_int;
    fn pthread_attr_setstack(attributes: *mut Attributes, stack: *mut c_void, bytes: usize) -> c_int;
    fn pthread_create(thread: *mut usize, attributes: *const Attributes, entry: Entry, argument: *mut c_void) -> c_int;
    fn pthread_join(thread: usize, result: *mut *mut c_void) -> c_int;
}

/// The bytes of stack that a call uses, without those that a thread needs for itself.
pub fn used_by(call: impl FnOnce() + Send) -> usize {
    measure(call) - measure(|| ())
}

fn measure<F: FnOnce() + Send>(call: F) -> usize {
    let mut stack = Pages::<u8>::with_room(BYTES);
    u8::fill(&mut Random::new(1), stack.all_mut());
    let before = stack.all().to_vec();
    run_on(&mut stack, call);
    // Stacks grow downwards: all above the lowest byte that has changed was used.
    let unused = stack.all().iter().zip(&before).take_while(|(now, before)| now == before).count();
    before.len() - unused
}

/// Runs a call to its end in a thread with this stack.
fn run_on<F: FnOnce() + Send>(stack: &mut Pages<u8>, call: F) {
    extern "C" fn enter<F: FnOnce()>(argument: *mut c_void) -> *mut c_void {
        // The argument is the call below, which nobody else uses until the thread has ended.
        let call = unsafe { &mut *argument.cast::<Option<F>>() };
        call.take().expect("a call is run once")();
        ptr::null_mut()
    }
    let mut call = Some(call);
    let memory = stack.all_mut();
    let mut attributes = Attributes([0; 64]);
    let mut thread = 0;
    // The stack and the call outlive the thread, since it is waited for here.
    unsafe {
        assert_eq!(pthread_attr_init(&mut attributes), 0);
        assert_eq!(pthread_attr_setstack(&mut attributes, memory.as_mut_ptr().cast(), memory.len()), 0);
        assert_eq!(pthread_create(&mut thread, &attributes, enter::<F>, (&raw mut call).cast()), 0);
        assert_eq!(pthread_join(thread, ptr::null_mut()), 0);
    }
}
