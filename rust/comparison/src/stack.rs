//! The stack that calls of the linked engine take.

use std::cell::Cell;
use std::ffi::{c_int, c_void};
use std::ptr;

use reference::request::{AnswerArray, Engine, Request, Written};

use crate::Linked;

/// The linked engine, which runs each call on a stack that was filled before, and keeps the most bytes that a call took.
#[derive(Default)]
pub struct LinkedOnStack {
    most: Cell<usize>,
}

impl LinkedOnStack {
    pub fn most(&self) -> usize {
        self.most.get()
    }
}

impl Engine for LinkedOnStack {
    fn answer(&self, request: &Request, written: &mut Written) -> AnswerArray {
        let (answer, bytes) = on_filled_stack(|| Linked.answer(request, written));
        self.most.set(self.most.get().max(bytes));
        answer
    }
}

const STACK: usize = 256 * 1024;
const FILLED: u8 = 0xA5;

/// A stack is aligned as pages are.
#[repr(C, align(4096))]
struct Page([u8; 4096]);

/// Room for a `pthread_attr_t`, which has 56 bytes on x86-64.
#[repr(C, align(16))]
struct Attributes([u8; 128]);

extern "C" {
    fn pthread_attr_init(attributes: *mut Attributes) -> c_int;
    fn pthread_attr_setstack(attributes: *mut Attributes, stack: *mut c_void, size: usize)
        -> c_int;
    fn pthread_attr_destroy(attributes: *mut Attributes) -> c_int;
    fn pthread_create(
        thread: *mut usize,
        attributes: *const Attributes,
        start: extern "C" fn(*mut c_void) -> *mut c_void,
        argument: *mut c_void,
    ) -> c_int;
    fn pthread_join(thread: usize, result: *mut *mut c_void) -> c_int;
}

struct Work<F> {
    operate: Option<F>,
    answer: AnswerArray,
    /// Where the stack of the call begins.
    top: usize,
}

/// Does the work in a thread, and gives the bytes between its start and the lowest byte of the stack that was written.
fn on_filled_stack<F: FnOnce() -> AnswerArray>(operate: F) -> (AnswerArray, usize) {
    let mut stack: Vec<Page> = Vec::new();
    stack.resize_with(STACK / size_of::<Page>(), || Page([FILLED; 4096]));
    let mut work = Work {
        operate: Some(operate),
        answer: [0; 8],
        top: 0,
    };
    let mut attributes = Attributes([0; 128]);
    let mut thread = 0;
    // The stack and the work live until the thread is joined, and nobody else uses them before.
    unsafe {
        let set = pthread_attr_init(&mut attributes)
            | pthread_attr_setstack(&mut attributes, stack.as_mut_ptr().cast(), STACK);
        assert_eq!(set, 0, "a stack that a thread can have");
        let argument = (&raw mut work).cast();
        let started = pthread_create(&mut thread, &attributes, start::<F>, argument);
        assert_eq!(started, 0, "a thread");
        assert_eq!(pthread_join(thread, ptr::null_mut()), 0, "its end");
        pthread_attr_destroy(&mut attributes);
    }
    let lowest = stack
        .iter()
        .find_map(|page| {
            let written = page.0.iter().find(|&&byte| byte != FILLED)?;
            Some(written as *const u8 as usize)
        })
        .expect("the thread has written to its stack");
    (work.answer, work.top - lowest)
}

extern "C" fn start<F: FnOnce() -> AnswerArray>(work: *mut c_void) -> *mut c_void {
    // `on_filled_stack` has given a pointer to its work, and waits.
    let work = unsafe { &mut *work.cast::<Work<F>>() };
    let here = 0_u8;
    work.top = &raw const here as usize;
    if let Some(operate) = work.operate.take() {
        work.answer = operate();
    }
    ptr::null_mut()
}
