//! How deep a call goes: it runs on a stack of our own that was painted
//! before, and the lowest word that lost its paint tells.

use std::alloc::{alloc, dealloc, Layout};
use std::ffi::c_void;
use std::slice;

use crate::cases::{Case, SIZES};
use crate::measure::Node;
use crate::ours::Ours;
use crate::second::Second;

const PAINT: u64 = 0xa5c3_5a3c_96e1_69d2;
const WORDS: usize = 1 << 17;

/// glibc's pthread_attr_t has 56 octets.
type Attributes = [u64; 16];
type Body = extern "C" fn(*mut c_void) -> *mut c_void;

extern "C" {
    fn pthread_attr_init(attributes: *mut Attributes) -> i32;
    fn pthread_attr_setstack(attributes: *mut Attributes, low: *mut c_void, size: usize) -> i32;
    fn pthread_attr_destroy(attributes: *mut Attributes) -> i32;
    fn pthread_create(
        thread: *mut u64,
        attributes: *const Attributes,
        body: Body,
        task: *mut c_void,
    ) -> i32;
    fn pthread_join(thread: u64, result: *mut *mut c_void) -> i32;
}

/// The deepest call of each program with so many rows, in octets.
pub struct Depth {
    pub rows: usize,
    pub ours: usize,
    pub second: usize,
}

pub fn deepest(cases: &[Case]) -> Vec<Depth> {
    let of_size = |rows| {
        let mut deepest = Depth {
            rows,
            ours: 0,
            second: 0,
        };
        for case in cases.iter().filter(|case| case.rows == rows) {
            let (mut ours, mut second) = (Ours::new(case), Second::new(case));
            deepest.ours = deepest.ours.max(depth(&mut || ours.call()));
            deepest.second = deepest.second.max(depth(&mut || second.call()));
        }
        deepest
    };
    SIZES.map(of_size).into()
}

struct Task<'a> {
    call: &'a mut dyn FnMut(),
    /// An address in the frame that makes the call.
    from: usize,
}

extern "C" fn run(task: *mut c_void) -> *mut c_void {
    // SAFETY: `on_stack` hands in a Task that outlives the thread.
    let task = unsafe { &mut *task.cast::<Task>() };
    let mark = 0u64;
    task.from = &raw const mark as usize;
    (task.call)();
    std::ptr::null_mut()
}

/// From the frame that makes the call down to the lowest word written.
fn depth(call: &mut dyn FnMut()) -> usize {
    let layout = Layout::from_size_align(WORDS * 8, 4096).expect("layout");
    let task = &mut Task { call, from: 0 };
    // SAFETY: the stack is ours alone, all of it is written before it is
    // read, and the thread has ended when it is read and given back.
    unsafe {
        let low = alloc(layout);
        assert!(!low.is_null());
        slice::from_raw_parts_mut(low.cast::<u64>(), WORDS).fill(PAINT);
        on_stack(low, task);
        let words = slice::from_raw_parts(low.cast::<u64>(), WORDS);
        let lowest = words.iter().take_while(|&&word| word == PAINT).count();
        dealloc(low, layout);
        task.from - (low as usize + 8 * lowest)
    }
}

/// Runs the task in a thread of that stack, to its end.
///
/// # Safety
///
/// `low` starts `WORDS` words that nobody else uses.
unsafe fn on_stack(low: *mut u8, task: &mut Task) {
    let mut attributes: Attributes = [0; 16];
    let mut thread = 0;
    let task = (&raw mut *task).cast();
    assert_eq!(pthread_attr_init(&mut attributes), 0);
    assert_eq!(
        pthread_attr_setstack(&mut attributes, low.cast(), WORDS * 8),
        0
    );
    assert_eq!(pthread_create(&mut thread, &attributes, run, task), 0);
    assert_eq!(pthread_join(thread, std::ptr::null_mut()), 0);
    assert_eq!(pthread_attr_destroy(&mut attributes), 0);
}
