//! How much stack a call takes: it runs on a stack that was painted before, and the deepest word that lost its paint is looked for.
use crate::readers::black_box;
use std::os::raw::{c_int, c_void};

const PAINT: u64 = 0xA5C3_96F0_5A3C_690F;

/// More than any frame of what is measured has: where so many bytes still have their paint, nothing below them was written.
const FRAME: usize = 1 << 13;

/// Words enough for a `pthread_attr_t`.
type Attributes = [u64; 16];
type Body = extern "C" fn(*mut c_void) -> *mut c_void;

extern "C" {
    fn pthread_attr_init(attributes: *mut Attributes) -> c_int;
    fn pthread_attr_setstack(attributes: *mut Attributes, stack: *mut c_void, bytes: usize) -> c_int;
    fn pthread_attr_destroy(attributes: *mut Attributes) -> c_int;
    fn pthread_create(thread: *mut usize, attributes: *const Attributes, body: Body, argument: *mut c_void) -> c_int;
    fn pthread_join(thread: usize, answer: *mut *mut c_void) -> c_int;
}

/// Measures calls on the painted stack that it stands on itself.
pub struct Meter {
    /// The deepest address that any call came to.
    deepest: usize,
}

struct Task<'a> {
    work: &'a mut dyn FnMut(&mut Meter),
    meter: Meter,
}

extern "C" fn begin(task: *mut c_void) -> *mut c_void {
    let task = unsafe { &mut *task.cast::<Task>() };
    (task.work)(&mut task.meter);
    std::ptr::null_mut()
}

/// Works on a painted stack of so many bytes.
pub fn on_painted_stack(bytes: usize, work: &mut dyn FnMut(&mut Meter)) {
    let mut stack = vec![PAINT; bytes / 8];
    let mut task = Task { work, meter: Meter { deepest: usize::MAX } };
    let mut attributes = [0; 16];
    let mut thread = 0;
    let done = |code: c_int| assert_eq!(code, 0, "no thread on a stack of its own");
    unsafe {
        done(pthread_attr_init(&mut attributes));
        done(pthread_attr_setstack(&mut attributes, stack.as_mut_ptr().cast(), bytes));
        done(pthread_create(&mut thread, &attributes, begin, (&mut task as *mut Task).cast()));
        done(pthread_join(thread, std::ptr::null_mut()));
        done(pthread_attr_destroy(&mut attributes));
    }
    let untouched = task.meter.deepest.saturating_sub(stack.as_ptr() as usize) / 8;
    assert!(untouched > FRAME / 8, "the end of the stack was reached");
    assert!(stack[..untouched.min(stack.len())].iter().all(|word| *word == PAINT), "a call went deeper than was seen");
}

/// Where the stack ends now.
#[inline(always)]
fn stack_pointer() -> usize {
    let pointer;
    unsafe { std::arch::asm!("mov {}, rsp", out(reg) pointer, options(nomem, nostack, preserves_flags)) };
    pointer
}

/// Paints anew what lost its paint below an address, and gives the deepest of it.
#[inline(always)]
fn paint_below(here: usize) -> usize {
    let (mut at, mut deepest) = (here, here);
    while deepest - at < FRAME {
        at -= 8;
        let word = at as *mut u64;
        if unsafe { word.read_volatile() } != PAINT {
            unsafe { word.write_volatile(PAINT) };
            deepest = at;
        }
    }
    deepest
}

impl Meter {
    /// How many bytes below this frame a call comes to. The frame itself calls nothing else, so as to leave no trace of its own.
    #[inline(never)]
    pub fn used(&mut self, call: &mut dyn FnMut()) -> usize {
        let here = stack_pointer();
        let before = paint_below(here);
        call();
        let deepest = paint_below(here);
        self.deepest = self.deepest.min(before).min(deepest);
        black_box(here - deepest)
    }
}
