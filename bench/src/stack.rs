//! How deep a call goes: it runs in a thread whose stack was painted before.

use std::alloc::{alloc, dealloc, Layout};
use std::ffi::{c_int, c_ulong, c_void};
use std::ptr::{null_mut, read_volatile};

const STACK_BYTES: usize = 1 << 20;
const PAINT: u8 = 0xA5;

/// Room enough for the attributes of a thread on any platform.
type Attributes = [u64; 32];
type Entry = extern "C" fn(*mut c_void) -> *mut c_void;

extern "C" {
    fn pthread_attr_init(attributes: *mut Attributes) -> c_int;
    fn pthread_attr_setstack(attributes: *mut Attributes, low: *mut c_void, size: usize) -> c_int;
    fn pthread_attr_destroy(attributes: *mut Attributes) -> c_int;
    fn pthread_create(
        thread: *mut c_ulong,
        attributes: *const Attributes,
        entry: Entry,
        argument: *mut c_void,
    ) -> c_int;
    fn pthread_join(thread: c_ulong, result: *mut *mut c_void) -> c_int;
}

/// What the thread is told, and what it tells.
struct Probe<'a> {
    call: &'a mut dyn FnMut(),
    low: *const u8,
    depth: usize,
}

/// The bytes of stack that the call writes, counted from its caller's frame.
pub fn used(mut call: impl FnMut()) -> usize {
    let layout = Layout::from_size_align(STACK_BYTES, 4096).expect("a layout");
    // SAFETY: the layout is not of size 0.
    let low = unsafe { alloc(layout) };
    assert!(!low.is_null(), "no memory for a stack");
    // SAFETY: the stack was just allocated with that size.
    unsafe { low.write_bytes(PAINT, STACK_BYTES) };
    let mut probe = Probe {
        call: &mut call,
        low,
        depth: 0,
    };
    run(&mut probe, low);
    // SAFETY: it was allocated with this layout, and its thread has ended.
    unsafe { dealloc(low, layout) };
    probe.depth
}

/// Runs the probe in a thread on the stack and waits for its end.
fn run(probe: &mut Probe, low: *mut u8) {
    let mut attributes = [0; 32];
    let mut thread = 0;
    // SAFETY: the attributes are initialised before use; stack and probe outlive
    // the thread, which is joined here.
    unsafe {
        assert_eq!(pthread_attr_init(&mut attributes), 0);
        let set = pthread_attr_setstack(&mut attributes, low.cast(), STACK_BYTES);
        assert_eq!(set, 0, "no stack of its own");
        let argument = (probe as *mut Probe).cast();
        assert_eq!(pthread_create(&mut thread, &attributes, enter, argument), 0);
        assert_eq!(pthread_join(thread, null_mut()), 0);
        pthread_attr_destroy(&mut attributes);
    }
}

/// Makes the call, then looks for the lowest byte that is not paint any more.
extern "C" fn enter(argument: *mut c_void) -> *mut c_void {
    // SAFETY: the argument is the probe, which nobody else uses meanwhile.
    let probe = unsafe { &mut *argument.cast::<Probe>() };
    let frame = 0u8;
    (probe.call)();
    let here = &raw const frame as usize;
    let mut lowest = probe.low;
    // SAFETY: from the low end up to this frame the stack is readable.
    while (lowest as usize) < here && unsafe { read_volatile(lowest) } == PAINT {
        lowest = lowest.wrapping_add(1);
    }
    probe.depth = here - lowest as usize;
    null_mut()
}
