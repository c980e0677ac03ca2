// The stack that a call takes: it runs on a thread whose stack was painted before, and the paint left is measured.

use std::ffi::{c_int, c_void};
use std::ptr;

use crate::Program;

const PAINT: u8 = 0xa5;
const SIZE: usize = 4 << 20;
const PAGE: usize = 4096;

/// Room for the attributes of a thread, more than any C library asks for.
type Attributes = [u64; 32];

extern "C" {
    fn pthread_attr_init(attributes: *mut Attributes) -> c_int;
    fn pthread_attr_setstack(attributes: *mut Attributes, stack: *mut c_void, size: usize) -> c_int;
    fn pthread_attr_destroy(attributes: *mut Attributes) -> c_int;
    fn pthread_create(
        thread: *mut usize,
        attributes: *const Attributes,
        start: extern "C" fn(*mut c_void) -> *mut c_void,
        argument: *mut c_void,
    ) -> c_int;
    fn pthread_join(thread: usize, result: *mut *mut c_void) -> c_int;
}

/// A program, its book and its room, and the number it returned.
struct Call<'c> {
    program: Program,
    book: &'c [u8],
    room: &'c mut [u8],
    number: u32,
}

extern "C" fn start(argument: *mut c_void) -> *mut c_void {
    // The argument is the call that `used` lends until the thread has ended.
    let call = unsafe { &mut *argument.cast::<Call>() };
    call.number = (call.program)(call.book, call.room);
    ptr::null_mut()
}

/// The program's number, and the bytes of stack that the thread touched, from the top to the lowest one.
pub fn used(program: Program, book: &[u8], room: &mut [u8]) -> (u32, usize) {
    let mut memory = vec![PAINT; SIZE + PAGE];
    let aligned = memory.as_ptr().align_offset(PAGE);
    let stack = &mut memory[aligned..aligned + SIZE];
    let mut call = Call { program, book, room, number: 0 };
    let mut attributes: Attributes = [0; 32];
    let mut thread = 0;
    // The stack and the call outlive the thread, which is joined before they are looked at again.
    unsafe {
        assert_eq!(pthread_attr_init(&mut attributes), 0);
        assert_eq!(pthread_attr_setstack(&mut attributes, stack.as_mut_ptr().cast(), SIZE), 0);
        assert_eq!(pthread_create(&mut thread, &attributes, start, ptr::from_mut(&mut call).cast()), 0);
        assert_eq!(pthread_join(thread, ptr::null_mut()), 0);
        assert_eq!(pthread_attr_destroy(&mut attributes), 0);
    }
    let untouched = memory[aligned..].iter().take_while(|&&byte| byte == PAINT).count();
    (call.number, SIZE - untouched)
}
