//! Refuses one allocation of the program that this library is preloaded into: the one whose number, from 1
//! on, the variable FAIL_ALLOC tells. It then writes the line `refused` to standard error.
#![no_std]
use core::ffi::{c_char, c_int, c_void};
use core::ptr::null_mut;
use core::sync::atomic::{AtomicU64, Ordering};

extern "C" {
    fn __libc_malloc(size: usize) -> *mut c_void;
    fn __libc_realloc(block: *mut c_void, size: usize) -> *mut c_void;
    fn getenv(name: *const c_char) -> *const c_char;
    fn write(file: c_int, bytes: *const u8, count: usize) -> isize;
}

static CALLS: AtomicU64 = AtomicU64::new(0);

/// The number that the variable tells: 0 where there is none, so that nothing is refused.
fn wanted() -> u64 {
    let mut number = 0u64;
    unsafe {
        let mut at = getenv(c"FAIL_ALLOC".as_ptr());
        while !at.is_null() && *at != 0 {
            number = number.wrapping_mul(10).wrapping_add((*at as u8).wrapping_sub(b'0').into());
            at = at.add(1);
        }
    }
    number
}

fn is_refused() -> bool {
    let is_wanted = CALLS.fetch_add(1, Ordering::SeqCst) + 1 == wanted();
    if is_wanted {
        unsafe { write(2, b"refused\n".as_ptr(), 8) };
    }
    is_wanted
}

#[no_mangle]
pub extern "C" fn malloc(size: usize) -> *mut c_void {
    if is_refused() {
        return null_mut();
    }
    unsafe { __libc_malloc(size) }
}

#[no_mangle]
pub extern "C" fn realloc(block: *mut c_void, size: usize) -> *mut c_void {
    if is_refused() {
        return null_mut();
    }
    unsafe { __libc_realloc(block, size) }
}

#[panic_handler]
fn panic(_: &core::panic::PanicInfo) -> ! {
    loop {}
}
