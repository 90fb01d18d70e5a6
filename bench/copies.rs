//! Stands before the C library, and counts the bytes that a program copies and fills by memcpy, memmove and memset. Where the program
//! ends it prints both counts to standard error.
use std::arch::asm;
use std::ffi::c_void;
use std::sync::atomic::{AtomicU64, Ordering::Relaxed};

static COPIED: AtomicU64 = AtomicU64::new(0);
static FILLED: AtomicU64 = AtomicU64::new(0);

#[no_mangle]
pub unsafe extern "C" fn memcpy(to: *mut c_void, from: *const c_void, count: usize) -> *mut c_void {
    COPIED.fetch_add(count as u64, Relaxed);
    asm!("rep movsb", inout("rcx") count => _, inout("rdi") to => _, inout("rsi") from => _);
    to
}

#[no_mangle]
pub unsafe extern "C" fn memmove(to: *mut c_void, from: *const c_void, count: usize) -> *mut c_void {
    // Where the bytes begin inside those that they are copied from, the last goes first.
    if (to as usize).wrapping_sub(from as usize) >= count {
        return memcpy(to, from, count);
    }
    COPIED.fetch_add(count as u64, Relaxed);
    let (last_to, last_from) = ((to as usize + count).wrapping_sub(1), (from as usize + count).wrapping_sub(1));
    asm!("std", "rep movsb", "cld", inout("rcx") count => _, inout("rdi") last_to => _, inout("rsi") last_from => _);
    to
}

#[no_mangle]
pub unsafe extern "C" fn memset(to: *mut c_void, byte: i32, count: usize) -> *mut c_void {
    FILLED.fetch_add(count as u64, Relaxed);
    asm!("rep stosb", inout("rcx") count => _, inout("rdi") to => _, in("al") byte as u8);
    to
}

/// Ends the process, as a program of ours does at its end.
#[no_mangle]
pub unsafe extern "C" fn _exit(status: i32) -> ! {
    eprintln!("{} {}", COPIED.load(Relaxed), FILLED.load(Relaxed));
    asm!("syscall", in("rax") 231, in("rdi") status, options(noreturn));
}
