// SPDX-License-Identifier: Apache-2.0
//! What bench/copies links in: memcpy and memmove that add up the bytes they copy, and print the
//! sum when the program ends.
#![no_std]

use core::{
    ffi::{c_char, c_int, c_void},
    sync::atomic::{AtomicUsize, Ordering::Relaxed},
};

static BYTES: AtomicUsize = AtomicUsize::new(0);

unsafe extern "C" {
    fn __real_memcpy(to: *mut c_void, from: *const c_void, n: usize) -> *mut c_void;
    fn __real_memmove(to: *mut c_void, from: *const c_void, n: usize) -> *mut c_void;
    fn dprintf(file: c_int, format: *const c_char, ...) -> c_int;
}

#[unsafe(no_mangle)]
unsafe extern "C" fn __wrap_memcpy(to: *mut c_void, from: *const c_void, n: usize) -> *mut c_void {
    BYTES.fetch_add(n, Relaxed);
    unsafe { __real_memcpy(to, from, n) }
}

#[unsafe(no_mangle)]
unsafe extern "C" fn __wrap_memmove(to: *mut c_void, from: *const c_void, n: usize) -> *mut c_void {
    BYTES.fetch_add(n, Relaxed);
    unsafe { __real_memmove(to, from, n) }
}

extern "C" fn print() {
    unsafe { dprintf(2, c"%zu\n".as_ptr(), BYTES.load(Relaxed)) };
}

#[used]
#[unsafe(link_section = ".fini_array")]
static AT_THE_END: extern "C" fn() = print;
