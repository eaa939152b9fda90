//! The functions of views, as `include/swimtab.h` declares them.

use super::{Buffer, Progress, Written};
use std::ffi::c_void;
use std::ptr;

#[repr(C)]
pub struct View {
    pub at: *mut c_void,
    pub held: bool,
    pub user: *mut c_void,
}

#[repr(C)]
pub struct Told {
    pub status: u32,
    pub event: u32,
}

#[repr(C)]
pub struct ViewData {
    pub since: u64,
    pub state: u32,
    pub inc: u32,
    pub port: u16,
    pub name_len: u16,
    pub meta_len: u16,
    pub by_len: u16,
    pub accusers: u8,
    pub rivals: u8,
    pub addr_len: u8,
    pub vsn_len: u8,
    pub addr: [u8; 16],
    pub vsn: [u8; 6],
    pub meta: [u8; 512],
    pub name: [u8; 1024],
    pub by: [u8; 1024],
    pub reserved: [u8; 32],
}

extern "C" {
    pub fn swimtab_view_open(view: *mut View, wait: u64) -> u32;
    pub fn swimtab_view_close(view: *mut View) -> u32;
    pub fn swimtab_view_take(
        view: *mut View,
        time: u64,
        message: *const u8,
        len: usize,
        member: *mut ViewData,
    ) -> Told;
    pub fn swimtab_view_merge(
        view: *mut View,
        time: u64,
        progress: *mut Progress,
        stream: *const u8,
        len: usize,
        member: *mut ViewData,
    ) -> Told;
    pub fn swimtab_view_forget(view: *mut View, time: u64) -> usize;
    pub fn swimtab_view_count(view: *const View) -> usize;
    pub fn swimtab_view_find(
        view: *const View,
        name: *const u8,
        name_len: usize,
        member: *mut ViewData,
    ) -> u32;
    pub fn swimtab_view_after(
        view: *const View,
        name: *const u8,
        name_len: usize,
        member: *mut ViewData,
    ) -> u32;
    pub fn swimtab_view_accuser(
        view: *const View,
        name: *const u8,
        name_len: usize,
        i: usize,
        out: *mut u8,
        out_len: usize,
    ) -> Written;
    pub fn swimtab_view_offer(
        view: *const View,
        join: bool,
        user: *const u8,
        user_len: usize,
        buffer: *mut Buffer,
    ) -> u32;
}

impl View {
    /// An empty handle.
    pub fn empty() -> View {
        View { at: ptr::null_mut(), held: false, user: ptr::null_mut() }
    }
}

impl ViewData {
    pub fn zeroed() -> ViewData {
        ViewData {
            since: 0,
            state: 0,
            inc: 0,
            port: 0,
            name_len: 0,
            meta_len: 0,
            by_len: 0,
            accusers: 0,
            rivals: 0,
            addr_len: 0,
            vsn_len: 0,
            addr: [0; 16],
            vsn: [0; 6],
            meta: [0; 512],
            name: [0; 1024],
            by: [0; 1024],
            reserved: [0; 32],
        }
    }
}
