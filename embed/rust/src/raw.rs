//! The library's functions, with the types of dsp_engine.h. References are never null.

use crate::answers::Answer;
use crate::device::{Device, Section};
use std::ffi::{c_char, c_void};

/// struct dsp_engine
#[repr(C)]
pub struct Handle {
    pub there: bool,
    pub at: *mut c_void,
}

/// DSP_NO_ENGINE
pub const NO_ENGINE: Handle = Handle { there: false, at: std::ptr::null_mut() };

/// struct dsp_filter
#[repr(C)]
pub struct FilterNumbers {
    pub src: u32,
    pub dst: u32,
    pub phases: u32,
    pub taps: u32,
    pub shift: u32,
    pub first: u32,
}

/// struct dsp_settings
#[repr(C)]
#[derive(Default)]
pub struct SettingsNumbers {
    pub way: u32,
    pub slot: u32,
    pub format: u32,
    pub channels: u32,
    pub rate: u32,
    pub fragments: u32,
    pub fragment_bytes: u32,
    pub trigger: u32,
    pub volume: u32,
    pub group: u32,
    pub state: u32,
}

/// struct dsp_slot
#[repr(C)]
#[derive(Default)]
pub struct SlotNumbers {
    pub state: u32,
    pub frames: u64,
}

extern "C" {
    pub fn dsp_engine_new(
        engine: &mut Handle,
        device: &Device,
        filters: *const FilterNumbers,
        filter_count: usize,
        coefs: *const i32,
        coef_count: usize,
        sections: *const Section,
        section_count: usize,
    ) -> i32;
    pub fn dsp_engine_free(engine: &mut Handle);
    pub fn dsp_engine_clone(engine: &mut Handle, clone: &mut Handle) -> i32;
    pub fn dsp_engine_state_size(engine: &mut Handle) -> i64;
    pub fn dsp_engine_save(engine: &mut Handle, state: *mut u8, room: usize) -> i64;
    pub fn dsp_engine_load(engine: &mut Handle, state: *const u8, size: usize) -> i32;
    pub fn dsp_engine_open(engine: &mut Handle, fd: u32, way: u32, format: u32, channels: u32, rate: u32) -> i32;
    pub fn dsp_engine_write(engine: &mut Handle, fd: u32, bytes: *const u8, length: usize) -> i32;
    pub fn dsp_engine_poke(engine: &mut Handle, fd: u32, offset: u32, bytes: *const u8, length: usize) -> i32;
    pub fn dsp_engine_read(engine: &mut Handle, fd: u32, bytes: *mut u8, length: usize) -> i32;
    pub fn dsp_engine_ioctl(engine: &mut Handle, fd: u32, request: u32, argument: u32, answer: &mut Answer) -> i32;
    pub fn dsp_engine_join(engine: &mut Handle, fd: u32, group: u32, answer: &mut Answer) -> i32;
    pub fn dsp_engine_start(engine: &mut Handle, fd: u32, group: u32) -> i32;
    pub fn dsp_engine_close(engine: &mut Handle, fd: u32) -> i32;
    pub fn dsp_engine_mixer(engine: &mut Handle, request: u32, slot: u32, value: u32, answer: &mut Answer) -> i32;
    pub fn dsp_engine_interrupt(
        engine: &mut Handle,
        frames: u32,
        samples: *const i32,
        sample_count: usize,
        out: *mut u8,
        room: usize,
    ) -> i32;
    pub fn dsp_engine_frames_left(engine: &mut Handle) -> u64;
    pub fn dsp_engine_settings(engine: &mut Handle, fd: u32, settings: &mut SettingsNumbers) -> i32;
    pub fn dsp_engine_peek(engine: &mut Handle, fd: u32, request: u32, argument: u32, answer: &mut Answer) -> i32;
    pub fn dsp_engine_slot(engine: &mut Handle, way: u32, number: u32, slot: &mut SlotNumbers) -> i32;
    pub fn dsp_engine_is_idle(engine: &mut Handle) -> i32;
    pub fn dsp_engine_ready(engine: &mut Handle, writable: &mut u64, readable: &mut u64) -> i32;
    pub fn dsp_engine_frames_until(engine: &mut Handle, fd: u32, bytes: u32) -> i64;
    pub fn dsp_engine_version() -> u32;
    pub fn dsp_engine_error(answer: i32) -> *const c_char;
    pub fn dsp_engine_errno(answer: i32) -> i32;
}
