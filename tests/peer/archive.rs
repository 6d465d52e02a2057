//! The C calls of the archive, as include/hullerbamboo.h declares them.

use std::mem::size_of;

#[repr(C)]
pub struct HcHead {
    pub code: u32,
    pub word: u32,
    pub position: u64,
    pub mark: u64,
}

#[repr(C)]
#[derive(Clone, Copy)]
pub struct HcLength {
    pub refusal: u64,
    pub length: usize,
}

#[repr(C)]
#[derive(Clone, Copy)]
pub struct HcWords {
    pub refusal: u64,
    pub key: [u32; 8],
    pub iv: [u32; 8],
}

#[repr(C)]
#[derive(Clone, Copy)]
pub struct HcCount {
    pub refusal: u64,
    pub count: u64,
}

#[repr(C)]
#[derive(Clone, Copy)]
pub struct HcYesOrNo {
    pub refusal: u64,
    pub yes: u64,
}

#[repr(C)]
#[derive(Clone, Copy)]
pub struct HcRates {
    pub cents: [u16; 8],
}

#[repr(C)]
#[derive(Clone, Copy)]
pub struct HcDuty {
    pub refusal: u64,
    pub cents: u64,
}

#[repr(C)]
#[derive(Clone, Copy)]
pub struct HcSoundness {
    pub answer: u64,
    pub length: usize,
}

#[repr(C)]
#[derive(Clone, Copy)]
pub struct HcPart {
    pub recording: u64,
    pub from: usize,
    pub length: usize,
}

// Each structure is as long as its fields together, so it has no padding.
const _: () = assert!(size_of::<HcHead>() == 4 + 4 + 8 + 8);
const _: () = assert!(size_of::<HcLength>() == 8 + 8);
const _: () = assert!(size_of::<HcWords>() == 8 + 8 * 4 + 8 * 4);
const _: () = assert!(size_of::<HcCount>() == 8 + 8);
const _: () = assert!(size_of::<HcYesOrNo>() == 8 + 8);
const _: () = assert!(size_of::<HcRates>() == 8 * 2);
const _: () = assert!(size_of::<HcDuty>() == 8 + 8);
const _: () = assert!(size_of::<HcSoundness>() == 8 + 8);
const _: () = assert!(size_of::<HcPart>() == 8 + 8 + 8);

extern "C" {
    pub fn hc_set_up(
        head: *mut HcHead,
        code: u32,
        key: *const u8,
        key_bytes: usize,
        iv: *const u8,
        iv_bytes: usize,
        area: *mut u32,
        area_words: usize,
    ) -> u64;
    pub fn hc_cipher(head: *mut HcHead, area: *mut u32, area_words: usize, bytes: *mut u8, byte_count: usize) -> u64;
    pub fn hc_move(head: *mut HcHead, area: *mut u32, area_words: usize, distance: i64) -> u64;
    pub fn hc_checkpoint_length(code: u32, position: u64) -> HcLength;
    pub fn hc_write(head: *mut HcHead, area: *const u32, area_words: usize, lent: *mut u8, lent_bytes: usize) -> HcLength;
    pub fn hc_recover(
        head: *mut HcHead,
        area: *const u32,
        area_words: usize,
        key: *mut u8,
        key_bytes: usize,
        iv: *mut u8,
        iv_bytes: usize,
    ) -> u64;
    pub fn hc_load(head: *mut HcHead, area: *mut u32, area_words: usize, string: *const u8, string_bytes: usize) -> HcWords;
    pub fn hc_same_run(first: *const u8, first_bytes: usize, second: *const u8, second_bytes: usize) -> HcYesOrNo;
    pub fn hc_test_load(
        head: *mut HcHead,
        seed: u32,
        count: u64,
        code: u32,
        key: *const u8,
        key_bytes: usize,
        iv: *const u8,
        iv_bytes: usize,
        area: *mut u32,
        area_words: usize,
    ) -> u64;
    pub fn hc_spent(head: *mut HcHead) -> HcCount;
    pub fn hc_write_volume(entries: *const u32, numbers: usize, lent: *mut u8, lent_bytes: usize) -> HcLength;
    pub fn hc_read_volume(volume: *const u8, volume_bytes: usize, entries: *mut u32, numbers: usize) -> HcCount;
    pub fn hc_encipher_volume(head: *mut HcHead, area: *mut u32, area_words: usize, volume: *mut u8, volume_bytes: usize) -> u64;
    pub fn hc_our_rates() -> HcRates;
    pub fn hc_load_rates(rates: *mut HcRates, string: *const u8, string_bytes: usize) -> u64;
    pub fn hc_volume_duty(rates: *const HcRates, volume: *const u8, volume_bytes: usize) -> HcDuty;
    pub fn hc_volume_soundness(volume: *const u8, volume_bytes: usize) -> HcSoundness;
    pub fn hc_check_recordings(blender: *const u8, blender_bytes: usize, gauge: *const u8, gauge_bytes: usize) -> u64;
    pub fn hc_compare_recordings(blender: *const u8, blender_bytes: usize, gauge: *const u8, gauge_bytes: usize) -> HcPart;
}
