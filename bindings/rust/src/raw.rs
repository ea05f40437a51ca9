//! The functions of the library, as `include/wrewrite.h` declares them.

use crate::{Error, ErrorKind, Options, Warnings};

pub const DONE: u32 = 0;
pub const REFUSED: u32 = 1;
pub const NO_FUNCTION: u32 = 2;
pub const TOO_SMALL: u32 = 3;
const BAD_OPTIONS: u32 = 5;

const STALE_SOURCE_MAP: u32 = 1;
const STALE_DEBUG_INFO: u32 = 2;
const STALE_NAMES: u32 = 4;

/// The place and the index of a function, where there is none.
const NONE: usize = usize::MAX;

/// How a call of the library ended.
#[repr(C)]
pub struct Outcome {
    pub status: u32,
    warnings: u32,
    place: usize,
    function: usize,
    pub module_size: usize,
    pub map_size: usize,
    text: [u8; 120],
}

unsafe extern "C" {
    pub fn wrewrite_version() -> u32;

    pub fn wrewrite_raw_rewrite(
        source: *const u8,
        source_size: usize,
        options: *const u32,
        option_count: usize,
        out: *mut u8,
        out_size: usize,
        map: *mut u8,
        map_size: usize,
    ) -> Outcome;

    pub fn wrewrite_raw_snip(
        source: *const u8,
        source_size: usize,
        functions: *const usize,
        function_count: usize,
        options: *const u32,
        option_count: usize,
        out: *mut u8,
        out_size: usize,
        map: *mut u8,
        map_size: usize,
    ) -> Outcome;

    pub fn wrewrite_raw_check(source: *const u8, source_size: usize, first: usize) -> Outcome;

    pub fn wrewrite_raw_validate(source: *const u8, source_size: usize) -> Outcome;

    pub fn wrewrite_raw_find(source: *const u8, source_size: usize, name: *const u8, name_size: usize) -> Outcome;
}

/// The words of a `struct wrewrite_options`, of which the first is their size in bytes.
pub fn words_of(options: Options) -> [u32; 4] {
    [16, options.has_map.into(), options.strips_debug.into(), options.strips_all.into()]
}

fn known(number: usize) -> Option<usize> {
    (number != NONE).then_some(number)
}

impl Outcome {
    pub fn function(&self) -> Option<usize> {
        known(self.function)
    }

    pub fn warnings(&self) -> Warnings {
        Warnings {
            source_map: self.warnings & STALE_SOURCE_MAP != 0,
            debug_info: self.warnings & STALE_DEBUG_INFO != 0,
            names: self.warnings & STALE_NAMES != 0,
        }
    }

    pub fn into_error(self) -> Error {
        let end = self.text.iter().position(|byte| *byte == 0).unwrap_or(self.text.len());
        Error {
            kind: match self.status {
                REFUSED => ErrorKind::Refused,
                NO_FUNCTION => ErrorKind::NoFunction,
                BAD_OPTIONS => ErrorKind::BadOptions,
                _ => ErrorKind::NoMemory,
            },
            place: known(self.place),
            function: known(self.function),
            text: String::from_utf8_lossy(&self.text[..end]).into_owned(),
        }
    }
}
