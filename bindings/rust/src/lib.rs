//! Rewrites, snips, checks and validates WebAssembly modules, by the static library `wrewrite_c`, whose functions are proved to meet their
//! contracts. This crate only lends it bytes: that its declarations fit those of the library is not proved.
//!
//! ```
//! // a function that is `nop`, `i32.const 7`, `drop`
//! let module = b"\0asm\x01\0\0\0\x01\x04\x01\x60\0\0\x03\x02\x01\0\x0a\x08\x01\x06\0\x01\x41\x07\x1a\x0b";
//! let made = wrewrite::rewrite(module, wrewrite::Options::default())?;
//! assert_eq!(made.module.len(), module.len() - 1);
//! # Ok::<(), wrewrite::Error>(())
//! ```

mod faults;
mod raw;
mod snip;

use raw::Outcome;
use std::fmt;

pub use faults::{check, validate, Faults};
pub use snip::{find, Snip};

/// What is wanted. Each option is off by default.
///
/// ```
/// let options = wrewrite::Options::default().strip_debug().with_map();
/// assert!(options.strips_debug && options.has_map && !options.strips_all);
/// ```
#[derive(Clone, Copy, Debug, Default, PartialEq, Eq)]
#[non_exhaustive]
pub struct Options {
    /// The location map is wanted.
    pub has_map: bool,
    /// Leave out the custom sections `sourceMappingURL` and `external_debug_info`, and those whose names begin with `.debug_`.
    pub strips_debug: bool,
    /// Leave out all custom sections, also the names of functions.
    pub strips_all: bool,
}

impl Options {
    /// The location map is wanted.
    #[must_use]
    pub fn with_map(self) -> Self {
        Options { has_map: true, ..self }
    }

    /// Debug information is left out.
    #[must_use]
    pub fn strip_debug(self) -> Self {
        Options { strips_debug: true, ..self }
    }

    /// All custom sections are left out.
    #[must_use]
    pub fn strip_all(self) -> Self {
        Options { strips_all: true, ..self }
    }
}

/// What may no longer be true in a module that is made, since its code has changed.
#[derive(Clone, Copy, Debug, Default, PartialEq, Eq)]
#[non_exhaustive]
pub struct Warnings {
    /// The place of its source map, which has places of the source.
    pub source_map: bool,
    /// Its debug information, which has places of the source.
    pub debug_info: bool,
    /// Names of locals or labels, or metadata of code, in a section that can't be read and is carried over as it is.
    pub names: bool,
}

/// What is made of a module.
#[derive(Clone, Debug, PartialEq, Eq)]
#[non_exhaustive]
pub struct Made {
    /// The module.
    pub module: Vec<u8>,
    /// Its location map, if it is wanted: a line for each operator that is one of the source, with its old and its new offset from the
    /// start of the module, in hexadecimal.
    pub map: Option<String>,
    /// What may no longer be true in it.
    pub warnings: Warnings,
}

/// Which kind of error it is.
#[derive(Clone, Copy, Debug, PartialEq, Eq)]
#[non_exhaustive]
pub enum ErrorKind {
    /// The module, or a function of it, is refused.
    Refused,
    /// A function that is named isn't there or has no body, or several functions have its name.
    NoFunction,
    /// Memory ran out.
    NoMemory,
    /// The library doesn't know an option that is wanted: it is older than this crate.
    BadOptions,
}

/// Why nothing is made of a module.
#[derive(Clone, Debug, PartialEq, Eq)]
#[non_exhaustive]
pub struct Error {
    pub kind: ErrorKind,
    /// The place of the fault, a byte offset from the start of the module, if it has one.
    pub place: Option<usize>,
    /// The index of the function that it is in, if it is in one. Imported functions have the first indices.
    pub function: Option<usize>,
    /// What is wrong, with the name of the fault.
    pub text: String,
}

impl fmt::Display for Error {
    fn fmt(&self, f: &mut fmt::Formatter<'_>) -> fmt::Result {
        if let Some(place) = self.place {
            write!(f, "0x{place:x}: ")?;
        }
        if let Some(function) = self.function {
            write!(f, "function {function}: ")?;
        }
        f.write_str(&self.text)
    }
}

impl std::error::Error for Error {}

/// The version of the library: its three numbers.
pub fn version() -> (u32, u32, u32) {
    // SAFETY: it takes nothing, and only returns a number.
    let number = unsafe { raw::wrewrite_version() };
    (number / 10_000, number / 100 % 100, number % 100)
}

/// Calls with room for as many bytes as the source has and some more, and once more where that is too small.
fn made(source: &[u8], options: Options, call: impl Fn(&[u32], &mut [u8], &mut [u8]) -> Outcome) -> Result<Made, Error> {
    let words = raw::words_of(options);
    let mut module = vec![0; source.len() + 64];
    let mut map = vec![0; if options.has_map { source.len() * 10 } else { 0 }];
    let mut outcome = call(&words, &mut module, &mut map);
    if outcome.status == raw::TOO_SMALL {
        module.resize(outcome.module_size, 0);
        map.resize(outcome.map_size, 0);
        outcome = call(&words, &mut module, &mut map);
    }
    if outcome.status != raw::DONE {
        return Err(outcome.into_error());
    }
    module.truncate(outcome.module_size);
    map.truncate(outcome.map_size);
    Ok(Made {
        module,
        map: options.has_map.then(|| String::from_utf8_lossy(&map).into_owned()),
        warnings: outcome.warnings(),
    })
}

/// Rewrites each function of a module: in the shortest encodings, without `nop`, without code that can't be reached after a branch,
/// and without locals that nothing uses.
///
/// # Errors
///
/// The first fault of the module or of a function; or that memory ran out.
pub fn rewrite(source: &[u8], options: Options) -> Result<Made, Error> {
    made(source, options, |words, out, map| {
        // SAFETY: each pointer comes with the length of its slice, isn't null, and is borrowed for the call; those that are written
        // are borrowed mutably, so that they overlap nothing. The declaration is that of the library.
        unsafe {
            raw::wrewrite_raw_rewrite(
                source.as_ptr(),
                source.len(),
                words.as_ptr(),
                words.len(),
                out.as_mut_ptr(),
                out.len(),
                map.as_mut_ptr(),
                map.len(),
            )
        }
    })
}
