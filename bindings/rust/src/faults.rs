//! Modules that are checked.

use crate::{raw, Error, ErrorKind};
use std::iter::FusedIterator;

/// The faults of a module: one for each function that is refused, in order; or the one fault of a module that isn't read. Each step
/// reads the module again.
#[derive(Clone, Debug)]
pub struct Faults<'a> {
    source: &'a [u8],
    /// The first function that wasn't looked at; none at the end.
    first: Option<usize>,
}

/// The functions of a module that are refused. Types are checked by [`validate`] alone.
///
/// ```
/// // two functions, of which the second branches too far
/// let module = b"\0asm\x01\0\0\0\x01\x04\x01\x60\0\0\x03\x03\x02\0\0\x0a\x09\x02\x02\0\x0b\x04\0\x0c\x01\x0b";
/// let faults: Vec<_> = wrewrite::check(module).map(|fault| fault.to_string()).collect();
/// assert_eq!(faults, ["0x1b: function 1: a label is not open (NoSuchLabel)"]);
/// ```
pub fn check(source: &[u8]) -> Faults<'_> {
    Faults { source, first: Some(0) }
}

/// Validates a module, as the standard says. The text of an error says what an operator takes and finds, if it is refused for an
/// operand.
///
/// ```
/// // a function that adds 1 to nothing
/// let module = b"\0asm\x01\0\0\0\x01\x04\x01\x60\0\0\x03\x02\x01\0\x0a\x08\x01\x06\0\x41\x01\x6a\x1a\x0b";
/// let fault = wrewrite::validate(module).unwrap_err();
/// let text = "the operator is not valid here: expected i32, found nothing (InvalidOperator)";
/// assert_eq!(fault.to_string(), format!("0x19: function 0: {text}"));
/// ```
///
/// # Errors
///
/// The first fault of the module; or that memory ran out.
pub fn validate(source: &[u8]) -> Result<(), Error> {
    // SAFETY: the pointer comes with the length of its slice, isn't null, and is borrowed for the call.
    let outcome = unsafe { raw::wrewrite_raw_validate(source.as_ptr(), source.len()) };
    match outcome.status {
        raw::DONE => Ok(()),
        _ => Err(outcome.into_error()),
    }
}

impl Iterator for Faults<'_> {
    type Item = Error;

    fn next(&mut self) -> Option<Error> {
        let first = self.first.take()?;
        // SAFETY: the pointer comes with the length of its slice, isn't null, and is borrowed for the call.
        let outcome = unsafe { raw::wrewrite_raw_check(self.source.as_ptr(), self.source.len(), first) };
        if outcome.status == raw::DONE {
            return None;
        }
        let error = outcome.into_error();
        if error.kind == ErrorKind::Refused {
            self.first = error.function.map(|function| function + 1);
        }
        Some(error)
    }
}

impl FusedIterator for Faults<'_> {}
