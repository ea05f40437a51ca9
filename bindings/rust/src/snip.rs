//! Functions that are found by name, and snipped.

use crate::{made, raw, Error, Made, Options};

/// The index of the function with this name: one that the `name` section names so, else one that is exported so.
///
/// # Errors
///
/// Where no function with a body has the name, or several have it; the fault of a module that isn't read; or that memory ran out.
pub fn find(source: &[u8], name: &str) -> Result<usize, Error> {
    // SAFETY: each pointer comes with the length of its slice, isn't null, and is borrowed for the call.
    let outcome = unsafe { raw::wrewrite_raw_find(source.as_ptr(), source.len(), name.as_ptr(), name.len()) };
    match (outcome.status, outcome.function()) {
        (raw::DONE, Some(function)) => Ok(function),
        _ => Err(outcome.into_error()),
    }
}

/// Rewrites a module, and leaves nothing but `unreachable` of some functions.
///
/// ```no_run
/// # fn shown(module: &[u8]) -> Result<(), wrewrite::Error> {
/// let options = wrewrite::Options::default().with_map();
/// let made = wrewrite::Snip::new(module).function(3).named("panic")?.options(options).run()?;
/// # Ok(())
/// # }
/// ```
#[derive(Clone, Debug)]
#[must_use = "nothing is made before `run`"]
pub struct Snip<'a> {
    source: &'a [u8],
    functions: Vec<usize>,
    options: Options,
}

impl<'a> Snip<'a> {
    /// No function is snipped so far, and all options are off.
    pub fn new(source: &'a [u8]) -> Self {
        Snip { source, functions: Vec::new(), options: Options::default() }
    }

    /// The function with this index is snipped too. Imported functions have the first indices.
    pub fn function(mut self, index: usize) -> Self {
        self.functions.push(index);
        self
    }

    /// The functions with these indices are snipped too.
    pub fn functions(mut self, indices: impl IntoIterator<Item = usize>) -> Self {
        self.functions.extend(indices);
        self
    }

    /// The function with this name is snipped too.
    ///
    /// # Errors
    ///
    /// Those of `find`.
    pub fn named(self, name: &str) -> Result<Self, Error> {
        let index = find(self.source, name)?;
        Ok(self.function(index))
    }

    /// What is wanted.
    pub fn options(mut self, options: Options) -> Self {
        self.options = options;
        self
    }

    /// Makes the module.
    ///
    /// # Errors
    ///
    /// Where a function isn't there or has no body; those of `rewrite`.
    pub fn run(&self) -> Result<Made, Error> {
        made(self.source, self.options, |words, out, map| {
            // SAFETY: as in `rewrite`.
            unsafe {
                raw::wrewrite_raw_snip(
                    self.source.as_ptr(),
                    self.source.len(),
                    self.functions.as_ptr(),
                    self.functions.len(),
                    words.as_ptr(),
                    words.len(),
                    out.as_mut_ptr(),
                    out.len(),
                    map.as_mut_ptr(),
                    map.len(),
                )
            }
        })
    }
}
