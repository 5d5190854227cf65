//! The crate's errors by name.
use std::error::Error as StdError;

use crate::error::Error;

/// The variants from the outermost error to its root, as `InvalidAsdu>InvalidCot>..`. A `Whatever` has one variant
/// for many errors: its message stands for it.
pub fn path(error: &(dyn StdError + 'static)) -> String {
    let mut names = name(error);
    let mut next = error.source();
    while let Some(cause) = next {
        names = names + ">" + &name(cause);
        next = cause.source();
    }
    names
}

fn name(error: &(dyn StdError + 'static)) -> String {
    if let Some(Error::Whatever { message, .. }) = error.downcast_ref::<Error>() {
        return format!("\"{message}\"");
    }
    let debug = format!("{error:?}");
    let end = debug.find(|c: char| !c.is_alphanumeric());
    debug[..end.unwrap_or(debug.len())].to_owned()
}
