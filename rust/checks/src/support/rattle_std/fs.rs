//! Files.

use super::rt::{AllocGlobal, Files};
use super::string::String;

/// The text of a file.
pub fn read_to_string<R: Files + AllocGlobal>(rt: &R, path: &str) -> super::io::Result<String> {
    let text = ::std::fs::read_to_string(path).map_err(|_| super::io::Error::other("not read"))?;
    Ok(String::from_str(rt.alloc(), &text)?)
}
