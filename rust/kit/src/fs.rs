//! Files: Rust's, since the exporter leaves the runtime out where one is opened.
use crate::alloc::Global;
use crate::string::String;
pub use ::std::fs::*;
use ::std::io;

/// Leave to reach files.
#[doc(hidden)]
pub trait Files {
    type File;
    fn canonicalize(&self, alloc: Global, path: &str) -> io::Result<String>;
}
impl<T: ?Sized> Files for T {
    type File = File;
    fn canonicalize(&self, alloc: Global, path: &str) -> io::Result<String> {
        let mut found = [0; crate::sys::PATH_ROOM];
        let path = ::std::str::from_utf8(crate::sys::real_path(path, &mut found)?);
        Ok(String::from_str(alloc, path.map_err(|_| io::ErrorKind::InvalidData)?)?)
    }
}
