//! The static library, linked where the build was told its folder.

use crate::call::Matcher;

#[cfg(linked)]
mod exported;

/// Whether this build holds the library.
pub const LINKED: bool = cfg!(linked);

/// Length and sum of the archive that is linked.
pub const ARCHIVE: Option<&str> = option_env!("HAQBYLUR_ARCHIVE");

/// What is said where the library is asked for and this build does not hold it.
pub const NOT_LINKED: &str = "the library is not linked: HAQBYLUR_LIB_DIR names the folder of libhaqbylur.a";

#[cfg(linked)]
pub fn matcher() -> Box<dyn Matcher> {
    Box::new(exported::Library)
}

#[cfg(linked)]
pub use exported::perform;

// Nothing takes the library's place: a comparison with it would always agree.
#[cfg(not(linked))]
pub fn matcher() -> Box<dyn Matcher> {
    panic!("{NOT_LINKED}")
}

#[cfg(not(linked))]
pub fn perform(_: &mut crate::call::Call, _: &mut [u32; 2]) -> u32 {
    panic!("{NOT_LINKED}")
}
