//! The version of the library.

use crate::support::prelude::*;
/// Returns the version of the library, as `BKS_VERSION_NUMBER` of `c/bekstaudi.h` is that of the
/// header: 1.2.3 is 10203.
///
/// ICU: `u_getVersion`.
pub fn bks_version() -> u32 {
    200
}
