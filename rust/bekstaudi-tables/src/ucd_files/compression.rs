//! How a file is compressed, by the bytes that it starts with.

use crate::host::*;
use crate::support::prelude::*;
/// How a file is compressed.
#[derive(Clone, Copy)]
pub enum Compression {
    /// By `bzip2`.
    Bzip2,
    /// By `gzip`.
    Gzip,
    /// By `xz`.
    Xz,
    /// By `zip`.
    Zip,
    /// By `zstd`.
    Zstd,
}

/// Returns whether bytes start as a file of `bzip2`: with `BZh`, a digit from 1 to 9, and the first
/// byte of a block (0x31) or of the end of a stream (0x17).
fn is_bzip2(bytes: &[u8]) -> bool {
    bytes.len() > 4
        && bytes[0] == b'B'
        && bytes[1] == b'Z'
        && bytes[2] == b'h'
        && bytes[3] >= b'1'
        && bytes[3] <= b'9'
        && (bytes[4] == 0x31 || bytes[4] == 0x17)
}

/// Returns how a file with these bytes is compressed, or `None` if it does not start as a compressed
/// file. The bytes after its magic number are not tested.
pub fn compression_of(bytes: &[u8]) -> Option<Compression> {
    if is_bzip2(bytes) {
        Some(Compression::Bzip2)
    } else if bytes.starts_with(b"\x1f\x8b".as_slice()) {
        Some(Compression::Gzip)
    } else if bytes.starts_with(b"\xfd7zXZ\0".as_slice()) {
        Some(Compression::Xz)
    } else if bytes.starts_with(b"PK\x03\x04".as_slice()) {
        Some(Compression::Zip)
    } else if bytes.starts_with(b"\x28\xb5\x2f\xfd".as_slice()) {
        Some(Compression::Zstd)
    } else {
        None
    }
}
