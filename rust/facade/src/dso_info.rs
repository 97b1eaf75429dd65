//! The path and the build id of a mapped object.

use crate::inner;

/// The path and the build id of a mapped object.
#[derive(Debug, Clone, PartialEq, Eq, Hash)]
pub struct DsoInfo {
    /// The path, or a name such as `[vdso]` of an object without a file.
    pub path: Vec<u8>,
    /// The build id, of at most 20 bytes.
    pub build_id: Vec<u8>,
}

impl From<inner::DsoInfo> for DsoInfo {
    fn from(info: inner::DsoInfo) -> Self {
        Self {
            path: inner::std_vec(info.path),
            build_id: inner::std_vec(info.build_id),
        }
    }
}
