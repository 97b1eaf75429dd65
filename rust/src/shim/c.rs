//! The slices of C callers.

use ::std::slice;

/// The elements at `pointer`, of which there are `len`; none at a null pointer.
///
/// # Safety
///
/// The elements are initialized and don't change for `'a`.
pub unsafe fn slice<'a, T>(pointer: *const T, len: usize) -> &'a [T] {
    if pointer.is_null() {
        return &[];
    }
    // SAFETY: the caller says that the elements are there.
    unsafe { slice::from_raw_parts(pointer, len) }
}

/// As [`slice()`], for elements that change.
///
/// # Safety
///
/// The elements are initialized, and nothing else reads or writes them for `'a`.
pub unsafe fn slice_mut<'a, T>(pointer: *mut T, len: usize) -> &'a mut [T] {
    if pointer.is_null() {
        return &mut [];
    }
    // SAFETY: the caller says that the elements are there.
    unsafe { slice::from_raw_parts_mut(pointer, len) }
}
