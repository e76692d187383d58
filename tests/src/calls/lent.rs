//! Pointers as a C program lends them: none for nothing.

/// The pointer to items that are read.
pub fn lent<T>(items: &[T]) -> *const T {
    if items.is_empty() {
        return std::ptr::null();
    }
    items.as_ptr()
}

/// The pointer to items that are written.
pub fn lent_mut<T>(items: &mut [T]) -> *mut T {
    if items.is_empty() {
        return std::ptr::null_mut();
    }
    items.as_mut_ptr()
}
