//! A value the compiler knows nothing about. The standard library's own
//! came after 1.63.

/// The same value, but read back from memory.
#[inline]
pub fn opaque<T: Copy>(value: T) -> T {
    // SAFETY: the pointer comes from a reference to a value that may be copied.
    unsafe { core::ptr::read_volatile(&value) }
}
