//! A column that never moves.

use std::ffi::c_void;

const PAGE: usize = 1 << 21;

unsafe extern "C" {
    fn mmap(
        address: *mut c_void,
        length: usize,
        protection: i32,
        flags: i32,
        file: i32,
        offset: i64,
    ) -> *mut c_void;
    fn madvise(address: *mut c_void, length: usize, advice: i32) -> i32;
}

/// Elements in address space that is reserved once; pages come as they are touched, and hold zeros.
pub struct Region<T> {
    base: *mut T,
    len: usize,
    capacity: usize,
}

// Safety: the memory belongs to the region, and to no thread.
unsafe impl<T: Send> Send for Region<T> {}

impl<T: Copy> Region<T> {
    pub fn new(capacity: usize) -> Region<T> {
        let bytes = (capacity * size_of::<T>()).next_multiple_of(PAGE) + PAGE;
        // readable and writable; private, anonymous and without reserved swap
        let start = unsafe { mmap(std::ptr::null_mut(), bytes, 3, 0x4022, -1, 0) };
        assert!(start as isize != -1, "no address space");
        Region {
            base: (start as usize).next_multiple_of(PAGE) as *mut T,
            len: 0,
            capacity,
        }
    }

    /// A region of zeros.
    pub fn zeroed(len: usize) -> Region<T> {
        Region {
            len,
            ..Region::new(len)
        }
    }

    #[inline(always)]
    pub fn len(&self) -> usize {
        self.len
    }

    #[inline(always)]
    pub fn get(&self, index: usize) -> &T {
        debug_assert!(index < self.len);
        unsafe { &*self.base.add(index) }
    }

    #[inline(always)]
    pub fn get_mut(&mut self, index: usize) -> &mut T {
        debug_assert!(index < self.len);
        unsafe { &mut *self.base.add(index) }
    }

    #[inline(always)]
    pub fn push(&mut self, element: T) {
        unsafe { self.next().write(element) }
    }

    /// Where the next element is written, which counts from here on.
    #[inline(always)]
    pub fn next(&mut self) -> *mut T {
        assert!(self.len < self.capacity);
        self.len += 1;
        unsafe { self.base.add(self.len - 1) }
    }

    #[inline(always)]
    pub fn pop(&mut self) {
        self.len -= 1;
    }

    #[inline(always)]
    pub fn address(&self, index: usize) -> *const T {
        unsafe { self.base.add(index) }
    }

    pub fn as_slice(&self) -> &[T] {
        unsafe { std::slice::from_raw_parts(self.base, self.len) }
    }

    /// Gives the pages back.
    pub fn free(self) {
        unsafe { madvise(self.base as *mut c_void, self.capacity * size_of::<T>(), 4) };
    }
}
