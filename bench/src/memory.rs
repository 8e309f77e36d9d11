//! The crate allocates its table in each call. To tell that apart, freed memory can be kept and handed out again as it is, so
//! that an allocation costs next to nothing and touches no fresh page.

use std::alloc::{GlobalAlloc, Layout, System};
use std::cell::UnsafeCell;
use std::ptr::null_mut;

const LARGE: usize = 4096;
const KEPT: usize = 8;

pub struct Memory {
    on: UnsafeCell<bool>,
    kept: UnsafeCell<[(*mut u8, usize, usize); KEPT]>,
}

// There is one thread.
unsafe impl Sync for Memory {}

impl Memory {
    pub const fn new() -> Memory {
        Memory { on: UnsafeCell::new(false), kept: UnsafeCell::new([(null_mut(), 0, 0); KEPT]) }
    }

    /// Whether memory is kept and handed out again.
    pub fn reuse(&self, on: bool) {
        unsafe { *self.on.get() = on };
    }
}

unsafe impl GlobalAlloc for Memory {
    unsafe fn alloc(&self, layout: Layout) -> *mut u8 {
        unsafe {
            if *self.on.get() && layout.size() >= LARGE {
                for place in (*self.kept.get()).iter_mut() {
                    if !place.0.is_null() && place.1 == layout.size() && place.2 == layout.align() {
                        let found = place.0;
                        place.0 = null_mut();
                        return found;
                    }
                }
            }
            System.alloc(layout)
        }
    }

    unsafe fn dealloc(&self, p: *mut u8, layout: Layout) {
        unsafe {
            if *self.on.get() && layout.size() >= LARGE {
                for place in (*self.kept.get()).iter_mut() {
                    if place.0.is_null() {
                        *place = (p, layout.size(), layout.align());
                        return;
                    }
                }
            }
            System.dealloc(p, layout)
        }
    }

    unsafe fn realloc(&self, p: *mut u8, layout: Layout, size: usize) -> *mut u8 {
        unsafe {
            if !*self.on.get() || layout.size().max(size) < LARGE {
                return System.realloc(p, layout, size);
            }
            let to = self.alloc(Layout::from_size_align_unchecked(size, layout.align()));
            if !to.is_null() {
                std::ptr::copy_nonoverlapping(p, to, layout.size().min(size));
                self.dealloc(p, layout);
            }
            to
        }
    }
}
