//! The heap of the upstream code. A build takes the system's; one with `--cfg bare_heap` takes the one below, the cheapest
//! that there can be: a place goes forward, nothing is given back, and each measured call starts where the last one did.

#[cfg(bare_heap)]
mod bare {
    use std::alloc::{GlobalAlloc, Layout};
    use std::cell::UnsafeCell;
    use std::ptr::null_mut;

    const ROOM: usize = 1 << 24;

    struct Bare {
        at: UnsafeCell<usize>,
        room: UnsafeCell<[u8; ROOM]>,
    }

    // The driver has one thread.
    unsafe impl Sync for Bare {}

    #[global_allocator]
    static HEAP: Bare = Bare {
        at: UnsafeCell::new(0),
        room: UnsafeCell::new([0; ROOM]),
    };

    unsafe impl GlobalAlloc for Bare {
        unsafe fn alloc(&self, asked: Layout) -> *mut u8 {
            let start = (*self.at.get() + asked.align() - 1) & !(asked.align() - 1);
            if start + asked.size() > ROOM {
                return null_mut();
            }
            *self.at.get() = start + asked.size();
            (self.room.get() as *mut u8).add(start)
        }

        unsafe fn dealloc(&self, _: *mut u8, _: Layout) {}
    }

    pub fn place() -> usize {
        unsafe { *HEAP.at.get() }
    }

    pub fn start_at(place: usize) {
        unsafe { *HEAP.at.get() = place }
    }
}

#[cfg(not(bare_heap))]
mod bare {
    pub fn place() {}

    pub fn start_at(_: ()) {}
}

pub use bare::{place, start_at};
