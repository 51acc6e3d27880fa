//! Lends copies of slices, each between two stretches of memory that may not be touched.

use crate::lend::Part;
use crate::lend::PartMut;
use std::cell::RefCell;
use std::ffi::c_int;
use std::ffi::c_void;
use std::ptr;
use std::slice;

/// A multiple of every machine's page.
const PAGE: usize = 1 << 16;

/// What stands beside a slice on its other side, where no page ends.
const BESIDE: usize = 64;
const FILL: u8 = 0xa5;

const NONE: c_int = 0;
const READ_WRITE: c_int = 3;
const PRIVATE_ANONYMOUS: c_int = 0x22;

extern "C" {
    fn mmap(
        at: *mut c_void,
        len: usize,
        prot: c_int,
        flags: c_int,
        fd: c_int,
        offset: i64,
    ) -> *mut c_void;
    fn mprotect(at: *mut c_void, len: usize, prot: c_int) -> c_int;
    fn munmap(at: *mut c_void, len: usize) -> c_int;
}

thread_local! {
    /// One for each part of a call, kept from call to call; and how many calls there were.
    static SPACES: RefCell<(Vec<Space>, usize)> = const { RefCell::new((Vec::new(), 0)) };
}

/// Room for one slice: a stretch that may not be touched, the room, another such stretch.
struct Space {
    start: *mut u8,
    room: usize,
}

impl Space {
    fn new(room: usize) -> Self {
        let whole = room + 2 * PAGE;
        // SAFETY: A new mapping, of which only the room between its ends is ever touched.
        let start = unsafe {
            let start = mmap(ptr::null_mut(), whole, NONE, PRIVATE_ANONYMOUS, -1, 0);
            assert_ne!(start as isize, -1, "memory is mapped");
            let start = start.cast::<u8>();
            assert_eq!(mprotect(start.add(PAGE).cast(), room, READ_WRITE), 0);
            start
        };
        Self { start, room }
    }

    /// A place for that many bytes that ends, or starts, where nothing may be touched.
    fn place(&mut self, len: usize, at_end: bool) -> *mut u8 {
        let room = (len + BESIDE).next_multiple_of(PAGE);
        if self.room < room {
            *self = Self::new(room);
        }
        let offset = if at_end { self.room - len } else { 0 };
        // SAFETY: Inside the room.
        unsafe { self.start.add(PAGE + offset) }
    }

    /// The bytes beside a slice on its open side.
    fn beside(&mut self, len: usize, at_end: bool) -> &mut [u8] {
        let place = self.place(len, at_end);
        // SAFETY: The room has so many more bytes than the slice, and nobody else holds them.
        unsafe {
            let at = if at_end {
                place.sub(BESIDE)
            } else {
                place.add(len)
            };
            slice::from_raw_parts_mut(at, BESIDE)
        }
    }

    fn fill(&mut self, bytes: &[u8], at_end: bool) -> *mut u8 {
        self.beside(bytes.len(), at_end).fill(FILL);
        let place = self.place(bytes.len(), at_end);
        // SAFETY: The place has that many bytes, none of them the slice's own.
        unsafe { ptr::copy_nonoverlapping(bytes.as_ptr(), place, bytes.len()) };
        place
    }

    /// What stands in the place, once nothing beside it has changed.
    fn left(&mut self, len: usize, at_end: bool) -> &[u8] {
        let is_whole = self.beside(len, at_end).iter().all(|byte| *byte == FILL);
        assert!(is_whole, "a byte beside a lent part was written");
        let place = self.place(len, at_end);
        // SAFETY: The place has that many bytes.
        unsafe { slice::from_raw_parts(place, len) }
    }
}

impl Drop for Space {
    fn drop(&mut self) {
        // SAFETY: The mapping that was made, with no pointer into it left.
        unsafe { munmap(self.start.cast(), self.room + 2 * PAGE) };
    }
}

/// By turns the parts end, and start, where nothing may be touched.
pub(crate) fn lend<const N: usize, const M: usize>(
    read: [&[u8]; N],
    mut written: [&mut [u8]; M],
    call: impl FnOnce([Part; N], [PartMut; M]) -> u8,
) -> u8 {
    SPACES.with_borrow_mut(|(spaces, calls)| {
        spaces.resize_with(spaces.len().max(N + M), || Space::new(PAGE));
        *calls += 1;
        let at_end = *calls % 2 == 0;
        let (reading, writing) = spaces.split_at_mut(N);
        let mut places = reading.iter_mut().zip(&read).map(|(space, slice)| Part {
            at: space.fill(slice, at_end),
            len: slice.len(),
        });
        let mut places_mut = writing
            .iter_mut()
            .zip(&written)
            .map(|(space, slice)| PartMut {
                at: space.fill(slice, at_end),
                len: slice.len(),
            });
        let parts = [(); N].map(|()| places.next().expect("a space for each"));
        let parts_mut = [(); M].map(|()| places_mut.next().expect("a space for each"));
        let answer = call(parts, parts_mut);
        for (space, slice) in reading.iter_mut().zip(&read) {
            let is_kept = space.left(slice.len(), at_end) == *slice;
            assert!(is_kept, "a part that is only read was written to");
        }
        for (space, slice) in writing.iter_mut().zip(&mut written) {
            slice.copy_from_slice(space.left(slice.len(), at_end));
        }
        answer
    })
}

#[cfg(test)]
mod tests {
    use super::*;
    use std::env;
    use std::process::Command;

    /// Runs a test's body in a process of its own, and says whether a signal ended that.
    fn is_stopped(name: &str, body: impl FnOnce()) -> bool {
        const CHILD: &str = "GUARDED_CHILD";
        if env::var_os(CHILD).is_some() {
            body();
            return false;
        }
        let own = env::current_exe().expect("the test's own file");
        let mut child = Command::new(own);
        child.args(["--exact", &format!("guarded::tests::{name}")]);
        let status = child.env(CHILD, "").status().expect("a process");
        status.code().is_none()
    }

    /// Reads the byte at that place of a part, once at each of the two ways of lending it.
    fn read_at(offset: isize) {
        for _ in 0..2 {
            lend([&[1; 24]], [], |[part], []| {
                // SAFETY: None: the read is to be stopped.
                unsafe { part.at.offset(offset).read_volatile() }
            });
        }
    }

    #[test]
    fn a_byte_behind_a_part_stops() {
        assert!(is_stopped("a_byte_behind_a_part_stops", || read_at(24)));
    }

    #[test]
    fn a_byte_before_a_part_stops() {
        assert!(is_stopped("a_byte_before_a_part_stops", || read_at(-1)));
    }

    #[test]
    fn what_is_written_comes_back() {
        let mut bytes = [7; 4];
        lend([], [&mut bytes], |[], [part]| {
            // SAFETY: Inside the part.
            unsafe { part.at.add(2).write(9) };
            0
        });
        assert_eq!(bytes, [7, 7, 9, 7]);
    }

    #[test]
    #[should_panic = "only read"]
    fn a_write_to_a_part_that_is_read_is_told() {
        lend([&[0; 4]], [], |[part], []| {
            // SAFETY: Inside the space, which nobody else holds.
            unsafe { part.at.cast_mut().write_volatile(9) };
            0
        });
    }

    #[test]
    #[should_panic = "beside"]
    fn a_write_beside_a_part_is_told() {
        // The first call's parts start where nothing may be touched, and are open behind.
        lend([&[0; 4]], [], |[part], []| {
            // SAFETY: Inside the space, which nobody else holds.
            unsafe { part.at.cast_mut().add(4).write_volatile(9) };
            0
        });
    }
}
