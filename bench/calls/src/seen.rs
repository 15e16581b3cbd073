//! The drive again with every copy of its code counted: the same archive, to each of whose names bench/run put `seen_`.
use crate::drive::{Event, Lent as Space, Window};
use crate::side::{Side, State};
use std::cell::Cell;

/// The same state, for the renamed functions.
#[derive(Clone, Copy)]
pub struct Seen(pub State);

thread_local! {
    /// calls of memcpy and memmove, and their bytes
    static COPIED: Cell<(usize, usize)> = const { Cell::new((0, 0)) };
}

extern "C" {
    fn seen_jhartupal_frame(
        d: &mut State,
        frame: *const u8,
        n: usize,
        start: u64,
        window: *mut u8,
        length: usize,
        reply: *mut u8,
        room: usize,
    ) -> u64;
    fn seen_jhartupal_next(
        d: &mut State,
        address: u32,
        ox_id: u16,
        start: u64,
        window: *const u8,
        n: usize,
        reply: *mut u8,
        room: usize,
    ) -> u64;
    fn seen_jhartupal_loop_reset(d: &mut State) -> u64;
    fn seen_jhartupal_time_over(d: &mut State) -> u64;
    fn seen_jhartupal_power_on(d: &mut State) -> u64;
}

/// # Safety
/// As memmove.
#[no_mangle]
pub unsafe extern "C" fn seen_memmove(to: *mut u8, from: *const u8, n: usize) -> *mut u8 {
    COPIED.with(|c| c.set((c.get().0 + 1, c.get().1 + n)));
    std::ptr::copy(from, to, n);
    to
}

/// # Safety
/// As memcpy.
#[no_mangle]
pub unsafe extern "C" fn seen_memcpy(to: *mut u8, from: *const u8, n: usize) -> *mut u8 {
    seen_memmove(to, from, n)
}

/// # Safety
/// As memset.
#[no_mangle]
pub unsafe extern "C" fn seen_memset(to: *mut u8, byte: i32, n: usize) -> *mut u8 {
    std::ptr::write_bytes(to, byte as u8, n);
    to
}

/// The copies since the last asking: how many, and their bytes.
pub fn copied() -> (usize, usize) {
    COPIED.with(Cell::take)
}

// SAFETY of the three: as in `side`
impl Side for Seen {
    fn frame(&mut self, frame: &[u8], w: Space, reply: &mut [u8]) -> u64 {
        let (window, n) = (w.bytes.as_mut_ptr(), w.bytes.len());
        unsafe {
            seen_jhartupal_frame(&mut self.0, frame.as_ptr(), frame.len(), w.start, window, n, reply.as_mut_ptr(), reply.len())
        }
    }

    fn next(&mut self, address: u32, ox_id: u16, w: Window, reply: &mut [u8]) -> u64 {
        let (window, n) = (w.bytes.as_ptr(), w.bytes.len());
        unsafe { seen_jhartupal_next(&mut self.0, address, ox_id, w.start, window, n, reply.as_mut_ptr(), reply.len()) }
    }

    fn event(&mut self, event: Event) -> u64 {
        match event {
            Event::LoopReset => unsafe { seen_jhartupal_loop_reset(&mut self.0) },
            Event::TimeOver => unsafe { seen_jhartupal_time_over(&mut self.0) },
            Event::PowerOn => unsafe { seen_jhartupal_power_on(&mut self.0) },
        }
    }
}
