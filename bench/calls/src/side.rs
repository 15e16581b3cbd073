//! What is timed: the proved drive by its C boundary, and the model of document 01, behind one trait.
use crate::drive::{Drive, Event, Lent as Space, Window, ROOM};
use crate::rule::{Port, Unit};

/// From here on an answer is a refusal: this plus its number.
pub const REFUSED: u64 = 65_536;

pub trait Side: Clone {
    fn frame(&mut self, frame: &[u8], w: Space, reply: &mut [u8]) -> u64;
    fn next(&mut self, address: u32, ox_id: u16, window: Window, reply: &mut [u8]) -> u64;
    fn event(&mut self, event: Event) -> u64;
}

/// The drive's state, as the boundary lends it.
#[repr(C)]
#[derive(Clone, Copy)]
pub struct State {
    pub unit: Unit,
    pub port: Port,
}

/// What a drive is made from, as include/jhartupal.h has it.
#[repr(C)]
struct Setup {
    capacity: u64,
    address: u32,
    identity: [u8; 28],
    accept: [u8; 112],
    writable: u8,
}

extern "C" {
    fn jhartupal_make(d: &mut State, setup: &Setup) -> u64;
    fn jhartupal_frame(
        d: &mut State,
        frame: *const u8,
        n: usize,
        start: u64,
        window: *mut u8,
        length: usize,
        reply: *mut u8,
        room: usize,
    ) -> u64;
    fn jhartupal_next(
        d: &mut State,
        address: u32,
        ox_id: u16,
        start: u64,
        window: *const u8,
        n: usize,
        reply: *mut u8,
        room: usize,
    ) -> u64;
    fn jhartupal_loop_reset(d: &mut State) -> u64;
    fn jhartupal_time_over(d: &mut State) -> u64;
    fn jhartupal_power_on(d: &mut State) -> u64;
}

impl State {
    /// A drive whose unit may be written.
    pub fn make(capacity: u64, own: u32, identity: &[u8; 28], accept: &[u8; 112]) -> State {
        let setup = Setup { capacity, address: own, identity: *identity, accept: *accept, writable: 1 };
        // SAFETY: any bytes are a state, zeros too
        unsafe {
            let mut d = std::mem::zeroed();
            assert_eq!(jhartupal_make(&mut d, &setup), 0);
            d
        }
    }
}

// SAFETY of the three: the slices are as long as is said, and lent to this call alone
impl Side for State {
    #[inline(always)]
    fn frame(&mut self, frame: &[u8], w: Space, reply: &mut [u8]) -> u64 {
        let (window, n) = (w.bytes.as_mut_ptr(), w.bytes.len());
        unsafe { jhartupal_frame(self, frame.as_ptr(), frame.len(), w.start, window, n, reply.as_mut_ptr(), reply.len()) }
    }

    #[inline(always)]
    fn next(&mut self, address: u32, ox_id: u16, w: Window, reply: &mut [u8]) -> u64 {
        unsafe { jhartupal_next(self, address, ox_id, w.start, w.bytes.as_ptr(), w.bytes.len(), reply.as_mut_ptr(), reply.len()) }
    }

    #[inline(always)]
    fn event(&mut self, event: Event) -> u64 {
        match event {
            Event::LoopReset => unsafe { jhartupal_loop_reset(self) },
            Event::TimeOver => unsafe { jhartupal_time_over(self) },
            Event::PowerOn => unsafe { jhartupal_power_on(self) },
        }
    }
}

/// The model as it stands: it was made well formed, and does not ask again.
#[derive(Clone)]
pub struct Bare(pub Drive);

fn code(answer: Result<usize, u8>) -> u64 {
    match answer {
        Ok(n) => n as u64,
        Err(number) => REFUSED + u64::from(number),
    }
}

impl Side for Bare {
    #[inline(never)]
    fn frame(&mut self, frame: &[u8], w: Space, reply: &mut [u8]) -> u64 {
        code(self.0.frame_in(frame, w, reply))
    }

    #[inline(never)]
    fn next(&mut self, address: u32, ox_id: u16, w: Window, reply: &mut [u8]) -> u64 {
        code(self.0.next_frame(address, ox_id, w, reply))
    }

    #[inline(never)]
    fn event(&mut self, event: Event) -> u64 {
        self.0.event(event);
        0
    }
}

/// The model with the drive's tests: refusal 2 where its state is not well formed, asked by its own rule at every call.
#[derive(Clone)]
pub struct Tested(pub Drive);

impl Tested {
    pub fn well_formed(&self) -> bool {
        self.0.setup.holds() && self.0.ill_formed().is_none()
    }

    fn refused(&self, room: usize) -> bool {
        room >= ROOM && !self.well_formed()
    }
}

impl Side for Tested {
    #[inline(never)]
    fn frame(&mut self, frame: &[u8], w: Space, reply: &mut [u8]) -> u64 {
        if self.refused(reply.len()) {
            return REFUSED + 2;
        }
        code(self.0.frame_in(frame, w, reply))
    }

    #[inline(never)]
    fn next(&mut self, address: u32, ox_id: u16, w: Window, reply: &mut [u8]) -> u64 {
        if self.refused(reply.len()) {
            return REFUSED + 2;
        }
        code(self.0.next_frame(address, ox_id, w, reply))
    }

    #[inline(never)]
    fn event(&mut self, event: Event) -> u64 {
        if !self.well_formed() {
            return REFUSED + 2;
        }
        self.0.event(event);
        0
    }
}

/// No work: what the call itself and the loop around it take.
#[derive(Clone, Copy)]
pub struct Nothing;

#[inline(never)]
extern "C" fn nothing(d: &mut Nothing) -> u64 {
    std::hint::black_box(d);
    0
}

impl Side for Nothing {
    fn frame(&mut self, _: &[u8], _: Space, _: &mut [u8]) -> u64 {
        nothing(self)
    }

    fn next(&mut self, _: u32, _: u16, _: Window, _: &mut [u8]) -> u64 {
        nothing(self)
    }

    fn event(&mut self, _: Event) -> u64 {
        nothing(self)
    }
}
