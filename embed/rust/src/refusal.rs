//! Why a call isn't accepted.

use crate::raw;
use std::error::Error;
use std::ffi::CStr;
use std::fmt;
use std::io;

/// Why a call isn't accepted. It has changed nothing then.
#[derive(Clone, Copy, Debug, PartialEq, Eq, Hash)]
#[non_exhaustive]
pub enum Refusal {
    /// The ring has no room for a write now, or no byte for a read.
    Again,
    /// No slot is free, or the channel's state doesn't allow it.
    Busy,
    /// The request is of another way, or its argument is outside its set.
    Invalid,
    /// The descriptor isn't open.
    BadDescriptor,
    /// The descriptor is open already.
    Exists,
    /// There is no memory.
    NoMemory,
    /// A number is outside its limits.
    WrongArgument,
    /// A pointer is null that may not be.
    NullPointer,
    /// There is no engine.
    NotAnEngine,
    /// The room for what is handed over, or for a state, is too small.
    ShortRoom,
    /// The engine doesn't hand over as many frames any more.
    WornOut,
    /// The bytes don't begin as a state of this version.
    NotAState,
    /// The state is of another device, or of other filters or sections.
    OtherDevice,
    /// The state ends too early.
    ShortState,
    /// Bytes follow after the end of the state.
    LongState,
    /// A number of the state stands for nothing.
    Unspelled,
    /// Counts of the state contradict each other.
    OutOfOrder,
    /// A number that this crate doesn't know.
    Other(i32),
}

/// All refusals with a name, in the order of their numbers from -1 down.
const NAMED: [Refusal; 17] = [
    Refusal::Again,
    Refusal::Busy,
    Refusal::Invalid,
    Refusal::BadDescriptor,
    Refusal::Exists,
    Refusal::NoMemory,
    Refusal::WrongArgument,
    Refusal::NullPointer,
    Refusal::NotAnEngine,
    Refusal::ShortRoom,
    Refusal::WornOut,
    Refusal::NotAState,
    Refusal::OtherDevice,
    Refusal::ShortState,
    Refusal::LongState,
    Refusal::Unspelled,
    Refusal::OutOfOrder,
];

impl Refusal {
    /// The number by which the library answers it.
    pub fn number(self) -> i32 {
        match self {
            Refusal::Other(number) => number,
            named => -1 - NAMED.iter().position(|it| *it == named).map_or(0, |at| at as i32),
        }
    }

    /// The system's errno for it.
    pub fn errno(self) -> i32 {
        // SAFETY: it takes any number.
        unsafe { raw::dsp_engine_errno(self.number()) }
    }

    /// The refusal of a number below 0.
    fn from_number(number: i32) -> Refusal {
        let place = usize::try_from(-1 - i64::from(number)).ok();
        place.and_then(|at| NAMED.get(at)).copied().unwrap_or(Refusal::Other(number))
    }
}

/// What a call answered, if it was accepted.
pub(crate) fn accepted(number: i32) -> Result<u32, Refusal> {
    u32::try_from(number).map_err(|_| Refusal::from_number(number))
}

/// What a call with a greater answer answered, if it was accepted.
pub(crate) fn accepted_long(number: i64) -> Result<u64, Refusal> {
    u64::try_from(number).map_err(|_| Refusal::from_number(number as i32))
}

impl fmt::Display for Refusal {
    fn fmt(&self, to: &mut fmt::Formatter) -> fmt::Result {
        // SAFETY: it takes any number, and answers a text that stays.
        let text = unsafe { CStr::from_ptr(raw::dsp_engine_error(self.number())) };
        to.write_str(&text.to_string_lossy())
    }
}

impl Error for Refusal {}

impl From<Refusal> for io::Error {
    fn from(refusal: Refusal) -> io::Error {
        io::Error::from_raw_os_error(refusal.errno())
    }
}
