//! The engine of dsp_replay: what a kernel does with the sound of several clients, call by call, with the caller's own bytes.
//!
//! ```
//! use dsp_engine::{Device, Engine, Format, Way};
//!
//! # fn main() -> Result<(), dsp_engine::Refusal> {
//! let mut engine = Engine::new(&Device::default(), &[], &[])?;
//! engine.open(0, Way::Play, Format::S16Le, 2, 44100)?;
//! let taken = engine.write(0, &[0; 4096])?;
//! let mut out = [0; 1024];
//! let handed = engine.interrupt(256, &[], &mut out)?;
//! # assert!(taken == 4096 && handed.len() == 1024);
//! # Ok(())
//! # }
//! ```
//!
//! It calls the library `libdsp_engine`, which the build looks for. `docs/EMBEDDING.md` says what that is, and `docs/SCRIPTS.md` what each
//! call means.
#![deny(missing_docs)]
#![deny(unsafe_op_in_unsafe_fn)]

mod answers;
mod device;
mod engine;
mod format;
mod questions;
mod raw;
mod refusal;
mod requests;

pub use answers::{Answer, Errors, Fragments, Position, Space, Volume};
pub use device::{Device, Filter, Section};
pub use engine::Engine;
pub use format::Format;
pub use questions::{Ready, Settings, Slot, SlotState, State};
pub use refusal::Refusal;
pub use requests::{MixerRequest, Request, Trigger, Way};
