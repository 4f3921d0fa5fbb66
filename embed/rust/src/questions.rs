//! What questions are answered, which are no steps and change nothing.

use crate::answers::{Answer, Volume};
use crate::format::Format;
use crate::raw::{SettingsNumbers, SlotNumbers};
use crate::requests::Way;

/// Where the run of a channel stands.
#[derive(Clone, Copy, Debug, PartialEq, Eq)]
pub enum State {
    /// Nothing of a run is there.
    Setup,
    /// Written to, and not started.
    Primed,
    /// Started.
    Running,
    /// Takes nothing more until what was written has played.
    Draining,
}

/// How the channel of a descriptor is.
#[derive(Clone, Copy, Debug, PartialEq, Eq)]
pub struct Settings {
    /// Which way sound goes.
    pub way: Way,
    /// The number of its slot.
    pub slot: u32,
    /// The format of its frames.
    pub format: Option<Format>,
    /// How many channels they have.
    pub channels: u32,
    /// Frames per second.
    pub rate: u32,
    /// How many fragments its ring has.
    pub fragments: u32,
    /// The bytes of one.
    pub fragment_bytes: u32,
    /// Whether it may start by itself, or by a post.
    pub trigger: bool,
    /// The volume that its client set: 0 of one that records.
    pub volume: Volume,
    /// Its group, if it is in one.
    pub group: Option<u32>,
    /// Where its run stands.
    pub state: State,
}

/// Who has a slot.
#[derive(Clone, Copy, Debug, PartialEq, Eq)]
pub enum SlotState {
    /// An open may take it.
    Free,
    /// A descriptor holds it.
    Held,
    /// Closed: it plays what was written to its end.
    Closing,
}

/// How a slot is.
#[derive(Clone, Copy, Debug, PartialEq, Eq)]
pub struct Slot {
    /// Who has it.
    pub state: SlotState,
    /// How many frames of the mix it gives still of what was written.
    pub frames: u64,
}

/// Which descriptors are ready, a bit each: that of descriptor 0 is the lowest.
#[derive(Clone, Copy, Debug, Default, PartialEq, Eq)]
pub struct Ready {
    /// Those to which a byte can be written.
    pub writable: u64,
    /// Those from which a byte can be read.
    pub readable: u64,
}

impl From<SettingsNumbers> for Settings {
    fn from(told: SettingsNumbers) -> Settings {
        let volume = Answer { first: u64::from(told.volume), ..Answer::default() };
        Settings {
            way: [Way::Play, Way::Record, Way::Map][told.way as usize],
            slot: told.slot,
            format: Format::from_code(told.format),
            channels: told.channels,
            rate: told.rate,
            fragments: told.fragments,
            fragment_bytes: told.fragment_bytes,
            trigger: told.trigger != 0,
            volume: Volume::from(volume),
            group: Some(told.group).filter(|group| *group != 0),
            state: [State::Setup, State::Primed, State::Running, State::Draining][told.state as usize],
        }
    }
}

impl From<SlotNumbers> for Slot {
    fn from(told: SlotNumbers) -> Slot {
        Slot {
            state: [SlotState::Free, SlotState::Held, SlotState::Closing][told.state as usize],
            frames: told.frames,
        }
    }
}
