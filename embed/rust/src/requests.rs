//! What clients and the mixer device are asked.

/// Which way sound goes through a descriptor.
#[repr(u32)]
#[derive(Clone, Copy, Debug, PartialEq, Eq)]
pub enum Way {
    /// From the client to the device.
    Play = 0,
    /// From the device to the client.
    Record = 1,
    /// To the device, out of an area that the client writes anywhere at any time.
    Map = 2,
}

/// What a client asks of its channel, as enum dsp_request has it.
#[repr(u32)]
#[derive(Clone, Copy, Debug, PartialEq, Eq)]
#[allow(missing_docs)]
pub enum Request {
    SetFmt = 0,
    Speed = 1,
    Channels = 2,
    GetFmts = 3,
    GetCaps = 4,
    GetBlkSize = 5,
    SetFragment = 6,
    GetOSpace = 7,
    GetISpace = 8,
    GetOPtr = 9,
    GetIPtr = 10,
    GetODelay = 11,
    GetError = 12,
    SetTrigger = 13,
    GetTrigger = 14,
    SetPlayVol = 15,
    GetPlayVol = 16,
    Post = 17,
    Sync = 18,
    Halt = 19,
}

/// What the mixer device is asked, as enum dsp_mixer_request has it.
#[repr(u32)]
#[derive(Clone, Copy, Debug, PartialEq, Eq)]
#[allow(missing_docs)]
pub enum MixerRequest {
    SetMaster = 0,
    GetMaster = 1,
    SetSlot = 2,
    GetSlot = 3,
    MuteSlot = 4,
}

/// Which channels may start.
#[derive(Clone, Copy, Debug, Default, PartialEq, Eq)]
pub struct Trigger {
    /// Those that record.
    pub record: bool,
    /// Those that play, and mapped ones.
    pub play: bool,
}

impl Trigger {
    /// The number that asks for it.
    pub(crate) fn number(self) -> u32 {
        u32::from(self.record) | u32::from(self.play) << 1
    }

    /// What a number says.
    pub(crate) fn from_number(number: u64) -> Trigger {
        Trigger { record: number & 1 != 0, play: number & 2 != 0 }
    }
}
