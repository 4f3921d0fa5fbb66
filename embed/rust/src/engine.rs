//! An engine, call by call.

use crate::answers::{Answer, Errors, Fragments, Position, Space, Volume};
use crate::device::{numbers_of, Device, Filter, Section};
use crate::format::Format;
use crate::questions::{Ready, Settings, Slot};
use crate::raw;
use crate::refusal::{accepted, accepted_long, Refusal};
use crate::requests::{MixerRequest, Request, Trigger, Way};

/// An engine of a device, which is freed where it is dropped. It may be moved to another thread.
pub struct Engine {
    handle: raw::Handle,
}

// SAFETY: the library has no state but what the handle points to, and asks only that one thread at a time uses it.
unsafe impl Send for Engine {}

impl Engine {
    /// The engine of a device, with filters and sections of the equaliser. All its memory is taken here.
    pub fn new(device: &Device, filters: &[Filter], sections: &[Section]) -> Result<Engine, Refusal> {
        if !filters.iter().all(Filter::is_whole) {
            return Err(Refusal::WrongArgument);
        }
        let (filters, coefs) = numbers_of(filters);
        let mut handle = raw::NO_ENGINE;
        // SAFETY: each pointer has as many elements as are given, and the handle is none.
        accepted(unsafe {
            raw::dsp_engine_new(
                &mut handle,
                device,
                filters.as_ptr(),
                filters.len(),
                coefs.as_ptr(),
                coefs.len(),
                sections.as_ptr(),
                sections.len(),
            )
        })?;
        Ok(Engine { handle })
    }

    /// An engine that goes on where this one is, and answers the same calls alike. All its memory is taken here.
    pub fn try_clone(&mut self) -> Result<Engine, Refusal> {
        let mut handle = raw::NO_ENGINE;
        // SAFETY: as in all calls below, the engine's handle is lent to nobody else. That of the clone is none.
        accepted(unsafe { raw::dsp_engine_clone(&mut self.handle, &mut handle) })?;
        Ok(Engine { handle })
    }

    /// How many bytes `save` spells now.
    pub fn state_size(&mut self) -> usize {
        // SAFETY: see `try_clone`. An engine that is there has a state.
        accepted_long(unsafe { raw::dsp_engine_state_size(&mut self.handle) }).map_or(0, |it| it as usize)
    }

    /// Spells the state at the front of `out`, whose other bytes stay. Answers how many bytes it has.
    pub fn save(&mut self, out: &mut [u8]) -> Result<usize, Refusal> {
        // SAFETY: there is so much room.
        accepted_long(unsafe { raw::dsp_engine_save(&mut self.handle, out.as_mut_ptr(), out.len()) }).map(|it| it as usize)
    }

    /// The engine goes on where a state was saved, of an engine of the same device, filters and sections. Bytes that are none are refused,
    /// and it goes on where it was. The memory of a whole engine is taken here, and that of the old one given back.
    pub fn load(&mut self, state: &[u8]) -> Result<(), Refusal> {
        // SAFETY: as many bytes stand there.
        accepted(unsafe { raw::dsp_engine_load(&mut self.handle, state.as_ptr(), state.len()) }).map(|_| ())
    }

    /// The version of the library: its major, minor and patch number.
    pub fn version() -> (u32, u32, u32) {
        // SAFETY: it takes nothing.
        let number = unsafe { raw::dsp_engine_version() };
        (number >> 16, number >> 8 & 0xff, number & 0xff)
    }

    /// Opens a descriptor, 0 to 63. Answers the number of its slot.
    pub fn open(&mut self, fd: u32, way: Way, format: Format, channels: u32, rate: u32) -> Result<u32, Refusal> {
        // SAFETY: as in all calls below, the handle is an engine's and is lent to nobody else.
        accepted(unsafe { raw::dsp_engine_open(&mut self.handle, fd, way as u32, format.code(), channels, rate) })
    }

    /// Writes bytes to a descriptor that plays. Answers how many of them its ring took: the first ones.
    pub fn write(&mut self, fd: u32, bytes: &[u8]) -> Result<usize, Refusal> {
        // SAFETY: as many bytes stand there.
        accepted(unsafe { raw::dsp_engine_write(&mut self.handle, fd, bytes.as_ptr(), bytes.len()) }).map(|it| it as usize)
    }

    /// Writes bytes into the area of a mapped descriptor, from its byte `offset` on.
    pub fn poke(&mut self, fd: u32, offset: u32, bytes: &[u8]) -> Result<(), Refusal> {
        // SAFETY: as many bytes stand there.
        accepted(unsafe { raw::dsp_engine_poke(&mut self.handle, fd, offset, bytes.as_ptr(), bytes.len()) }).map(|_| ())
    }

    /// Reads as many bytes as there is room for, and never more than 4096, of what a descriptor has recorded: the front of `room`.
    pub fn read<'a>(&mut self, fd: u32, room: &'a mut [u8]) -> Result<&'a mut [u8], Refusal> {
        // SAFETY: there is so much room.
        let count = accepted(unsafe { raw::dsp_engine_read(&mut self.handle, fd, room.as_mut_ptr(), room.len()) })?;
        Ok(&mut room[..count as usize])
    }

    /// Asks something of the channel of a descriptor. The functions below ask each request by its name.
    pub fn ioctl(&mut self, fd: u32, request: Request, argument: u32) -> Result<Answer, Refusal> {
        let mut answer = Answer::default();
        // SAFETY: see `open`.
        accepted(unsafe { raw::dsp_engine_ioctl(&mut self.handle, fd, request as u32, argument, &mut answer) })?;
        Ok(answer)
    }

    /// What a request without an argument is answered.
    fn asked<A: From<Answer>>(&mut self, fd: u32, request: Request) -> Result<A, Refusal> {
        self.ioctl(fd, request, 0).map(A::from)
    }

    /// The one number that a request is answered.
    fn number(&mut self, fd: u32, request: Request, argument: u32) -> Result<u32, Refusal> {
        self.ioctl(fd, request, argument).map(|it| it.first as u32)
    }

    /// Sets the format.
    pub fn set_format(&mut self, fd: u32, format: Format) -> Result<(), Refusal> {
        self.ioctl(fd, Request::SetFmt, format.code()).map(|_| ())
    }

    /// The code of the format: see [`Format::from_code`].
    pub fn format(&mut self, fd: u32) -> Result<u32, Refusal> {
        self.number(fd, Request::SetFmt, 0)
    }

    /// Sets the frames per second.
    pub fn set_rate(&mut self, fd: u32, rate: u32) -> Result<(), Refusal> {
        self.ioctl(fd, Request::Speed, rate).map(|_| ())
    }

    /// The frames per second.
    pub fn rate(&mut self, fd: u32) -> Result<u32, Refusal> {
        self.number(fd, Request::Speed, 0)
    }

    /// Sets the number of channels.
    pub fn set_channels(&mut self, fd: u32, channels: u32) -> Result<(), Refusal> {
        self.ioctl(fd, Request::Channels, channels).map(|_| ())
    }

    /// The number of channels.
    pub fn channels(&mut self, fd: u32) -> Result<u32, Refusal> {
        self.number(fd, Request::Channels, 0)
    }

    /// The codes of all formats in one number.
    pub fn formats(&mut self, fd: u32) -> Result<u32, Refusal> {
        self.number(fd, Request::GetFmts, 0)
    }

    /// What the device can do, by the bits of `SNDCTL_DSP_GETCAPS`.
    pub fn capabilities(&mut self, fd: u32) -> Result<u32, Refusal> {
        self.number(fd, Request::GetCaps, 0)
    }

    /// Bytes of a fragment.
    pub fn fragment_bytes(&mut self, fd: u32) -> Result<u32, Refusal> {
        self.number(fd, Request::GetBlkSize, 0)
    }

    /// Cuts the ring. Answers what it is cut into.
    pub fn set_fragments(&mut self, fd: u32, fragments: Fragments) -> Result<Fragments, Refusal> {
        self.ioctl(fd, Request::SetFragment, fragments.number()).map(Fragments::from)
    }

    /// What a write would take now.
    pub fn output_space(&mut self, fd: u32) -> Result<Space, Refusal> {
        self.asked(fd, Request::GetOSpace)
    }

    /// What a read would get now.
    pub fn input_space(&mut self, fd: u32) -> Result<Space, Refusal> {
        self.asked(fd, Request::GetISpace)
    }

    /// How far a channel has played.
    pub fn output_position(&mut self, fd: u32) -> Result<Position, Refusal> {
        self.asked(fd, Request::GetOPtr)
    }

    /// How far a channel has recorded.
    pub fn input_position(&mut self, fd: u32) -> Result<Position, Refusal> {
        self.asked(fd, Request::GetIPtr)
    }

    /// Bytes that are still to be heard.
    pub fn output_delay(&mut self, fd: u32) -> Result<u64, Refusal> {
        self.ioctl(fd, Request::GetODelay, 0).map(|it| it.first)
    }

    /// Shortages since the last answer.
    pub fn errors(&mut self, fd: u32) -> Result<Errors, Refusal> {
        self.asked(fd, Request::GetError)
    }

    /// Says whether the channel may start.
    pub fn set_trigger(&mut self, fd: u32, trigger: Trigger) -> Result<(), Refusal> {
        self.ioctl(fd, Request::SetTrigger, trigger.number()).map(|_| ())
    }

    /// Whether the channel may start.
    pub fn trigger(&mut self, fd: u32) -> Result<Trigger, Refusal> {
        self.ioctl(fd, Request::GetTrigger, 0).map(|it| Trigger::from_number(it.first))
    }

    /// Sets the volume of both sides.
    pub fn set_volume(&mut self, fd: u32, volume: Volume) -> Result<(), Refusal> {
        self.ioctl(fd, Request::SetPlayVol, volume.number()).map(|_| ())
    }

    /// The volume of both sides.
    pub fn volume(&mut self, fd: u32) -> Result<Volume, Refusal> {
        self.asked(fd, Request::GetPlayVol)
    }

    /// Starts the channel now.
    pub fn post(&mut self, fd: u32) -> Result<(), Refusal> {
        self.ioctl(fd, Request::Post, 0).map(|_| ())
    }

    /// No more comes for now: what is there plays to its end.
    pub fn sync(&mut self, fd: u32) -> Result<(), Refusal> {
        self.ioctl(fd, Request::Sync, 0).map(|_| ())
    }

    /// Drops what is there.
    pub fn halt(&mut self, fd: u32) -> Result<(), Refusal> {
        self.ioctl(fd, Request::Halt, 0).map(|_| ())
    }

    /// Makes a descriptor a member of a group: of a new one by 0, or of one that is there. Answers its number, 1 to 8.
    pub fn join(&mut self, fd: u32, group: u32) -> Result<u32, Refusal> {
        let mut answer = Answer::default();
        // SAFETY: see `open`.
        accepted(unsafe { raw::dsp_engine_join(&mut self.handle, fd, group, &mut answer) })?;
        Ok(answer.first as u32)
    }

    /// Starts all members of a group at one frame. The group is gone then.
    pub fn start(&mut self, fd: u32, group: u32) -> Result<(), Refusal> {
        // SAFETY: see `open`.
        accepted(unsafe { raw::dsp_engine_start(&mut self.handle, fd, group) }).map(|_| ())
    }

    /// Closes a descriptor. What was written plays to its end; what was recorded and not read is dropped.
    pub fn close(&mut self, fd: u32) -> Result<(), Refusal> {
        // SAFETY: see `open`.
        accepted(unsafe { raw::dsp_engine_close(&mut self.handle, fd) }).map(|_| ())
    }

    /// Asks something of the mixer device. The functions below ask each request by its name.
    pub fn mixer(&mut self, request: MixerRequest, slot: u32, value: u32) -> Result<Answer, Refusal> {
        let mut answer = Answer::default();
        // SAFETY: see `open`.
        accepted(unsafe { raw::dsp_engine_mixer(&mut self.handle, request as u32, slot, value, &mut answer) })?;
        Ok(answer)
    }

    /// Sets the volume of all that is mixed.
    pub fn set_master(&mut self, volume: Volume) -> Result<(), Refusal> {
        self.mixer(MixerRequest::SetMaster, 0, volume.number()).map(|_| ())
    }

    /// The volume of all that is mixed.
    pub fn master(&mut self) -> Result<Volume, Refusal> {
        self.mixer(MixerRequest::GetMaster, 0, 0).map(Volume::from)
    }

    /// Sets the volume of what is heard of a slot.
    pub fn set_slot(&mut self, slot: u32, volume: Volume) -> Result<(), Refusal> {
        self.mixer(MixerRequest::SetSlot, slot, volume.number()).map(|_| ())
    }

    /// The volume of what is heard of a slot.
    pub fn slot(&mut self, slot: u32) -> Result<Volume, Refusal> {
        self.mixer(MixerRequest::GetSlot, slot, 0).map(Volume::from)
    }

    /// Mutes a slot, or lets it be heard again.
    pub fn mute_slot(&mut self, slot: u32, is_muted: bool) -> Result<(), Refusal> {
        self.mixer(MixerRequest::MuteSlot, slot, u32::from(is_muted)).map(|_| ())
    }

    /// The device takes `frames` frames, 1 to those of its ring: their bytes, at the front of `out`. With them come the samples that it
    /// captured meanwhile, of 32 bits, as many as it has channels for each frame; where there are fewer, silence follows.
    pub fn interrupt<'a>(&mut self, frames: u32, samples: &[i32], out: &'a mut [u8]) -> Result<&'a mut [u8], Refusal> {
        // SAFETY: as many samples stand there, and there is as much room.
        let count = accepted(unsafe {
            raw::dsp_engine_interrupt(&mut self.handle, frames, samples.as_ptr(), samples.len(), out.as_mut_ptr(), out.len())
        })?;
        Ok(&mut out[..count as usize])
    }

    /// The device takes `frames` frames, as by `interrupt`, and nobody hears them. Answers how many bytes these are.
    pub fn discard(&mut self, frames: u32, samples: &[i32]) -> Result<usize, Refusal> {
        // SAFETY: as many samples stand there, and a null room of no bytes has what is handed over let go.
        let count = accepted(unsafe {
            raw::dsp_engine_interrupt(&mut self.handle, frames, samples.as_ptr(), samples.len(), std::ptr::null_mut(), 0)
        })?;
        Ok(count as usize)
    }

    /// How many frames the engine still hands over. Nothing but interrupts uses them up.
    pub fn frames_left(&mut self) -> u64 {
        // SAFETY: see `open`.
        unsafe { raw::dsp_engine_frames_left(&mut self.handle) }
    }

    /// How the channel of a descriptor is. No question is a step, and none changes anything.
    pub fn settings(&mut self, fd: u32) -> Result<Settings, Refusal> {
        let mut told = raw::SettingsNumbers::default();
        // SAFETY: see `open`.
        accepted(unsafe { raw::dsp_engine_settings(&mut self.handle, fd, &mut told) })?;
        Ok(Settings::from(told))
    }

    /// What `ioctl` would answer now: no position and no shortage counts as answered by it.
    pub fn peek(&mut self, fd: u32, request: Request, argument: u32) -> Result<Answer, Refusal> {
        let mut answer = Answer::default();
        // SAFETY: see `open`.
        accepted(unsafe { raw::dsp_engine_peek(&mut self.handle, fd, request as u32, argument, &mut answer) })?;
        Ok(answer)
    }

    /// How a slot of a way is, by the number that `open` answers.
    pub fn slot_status(&mut self, way: Way, number: u32) -> Result<Slot, Refusal> {
        let mut told = raw::SlotNumbers::default();
        // SAFETY: see `open`.
        accepted(unsafe { raw::dsp_engine_slot(&mut self.handle, way as u32, number, &mut told) })?;
        Ok(Slot::from(told))
    }

    /// Whether no slot of any way is taken: nothing plays, records or drains.
    pub fn is_idle(&mut self) -> bool {
        // SAFETY: see `open`.
        unsafe { raw::dsp_engine_is_idle(&mut self.handle) == 1 }
    }

    /// Which descriptors are ready: a byte can be written, or read.
    pub fn ready(&mut self) -> Ready {
        let mut ready = Ready::default();
        // SAFETY: see `open`.
        unsafe { raw::dsp_engine_ready(&mut self.handle, &mut ready.writable, &mut ready.readable) };
        ready
    }

    /// After how many frames that interrupts take a write of `bytes` bytes fits whole, or as many can be read, if nothing else happens.
    pub fn frames_until(&mut self, fd: u32, bytes: u32) -> Result<u64, Refusal> {
        // SAFETY: see `open`.
        accepted_long(unsafe { raw::dsp_engine_frames_until(&mut self.handle, fd, bytes) })
    }
}

impl Drop for Engine {
    fn drop(&mut self) {
        // SAFETY: see `open`. There is no engine after it, and nobody to ask.
        unsafe { raw::dsp_engine_free(&mut self.handle) }
    }
}
