//! What calls are answered, by docs/SCRIPTS.md and by hand.

use dsp_engine::{
    Device, Engine, Errors, Filter, Format, Fragments, MixerRequest, Position, Ready, Refusal, Request, Section, Settings, Slot,
    SlotState, Space, State, Trigger, Volume, Way,
};

/// One client plays, one records, one is mapped; the ring has 16 frames.
fn small() -> Device {
    Device { ring_frames: 16, play_slots: 1, record_slots: 1, map_slots: 1, quality: 2, ..Device::default() }
}

fn engine() -> Engine {
    Engine::new(&small(), &[], &[]).unwrap()
}

#[test]
fn requests_of_an_opening() {
    let mut engine = engine();
    assert_eq!(engine.open(5, Way::Play, Format::U8, 1, 8000), Ok(0));
    assert_eq!((engine.format(5), engine.channels(5), engine.rate(5)), (Ok(8), Ok(1), Ok(8000)));
    assert_eq!(engine.set_format(5, Format::S24Be), Ok(()));
    assert_eq!(engine.set_channels(5, 6), Ok(()));
    assert_eq!(engine.set_rate(5, 44100), Ok(()));
    assert_eq!((engine.format(5), engine.channels(5), engine.rate(5)), (Ok(0x20000), Ok(6), Ok(44100)));
    assert_eq!(engine.formats(5), Ok(Format::ALL.iter().map(|it| it.code()).sum()));
    assert_eq!((engine.capabilities(5), engine.fragment_bytes(5)), (Ok(0x1200), Ok(4096)));
    assert_eq!(engine.trigger(5), Ok(Trigger { record: false, play: true }));
}

#[test]
fn room_and_delay() {
    let mut engine = engine();
    let cut = Fragments { count: 2, power: 4 };
    let space = Space { fragments: 1, fragments_in_all: 2, fragment_bytes: 16, bytes: 20 };
    engine.open(0, Way::Play, Format::S16Le, 2, 48000).unwrap();
    assert_eq!(engine.set_fragments(0, cut), Ok(cut));
    assert_eq!(engine.write(0, &[0; 12]), Ok(12));
    assert_eq!((engine.output_space(0), engine.output_delay(0)), (Ok(space), Ok(12)));
    assert_eq!(engine.write(0, &[0; 100]), Ok(20));
    assert_eq!(engine.write(0, &[0; 100]), Err(Refusal::Again));
    assert_eq!(engine.write(0, &[]), Ok(0));
    assert_eq!(engine.halt(0), Ok(()));
    assert_eq!(engine.errors(0), Ok(Errors { underruns: 0, overruns: 0 }));
}

#[test]
fn volumes() {
    let mut engine = engine();
    let half = Volume { left: 100, right: 50 };
    engine.open(0, Way::Play, Format::S16Le, 2, 48000).unwrap();
    assert_eq!((engine.set_volume(0, half), engine.volume(0)), (Ok(()), Ok(half)));
    assert_eq!((engine.set_master(half), engine.master()), (Ok(()), Ok(half)));
    assert_eq!((engine.set_slot(1, half), engine.slot(1)), (Ok(()), Ok(half)));
    assert_eq!(engine.set_master(Volume { left: 101, right: 0 }), Err(Refusal::Invalid));
    assert_eq!(engine.mixer(MixerRequest::GetMaster, 0, 0).map(|it| it.first), Ok(0x3264));
}

#[test]
fn three_frames_come_of_four_that_are_captured() {
    let mut engine = engine();
    let samples: Vec<i32> = [1, -1, 2, -2, 3, -3].iter().map(|it| it << 16).collect();
    let (mut out, mut room) = ([9; 16], [9; 4096]);
    engine.open(2, Way::Record, Format::S16Le, 2, 48000).unwrap();
    assert_eq!(engine.read(2, &mut room), Err(Refusal::Again));
    engine.set_trigger(2, Trigger { record: true, play: false }).unwrap();
    assert_eq!(engine.interrupt(4, &samples, &mut out).map(|it| it.to_vec()), Ok(vec![0; 16]));
    assert_eq!(engine.input_space(2).map(|it| it.bytes), Ok(16));
    assert_eq!(engine.input_position(2), Ok(Position { bytes: 16, blocks: 0, place: 16 }));
    assert_eq!(engine.read(2, &mut room).unwrap(), [1, 0, 255, 255, 2, 0, 254, 255, 3, 0, 253, 255, 0, 0, 0, 0]);
    assert_eq!(room[16], 9);
    assert_eq!(engine.read(2, &mut []).map(|it| it.len()), Ok(0));
}

#[test]
fn a_mapped_channel_and_a_group() {
    let mut engine = engine();
    assert_eq!(engine.open(3, Way::Map, Format::S16Le, 2, 48000), Ok(1));
    assert_eq!(engine.poke(3, 16380, &[1, 2, 3, 4]), Ok(()));
    assert_eq!(engine.poke(3, 16381, &[1, 2, 3, 4]), Err(Refusal::Invalid));
    assert_eq!(engine.join(3, 0), Err(Refusal::Invalid));
    engine.open(0, Way::Play, Format::S16Le, 2, 48000).unwrap();
    assert_eq!(engine.join(0, 0), Ok(1));
    assert_eq!(engine.start(0, 1), Err(Refusal::Busy));
    assert_eq!(engine.write(0, &[0; 4]), Ok(4));
    assert_eq!(engine.start(0, 1), Ok(()));
    assert_eq!(engine.start(0, 1), Err(Refusal::Invalid));
    assert_eq!((engine.sync(0), engine.close(0), engine.close(0)), (Ok(()), Ok(()), Err(Refusal::BadDescriptor)));
}

/// A filter from 24000 to 48000 gives each frame, and then the mean of it and the next; the section halves.
#[test]
fn filters_and_sections() {
    let filter = Filter { src: 24000, dst: 48000, phases: 2, taps: 2, shift: 1, coefs: &[2, 0, 1, 1] };
    let half = Section { shift: 1, b0: 1, b1: 0, b2: 0, a1: 0, a2: 0 };
    let mut engine = Engine::new(&small(), &[filter], &[half]).unwrap();
    let mut out = [0; 64];
    engine.open(0, Way::Play, Format::S16Le, 2, 24000).unwrap();
    engine.write(0, &[0, 0, 0, 0, 200, 0, 200, 0]).unwrap();
    engine.close(0).unwrap();
    engine.interrupt(16, &[], &mut out).unwrap();
    let heard = engine.interrupt(4, &[], &mut out).unwrap();
    assert_eq!(heard, [0, 0, 0, 0, 50, 0, 50, 0, 100, 0, 100, 0, 50, 0, 50, 0]);
    let short = Filter { coefs: &[2, 0, 1], ..filter };
    assert_eq!(Engine::new(&small(), &[short], &[]).err(), Some(Refusal::WrongArgument));
}

#[test]
fn numbers_outside_their_limits() {
    let mut engine = engine();
    let mut out = [9; 64];
    let no_device = Device { channels: 3, ..small() };
    assert_eq!(Engine::new(&no_device, &[], &[]).err(), Some(Refusal::WrongArgument));
    assert_eq!(engine.close(64), Err(Refusal::WrongArgument));
    assert_eq!(engine.open(0, Way::Play, Format::U8, 5, 8000), Err(Refusal::Invalid));
    assert_eq!(engine.interrupt(0, &[], &mut out), Err(Refusal::WrongArgument));
    assert_eq!(engine.interrupt(17, &[], &mut out), Err(Refusal::WrongArgument));
    assert_eq!(engine.interrupt(1, &[0; 3], &mut out), Err(Refusal::WrongArgument));
    assert_eq!(engine.interrupt(2, &[0; 3], &mut out), Err(Refusal::WrongArgument));
    assert_eq!(engine.interrupt(16, &[], &mut out[..63]), Err(Refusal::ShortRoom));
    assert_eq!(engine.close(0), Err(Refusal::BadDescriptor));
    assert_eq!(engine.frames_left(), 70368744177664);
    assert_eq!(out, [9; 64]);
}

#[test]
fn refusals_have_numbers_texts_and_errnos() {
    let mut engine = engine();
    let refusal = engine.ioctl(0, Request::Post, 0).unwrap_err();
    assert_eq!((refusal, refusal.number()), (Refusal::BadDescriptor, -4));
    assert!(!refusal.to_string().is_empty());
    let system = std::io::Error::from(Refusal::Again);
    assert_eq!(system.kind(), std::io::ErrorKind::WouldBlock);
    assert_eq!(Engine::version().0, 2);
}

#[test]
fn an_engine_may_be_used_by_another_thread() {
    let mut engine = engine();
    engine.open(0, Way::Play, Format::S16Le, 2, 48000).unwrap();
    let taken = std::thread::spawn(move || engine.write(0, &[0; 12])).join().unwrap();
    assert_eq!(taken, Ok(12));
}

#[test]
fn what_nobody_hears_is_let_go() {
    let mut engine = engine();
    let mut out = [0; 64];
    engine.open(0, Way::Play, Format::S16Le, 2, 48000).unwrap();
    engine.write(0, &[7; 64]).unwrap();
    engine.post(0).unwrap();
    assert_eq!(engine.discard(17, &[]), Err(Refusal::WrongArgument));
    assert_eq!(engine.discard(16, &[]), Ok(64));
    engine.interrupt(16, &[], &mut out).unwrap();
    assert_eq!(out, [7; 64]);
}

#[test]
fn a_clone_goes_on_where_its_engine_is() {
    let mut engine = engine();
    let mut out = [0; 64];
    engine.open(0, Way::Play, Format::S16Le, 2, 48000).unwrap();
    engine.write(0, &[7; 64]).unwrap();
    engine.post(0).unwrap();
    engine.discard(16, &[]).unwrap();
    let mut clone = engine.try_clone().unwrap();
    assert_eq!((engine.close(0), clone.frames_left()), (Ok(()), engine.frames_left()));
    drop(engine);
    assert_eq!(clone.interrupt(16, &[], &mut out).map(|it| it.to_vec()), Ok(vec![7; 64]));
    assert_eq!(clone.errors(0), Ok(Errors { underruns: 1, overruns: 0 }));
}

#[test]
fn an_engine_goes_on_where_a_state_was_saved() {
    let mut engine = engine();
    let mut out = [0; 64];
    engine.open(0, Way::Play, Format::S16Le, 2, 48000).unwrap();
    engine.write(0, &[7; 64]).unwrap();
    engine.post(0).unwrap();
    engine.discard(16, &[]).unwrap();
    let mut state = vec![9; engine.state_size() + 1];
    let size = state.len() - 1;
    assert_eq!(engine.save(&mut state[..size - 1]), Err(Refusal::ShortRoom));
    assert_eq!(state, vec![9; size + 1]);
    assert_eq!((engine.save(&mut state), state[size]), (Ok(size), 9));
    engine.close(0).unwrap();
    let mut other = Engine::new(&small(), &[], &[]).unwrap();
    for it in [&mut engine, &mut other] {
        let mut again = vec![0; size];
        assert_eq!((it.load(&state[..size]), it.save(&mut again)), (Ok(()), Ok(size)));
        assert_eq!(again, state[..size]);
        assert_eq!(it.interrupt(16, &[], &mut out).map(|it| it.to_vec()), Ok(vec![7; 64]));
        assert_eq!(it.errors(0), Ok(Errors { underruns: 1, overruns: 0 }));
    }
}

#[test]
fn states_that_are_refused() {
    let mut engine = engine();
    let mut state = vec![0; engine.state_size() + 1];
    let size = engine.save(&mut state).unwrap();
    engine.open(0, Way::Play, Format::S16Le, 2, 48000).unwrap();
    assert!(engine.load(&[]).is_err());
    assert_eq!(engine.load(&state[..size - 1]), Err(Refusal::ShortState));
    assert_eq!(engine.load(&state), Err(Refusal::LongState));
    state[0] ^= 1;
    assert_eq!(engine.load(&state[..size]), Err(Refusal::NotAState));
    state[0] ^= 1;
    let mut other = Engine::new(&Device::default(), &[], &[]).unwrap();
    assert_eq!(other.load(&state[..size]), Err(Refusal::OtherDevice));
    assert_eq!((Refusal::NotAState.number(), Refusal::OutOfOrder.number()), (-12, -17));
    assert_eq!((engine.write(0, &[0; 4]), engine.load(&state[..size])), (Ok(4), Ok(())));
    assert_eq!(engine.close(0), Err(Refusal::BadDescriptor));
}

#[test]
fn questions_change_nothing() {
    let mut engine = Engine::new(&Device { map_slots: 1, ..Device::default() }, &[], &[]).unwrap();
    engine.open(2, Way::Play, Format::S16Le, 2, 48000).unwrap();
    let opened = Settings {
        way: Way::Play,
        slot: 0,
        format: Some(Format::S16Le),
        channels: 2,
        rate: 48000,
        fragments: 4,
        fragment_bytes: 4096,
        trigger: true,
        volume: Volume { left: 100, right: 100 },
        group: None,
        state: State::Setup,
    };
    assert_eq!((engine.settings(2), engine.settings(3)), (Ok(opened), Err(Refusal::BadDescriptor)));
    assert_eq!(engine.ready(), Ready { writable: 4, readable: 0 });
    assert_eq!(engine.write(2, &[0; 16384]), Ok(16384));
    assert_eq!(engine.ready(), Ready::default());
    assert_eq!((engine.frames_until(2, 4096), engine.frames_until(2, 16385)), (Ok(1024), Err(Refusal::Busy)));
    engine.interrupt(1024, &[], &mut [0; 4096]).unwrap();
    for _ in 0..2 {
        assert_eq!(engine.peek(2, Request::GetOPtr, 0).map(|it| it.second), Ok(1));
    }
    assert_eq!(engine.slot_status(Way::Play, 0), Ok(Slot { state: SlotState::Held, frames: 3072 }));
    assert_eq!(engine.slot_status(Way::Map, 4), Ok(Slot { state: SlotState::Free, frames: 0 }));
    assert!(!engine.is_idle());
    assert_eq!(engine.frames_left(), Engine::new(&Device::default(), &[], &[]).unwrap().frames_left() - 1024);
}
