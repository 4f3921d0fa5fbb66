//! Two clients of one device, as in a_mute.c: the replies and the bytes of examples/17-a-mute.

use dsp_engine::{Device, Engine, Format, Refusal, Way};
use std::fs::File;
use std::io::Write;
use std::process::ExitCode;

const FRAMES: u32 = 4;
const MUSIC: u32 = 0;
const VOICE: u32 = 1;

/// Prints replies, each with the number of its call.
struct Replies {
    line: u32,
}

impl Replies {
    fn tell(&mut self, told: Result<String, Refusal>) {
        self.line += 1;
        match told {
            Ok(answer) => println!("{}: ok{answer}", self.line),
            Err(refusal) => println!("{}: refused {refusal}", self.line),
        }
    }
}

/// Twelve frames: frame n, from 1 on, is n on the left and 256 + n on the right, times a scale.
fn frames(scale: u16) -> Vec<u8> {
    (1..=12u16).flat_map(|n| [scale * n, scale * (256 + n)]).flat_map(u16::to_le_bytes).collect()
}

fn play(engine: &mut Engine, out: &mut File) -> std::io::Result<()> {
    let mut replies = Replies { line: 0 };
    let done = |()| String::new();
    for fd in [MUSIC, VOICE] {
        replies.tell(engine.open(fd, Way::Play, Format::S16Le, 2, 48000).map(|slot| format!(" {slot}")));
    }
    for (fd, scale) in [(MUSIC, 1), (VOICE, 16)] {
        replies.tell(engine.write(fd, &frames(scale)).map(|taken| format!(" {taken}")));
    }
    replies.tell(engine.post(MUSIC).map(done));
    replies.tell(engine.post(VOICE).map(done));
    interrupt(engine, out, &mut replies)?;
    replies.tell(engine.mute_slot(0, true).map(done));
    interrupt(engine, out, &mut replies)?;
    let position = engine.output_position(MUSIC);
    replies.tell(position.map(|it| format!(" bytes={} blocks={} ptr={}", it.bytes, it.blocks, it.place)));
    let volume = engine.slot(0);
    replies.tell(volume.map(|it| format!(" {}", u32::from(it.left) + 256 * u32::from(it.right))));
    replies.tell(engine.mute_slot(0, false).map(done));
    interrupt(engine, out, &mut replies)?;
    let errors = engine.errors(MUSIC);
    replies.tell(errors.map(|it| format!(" underruns={} overruns={}", it.underruns, it.overruns)));
    replies.tell(engine.close(MUSIC).map(done));
    replies.tell(engine.close(VOICE).map(done));
    interrupt(engine, out, &mut replies)?;
    interrupt(engine, out, &mut replies)
}

fn interrupt(engine: &mut Engine, out: &mut File, replies: &mut Replies) -> std::io::Result<()> {
    let mut bytes = [0; 4 * FRAMES as usize];
    let handed = engine.interrupt(FRAMES, &[], &mut bytes);
    if let Ok(handed) = &handed {
        out.write_all(handed)?;
    }
    replies.tell(handed.map(|_| format!(" {FRAMES}")));
    Ok(())
}

fn main() -> ExitCode {
    let Some(path) = std::env::args().nth(1) else {
        eprintln!("usage: a_mute OUT");
        return ExitCode::from(2);
    };
    let device = Device { ring_frames: 2 * FRAMES, ..Device::default() };
    let played = File::create(path).and_then(|mut out| play(&mut Engine::new(&device, &[], &[])?, &mut out));
    match played {
        Ok(()) => ExitCode::SUCCESS,
        Err(fault) => {
            eprintln!("a_mute: {fault}");
            ExitCode::FAILURE
        }
    }
}
