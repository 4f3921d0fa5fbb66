//! Sample formats.

/// A sample format, by its code of `SNDCTL_DSP_SETFMT`: the bits, and which byte comes first. 24 bits are three bytes.
#[repr(u32)]
#[derive(Clone, Copy, Debug, PartialEq, Eq, Hash)]
#[allow(missing_docs)]
pub enum Format {
    U8 = 0x8,
    S8 = 0x40,
    S16Le = 0x10,
    S16Be = 0x20,
    U16Le = 0x80,
    U16Be = 0x100,
    S24Le = 0x10000,
    S24Be = 0x20000,
    U24Le = 0x40000,
    U24Be = 0x80000,
    S32Le = 0x1000,
    S32Be = 0x2000,
    U32Le = 0x4000,
    U32Be = 0x8000,
}

impl Format {
    /// All formats, those of fewer bits first.
    pub const ALL: [Format; 14] = [
        Format::U8,
        Format::S8,
        Format::S16Le,
        Format::S16Be,
        Format::U16Le,
        Format::U16Be,
        Format::S24Le,
        Format::S24Be,
        Format::U24Le,
        Format::U24Be,
        Format::S32Le,
        Format::S32Be,
        Format::U32Le,
        Format::U32Be,
    ];

    /// Its code.
    pub const fn code(self) -> u32 {
        self as u32
    }

    /// The format of a code.
    pub fn from_code(code: u32) -> Option<Format> {
        Format::ALL.into_iter().find(|it| it.code() == code)
    }
}
