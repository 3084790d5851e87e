//! The eighteen request words.

pub const QUERYCAP: u32 = 0x8068_5600;
pub const ENUM_FMT: u32 = 0xC040_5602;
pub const G_FMT: u32 = 0xC0CC_5604;
pub const S_FMT: u32 = 0xC0CC_5605;
pub const TRY_FMT: u32 = 0xC0CC_5640;
pub const REQBUFS: u32 = 0xC014_5608;
pub const QUERYBUF: u32 = 0xC044_5609;
pub const QBUF: u32 = 0xC044_560F;
pub const DQBUF: u32 = 0xC044_5611;
pub const STREAMON: u32 = 0x4004_5612;
pub const STREAMOFF: u32 = 0x4004_5613;
pub const G_CTRL: u32 = 0xC008_561B;
pub const S_CTRL: u32 = 0xC008_561C;
pub const QUERYCTRL: u32 = 0xC044_5624;
pub const CROPCAP: u32 = 0xC02C_563A;
pub const G_CROP: u32 = 0xC014_563B;
pub const S_CROP: u32 = 0x4014_563C;
pub const G_SLICED_VBI_CAP: u32 = 0xC074_5645;

/// All of them, with their names.
pub const ALL: [(u32, &str); 18] = [
    (QUERYCAP, "QUERYCAP"),
    (ENUM_FMT, "ENUM_FMT"),
    (G_FMT, "G_FMT"),
    (S_FMT, "S_FMT"),
    (TRY_FMT, "TRY_FMT"),
    (REQBUFS, "REQBUFS"),
    (QUERYBUF, "QUERYBUF"),
    (QBUF, "QBUF"),
    (DQBUF, "DQBUF"),
    (STREAMON, "STREAMON"),
    (STREAMOFF, "STREAMOFF"),
    (G_CTRL, "G_CTRL"),
    (S_CTRL, "S_CTRL"),
    (QUERYCTRL, "QUERYCTRL"),
    (CROPCAP, "CROPCAP"),
    (G_CROP, "G_CROP"),
    (S_CROP, "S_CROP"),
    (G_SLICED_VBI_CAP, "G_SLICED_VBI_CAP"),
];

/// The argument size that a word names in its bits 29 to 16.
pub const fn size(word: u32) -> usize {
    (word >> 16 & 0x3fff) as usize
}

/// Where the argument of a word names a buffer type, if it does.
pub const fn type_at(word: u32) -> Option<usize> {
    match word {
        ENUM_FMT | REQBUFS | QUERYBUF | QBUF | DQBUF => Some(4),
        G_FMT | S_FMT | TRY_FMT | STREAMON | STREAMOFF | CROPCAP | G_CROP | S_CROP => Some(0),
        G_SLICED_VBI_CAP => Some(100),
        _ => None,
    }
}
