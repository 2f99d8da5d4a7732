//! The calls of include/counterfrost.h for Rust. A slice is never null and says its own length, and the borrows rule out overlaps: all
//! that the header asks of a caller is seen to here, so the functions are safe.
#![allow(dead_code)]

mod c {
    extern "C" {
        pub fn cf_version() -> u64;
        pub fn cf_house_slope(p: usize) -> u64;
        pub fn cf_takes(kind: usize, p: usize, l: usize) -> u64;
        pub fn cf_write(kind: usize, p: usize, l: usize, text: *const u8, text_len: usize, tile: *mut u8, tile_len: usize) -> u64;
        pub fn cf_read(kind: usize, p: usize, l: usize, tile: *const u8, tile_len: usize, text: *mut u8, text_len: usize) -> u64;
        pub fn cf_repair(kind: usize, p: usize, l: usize, tile: *mut u8, tile_len: usize) -> u64;
        pub fn cf_inspect(kind: usize, p: usize, l: usize, scan: *const u8, scan_len: usize) -> u64;
        pub fn cf_recover(kind: usize, p: usize, l: usize, scan: *const u8, scan_len: usize, text: *mut u8, text_len: usize) -> u64;
        pub fn cf_fill(kind: usize, p: usize, l: usize, tile: *mut u8, tile_len: usize, first: usize, second: usize) -> u64;
        pub fn cf_judge(
            p: usize, l: usize, scan: *const u8, scan_len: usize, restored: *const u8, restored_len: usize, first: usize, second: usize,
        ) -> u64;
        pub fn cf_correct(
            kind: usize, p: usize, l: usize, tile: *mut u8, tile_len: usize, sheet: *const u8, sheet_len: usize, count_or_offset: &mut u64,
        ) -> u64;
        pub fn cf_next(
            reel: *const u8, reel_len: usize, at: usize, kind: &mut u64, number: &mut u64, p: &mut u64, l: &mut u64, first: &mut u64,
            second: &mut u64, offset: &mut u64,
        ) -> u64;
        pub fn cf_lay(
            which: usize, p: usize, l: usize, number: u32, first: usize, second: usize, tile: *const u8, tile_len: usize, room: *mut u8,
            room_len: usize, length: &mut u64,
        ) -> u64;
    }
}

/// The kind of a tile. A new one takes the slopes that are allowed at its size. An old one takes every slope from 2 to p-2; where the slope
/// is not allowed, its repair and its filling may be doubtful, which is refused with 8.
#[derive(Clone, Copy, Debug, PartialEq, Eq)]
pub enum Kind {
    New = 0,
    Old = 1,
}

/// Why a call says no: the number, from 1 to 11 as the header has them, and in a sheet or a reel the offset of the faulty record.
#[derive(Debug, PartialEq, Eq)]
pub struct Refused {
    pub number: u16,
    pub offset: u64,
}

/// The refusal of an old tile for which two different good tiles would do.
pub const DOUBTFUL: u16 = 8;

/// The refusal of a room that is shorter than the record to be laid there.
pub const TOO_SMALL: u16 = 9;

/// The refusals of a restored tile: it is not good; it differs from the scan outside the named lines.
pub const NOT_GOOD: u16 = 10;
pub const DIFFERS_ELSEWHERE: u16 = 11;

/// A row or a column of a tile.
#[derive(Clone, Copy, Debug, PartialEq, Eq)]
pub enum Line {
    Row(u8),
    Column(u8),
}

/// What a repair puts right: one byte, or two bytes or more, all of one line.
#[derive(Clone, Copy, Debug, PartialEq, Eq)]
pub enum Hurt {
    Cell { row: u8, column: u8 },
    Line(Line),
}

/// A record of a reel: that of a new tile or of an old one, without flags; or that of a new tile with two flags, each of which is a line
/// that the scanner lost, or none.
#[derive(Clone, Copy, Debug, PartialEq, Eq)]
pub enum Record {
    New,
    Old,
    Flagged(Option<Line>, Option<Line>),
}

/// A tile on a reel: its kind, number, size and slope, its two flags, and the offset where its bytes begin.
#[derive(Debug, PartialEq, Eq)]
pub struct Tile {
    pub kind: Kind,
    pub number: u32,
    pub p: usize,
    pub l: usize,
    pub first: Option<Line>,
    pub second: Option<Line>,
    pub offset: usize,
}

impl Tile {
    /// The lines to `fill`, where there is a flag: if only one is set, its line comes twice. Without a flag the tile is to be repaired.
    pub fn lost(&self) -> Option<(Line, Line)> {
        Some((self.first.or(self.second)?, self.second.or(self.first)?))
    }
}

/// The kind and the two numbers of an answer that is no refusal.
fn taken(answer: u64, offset: u64) -> Result<(u64, u16, u16), Refused> {
    let (kind, first, second) = (answer >> 32, (answer >> 16) as u16, answer as u16);
    if kind == 4 {
        Err(Refused { number: first, offset })
    } else {
        Ok((kind, first, second))
    }
}

/// What an answer to `repair`, `inspect` or `recover` names; nothing where the tile is good.
fn hurt(answer: u64) -> Result<Option<Hurt>, Refused> {
    taken(answer, 0).map(|(kind, first, second)| match kind {
        0 => None,
        1 => Some(Hurt::Line(Line::Column(first as u8))),
        2 => Some(Hurt::Line(Line::Row(first as u8))),
        3 => Some(Hurt::Cell { row: first as u8, column: second as u8 }),
        _ => unreachable!("a repair is not answered by kind {}", kind),
    })
}

/// What a column's number is added to when it is named, and the flag for no line.
const COLUMNS: usize = 0x8000;
const NO_FLAG: usize = 0xffff;

fn name(line: Line) -> usize {
    match line {
        Line::Row(r) => usize::from(r),
        Line::Column(c) => COLUMNS + usize::from(c),
    }
}

fn name_flag(flag: Option<Line>) -> usize {
    flag.map_or(NO_FLAG, name)
}

/// The flag that `cf_next` gives as a number. It is none, or a line of the tile, whose number fits a byte.
fn flag(number: usize) -> Option<Line> {
    match number {
        NO_FLAG => None,
        COLUMNS.. => Some(Line::Column((number - COLUMNS) as u8)),
        _ => Some(Line::Row(number as u8)),
    }
}

/// How many bytes a tile of size p has, and its text.
pub fn tile_len(p: usize) -> usize {
    (p - 1) * (p - 1)
}

pub fn text_len(p: usize) -> usize {
    (p - 1) * (p - 3)
}

/// The library's version: 10000 times the first of its numbers, 100 times the second, and the third.
pub fn version() -> u64 {
    unsafe { c::cf_version() }
}

/// The house slope of the size p.
pub fn house_slope(p: usize) -> Result<usize, Refused> {
    taken(unsafe { c::cf_house_slope(p) }, 0).map(|(_, slope, _)| usize::from(slope))
}

/// Whether p is a size and l a slope that the kind can use there, and if not, why.
pub fn takes(kind: Kind, p: usize, l: usize) -> Result<(), Refused> {
    taken(unsafe { c::cf_takes(kind as usize, p, l) }, 0).map(|_| ())
}

/// Writes the good tile that has the text.
pub fn write(kind: Kind, p: usize, l: usize, text: &[u8], tile: &mut [u8]) -> Result<(), Refused> {
    taken(unsafe { c::cf_write(kind as usize, p, l, text.as_ptr(), text.len(), tile.as_mut_ptr(), tile.len()) }, 0).map(|_| ())
}

/// Reads the text out of a good tile.
pub fn read(kind: Kind, p: usize, l: usize, tile: &[u8], text: &mut [u8]) -> Result<(), Refused> {
    taken(unsafe { c::cf_read(kind as usize, p, l, tile.as_ptr(), tile.len(), text.as_mut_ptr(), text.len()) }, 0).map(|_| ())
}

/// Repairs one hurt column, or one hurt row, and names what was hurt; nothing where the tile is good.
pub fn repair(kind: Kind, p: usize, l: usize, tile: &mut [u8]) -> Result<Option<Hurt>, Refused> {
    hurt(unsafe { c::cf_repair(kind as usize, p, l, tile.as_mut_ptr(), tile.len()) })
}

/// Names what is hurt in a scan, as `repair` would, and changes nothing.
pub fn inspect(kind: Kind, p: usize, l: usize, scan: &[u8]) -> Result<Option<Hurt>, Refused> {
    hurt(unsafe { c::cf_inspect(kind as usize, p, l, scan.as_ptr(), scan.len()) })
}

/// Reads the text of the tile that `repair` would make of a scan, and names what is hurt in the scan, which stays as it is. Where this is
/// refused the text stays as it was.
pub fn recover(kind: Kind, p: usize, l: usize, scan: &[u8], text: &mut [u8]) -> Result<Option<Hurt>, Refused> {
    hurt(unsafe { c::cf_recover(kind as usize, p, l, scan.as_ptr(), scan.len(), text.as_mut_ptr(), text.len()) })
}

/// Fills one or two lost lines; one line is named twice.
pub fn fill(kind: Kind, p: usize, l: usize, tile: &mut [u8], first: Line, second: Line) -> Result<(), Refused> {
    taken(unsafe { c::cf_fill(kind as usize, p, l, tile.as_mut_ptr(), tile.len(), name(first), name(second)) }, 0).map(|_| ())
}

/// Judges a new tile that somebody restored from a scan in one or two lines; one line is named twice. It is accepted exactly if `fill`
/// makes this very tile of the scan.
pub fn judge(p: usize, l: usize, scan: &[u8], restored: &[u8], first: Line, second: Line) -> Result<(), Refused> {
    let answer =
        unsafe { c::cf_judge(p, l, scan.as_ptr(), scan.len(), restored.as_ptr(), restored.len(), name(first), name(second)) };
    taken(answer, 0).map(|_| ())
}

/// Corrects a tile, sound or damaged, by a sheet, and counts its records.
pub fn correct(kind: Kind, p: usize, l: usize, tile: &mut [u8], sheet: &[u8]) -> Result<u64, Refused> {
    let mut told = 0;
    let answer = unsafe { c::cf_correct(kind as usize, p, l, tile.as_mut_ptr(), tile.len(), sheet.as_ptr(), sheet.len(), &mut told) };
    taken(answer, told).map(|_| told)
}

/// What stands at a place of a reel: a tile, or nothing at the end.
pub fn next(reel: &[u8], at: usize) -> Result<Option<Tile>, Refused> {
    let (mut kind, mut number, mut p, mut l, mut first, mut second, mut offset) = (0, 0, 0, 0, 0, 0, 0);
    let answer = unsafe {
        c::cf_next(
            reel.as_ptr(), reel.len(), at, &mut kind, &mut number, &mut p, &mut l, &mut first, &mut second, &mut offset,
        )
    };
    let (answered, ..) = taken(answer, offset)?;
    let tile = Tile {
        kind: if kind == 1 { Kind::Old } else { Kind::New },
        number: number as u32,
        p: p as usize,
        l: l as usize,
        first: flag(first as usize),
        second: flag(second as usize),
        offset: offset as usize,
    };
    Ok((answered == 0).then_some(tile))
}

/// Lays the record of a tile into the first bytes of a room, and says how many these are. The tile is not judged: it may be hurt.
pub fn lay(record: Record, p: usize, l: usize, number: u32, tile: &[u8], room: &mut [u8]) -> Result<usize, Refused> {
    let (which, first, second) = match record {
        Record::New => (0, None, None),
        Record::Old => (1, None, None),
        Record::Flagged(first, second) => (2, first, second),
    };
    let (first, second, mut length) = (name_flag(first), name_flag(second), 0);
    let answer = unsafe {
        c::cf_lay(
            which, p, l, number, first, second, tile.as_ptr(), tile.len(), room.as_mut_ptr(), room.len(), &mut length,
        )
    };
    taken(answer, 0).map(|_| length as usize)
}
