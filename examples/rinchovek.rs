//! Safe Rust over every call of include/rinchovek.h. A program takes this file as a module (`mod rinchovek;`) and says where the
//! library is (`rustc -L PREFIX/lib`, or `-L target/staticlib`). What the header says of a call holds here too; lengths that C would
//! only promise are types, what is written comes back as the answer, and a refusal is an error.
#![allow(unsafe_code)]

use std::fmt;

#[link(name = "rinchovek")]
extern "C" {
    fn rinchovek_version() -> u32;
    fn rinchovek_bc7_decode_block(block: *const u8, pixels: *mut u8);
    fn rinchovek_bc6h_decode_block(block: *const u8, is_signed: u32, halves: *mut u16);
    fn rinchovek_bc7_unpack(block: *const u8, record: *mut u8) -> u32;
    fn rinchovek_bc7_pack(record: *const u8, block: *mut u8) -> u32;
    fn rinchovek_bc7_read_line(block: *const u8, line: u32, replacement: *mut u8, widths: *mut u8) -> u32;
    fn rinchovek_bc7_replace_line(block: *mut u8, line: u32, replacement: *const u8) -> u32;
    fn rinchovek_bc7_nearest_index(block: *const u8, line: u32, pixel: u32, wanted: *const u8, index: *mut u32) -> u32;
    fn rinchovek_bc7_exact_index(block: *const u8, line: u32, pixel: u32, wanted: *const u8, index: *mut u32) -> u32;
    fn rinchovek_bc7_is_opaque(block: *const u8, columns: u32, rows: u32) -> u32;
    fn rinchovek_bc7_pixel(block: *const u8, pixel: u32, rgba: *mut u8) -> u32;
    fn rinchovek_sheet_open(sheet: *const u8, length: u64, numbers: *mut u32) -> u32;
    fn rinchovek_sheet_read_head(sheet: *const u8, length: u64, head: *mut u32) -> u32;
    fn rinchovek_sheet_read_colour_head(sheet: *const u8, length: u64, head: *mut u32) -> u32;
    fn rinchovek_sheet_write_head(width: u32, height: u32, head: *mut u8, count: *mut u32) -> u32;
    fn rinchovek_sheet_decode_row(
        width: u32,
        height: u32,
        row: u32,
        blocks: *const u8,
        blocks_length: u64,
        out: *mut u8,
        out_length: u64,
    ) -> u32;
    fn rinchovek_sheet_show_row(sheet: *const u8, length: u64, row: u32, out: *mut u8, out_length: u64) -> u32;
    fn rinchovek_sheet_block(sheet: *const u8, length: u64, block: u32, bytes: *mut u8) -> u32;
    fn rinchovek_sheet_to_tiles(sheet: *const u8, length: u64, out: *mut u8, out_length: u64) -> u32;
    fn rinchovek_sheet_to_rows(sheet: *const u8, length: u64, out: *mut u8, out_length: u64) -> u32;
    fn rinchovek_sheet_state_colour(sheet: *mut u8, length: u64, colour_space: u32) -> u32;
    fn rinchovek_sheet_count(sheet: *const u8, length: u64, counts: *mut u32) -> u32;
    fn rinchovek_sheet_replace_line_counted(
        sheet: *mut u8,
        length: u64,
        counts: *mut u32,
        block: u32,
        line: u32,
        replacement: *const u8,
    ) -> u32;
    fn rinchovek_sheet_replace_block_counted(sheet: *mut u8, length: u64, counts: *mut u32, block: u32, bytes: *const u8) -> u32;
    fn rinchovek_sheet_replace_line(
        sheet: *mut u8,
        length: u64,
        block: u32,
        line: u32,
        replacement: *const u8,
    ) -> u32;
    fn rinchovek_dds_import(dds: *const u8, dds_length: u64, sheet: *mut u8, sheet_length: u64) -> u32;
    fn rinchovek_dds_export(sheet: *const u8, sheet_length: u64, dds: *mut u8, dds_length: u64) -> u32;
    fn rinchovek_dds_import_colour(
        dds: *const u8,
        dds_length: u64,
        sheet: *mut u8,
        sheet_length: u64,
        head: *mut u32,
    ) -> u32;
    fn rinchovek_dds_export_colour(
        sheet: *const u8,
        sheet_length: u64,
        colour_space: u32,
        dds: *mut u8,
        dds_length: u64,
    ) -> u32;
    fn rinchovek_dds_import_length(dds: *const u8, dds_length: u64, sheet_length: *mut u32) -> u32;
    fn rinchovek_dds_export_length(sheet: *const u8, sheet_length: u64, dds_length: *mut u32) -> u32;
    fn rinchovek_pixel_floats(pixel: *const u8, floats: *mut f32);
    fn rinchovek_float_channel(bits: u32, channel: *mut u32) -> u32;
    fn rinchovek_row_floats(pixels: *const u8, length: u64, floats: *mut f32, count: u64) -> u32;
}

/// Why a call was refused. It then has changed nothing.
#[derive(Clone, Copy, Debug, PartialEq, Eq)]
#[repr(u32)]
pub enum Refusal {
    ReservedBlock = 1,
    NoSuchLine = 2,
    ValueTooWide = 3,
    PBitsDiffer = 4,
    WrongKind = 5,
    AnchorBitSet = 6,
    BadNumber = 7,
    UnknownForm = 8,
    BadSide = 9,
    WrongBlockBytes = 10,
    WrongOutputLength = 11,
    BeyondSheet = 12,
    PixelNotInLine = 13,
    NoExactIndex = 14,
    NotABc7Texture = 15,
    ColourSpaceStated = 16,
    BadColourSpace = 18,
    FalseCounts = 19,
    NoSuchPixel = 21,
    NotAChannel = 23,
}

impl Refusal {
    pub const ALL: [Refusal; 20] = [
        Refusal::ReservedBlock,
        Refusal::NoSuchLine,
        Refusal::ValueTooWide,
        Refusal::PBitsDiffer,
        Refusal::WrongKind,
        Refusal::AnchorBitSet,
        Refusal::BadNumber,
        Refusal::UnknownForm,
        Refusal::BadSide,
        Refusal::WrongBlockBytes,
        Refusal::WrongOutputLength,
        Refusal::BeyondSheet,
        Refusal::PixelNotInLine,
        Refusal::NoExactIndex,
        Refusal::NotABc7Texture,
        Refusal::ColourSpaceStated,
        Refusal::BadColourSpace,
        Refusal::FalseCounts,
        Refusal::NoSuchPixel,
        Refusal::NotAChannel,
    ];

    pub fn number(self) -> u32 {
        self as u32
    }
}

impl fmt::Display for Refusal {
    fn fmt(&self, f: &mut fmt::Formatter) -> fmt::Result {
        f.write_str(match self {
            Refusal::ReservedBlock => "the block is reserved",
            Refusal::NoSuchLine => "the block has no such line",
            Refusal::ValueTooWide => "a value needs more bits than it has",
            Refusal::PBitsDiffer => "the p bits differ, and mode 1 has one for both endpoints",
            Refusal::WrongKind => "no such mode, or a kind of split that is not the mode's",
            Refusal::AnchorBitSet => "the index at an anchor has its top bit set",
            Refusal::BadNumber => "a number of the head is cut off, too long or not in its shortest form",
            Refusal::UnknownForm => "the form of the sheet is not one that the call takes",
            Refusal::BadSide => "the width or the height is 0 or too large",
            Refusal::WrongBlockBytes => "too few or too many bytes of blocks",
            Refusal::WrongOutputLength => "the output is too short or too long",
            Refusal::BeyondSheet => "the row or the block is beyond the sheet",
            Refusal::PixelNotInLine => "the pixel is not in the line",
            Refusal::NoExactIndex => "no index of the line gives exactly this colour",
            Refusal::NotABc7Texture => "the file is not a DDS file of one BC7 texture with one level",
            Refusal::ColourSpaceStated => "the sheet states a colour space, and form 1 has no room for it",
            Refusal::BadColourSpace => "there is no such colour space",
            Refusal::FalseCounts => "the counts are not those of the sheet",
            Refusal::NoSuchPixel => "the block has no such pixel",
            Refusal::NotAChannel => "no channel has this float",
        })
    }
}

impl std::error::Error for Refusal {}

fn answer<T>(number: u32, value: T) -> Result<T, Refusal> {
    if number == 0 {
        return Ok(value);
    }
    let known = Refusal::ALL.into_iter().find(|refusal| refusal.number() == number);
    Err(known.expect("the library is of another version than this module"))
}

/// Major, minor and patch.
pub fn version() -> (u32, u32, u32) {
    let version = unsafe { rinchovek_version() };
    (version / 10000, version / 100 % 100, version % 100)
}

pub type Block = [u8; 16];
/// Red, green, blue, alpha.
pub type Color = [u8; 4];

/// In C the numbers of a block, a line and a pixel are all `uint32_t` and stand side by side; these can't be exchanged.
#[derive(Clone, Copy, Debug, PartialEq, Eq)]
pub struct BlockNumber(pub u32);
#[derive(Clone, Copy, Debug, PartialEq, Eq)]
pub struct LineNumber(pub u32);
#[derive(Clone, Copy, Debug, PartialEq, Eq)]
pub struct PixelNumber(pub u32);

#[derive(Clone, Copy, Debug, PartialEq, Eq)]
pub enum Split {
    Whole,
    TwoSubsets { partition: u8 },
    ThreeSubsets { partition: u8 },
    VectorAndScalar { rotation: u8, index_mode: u8 },
}

/// A block taken apart. What the mode hasn't got is 0.
#[derive(Clone, Copy, Debug, PartialEq, Eq)]
pub struct Record {
    pub mode: u8,
    pub split: Split,
    pub endpoints: [Color; 6],
    pub p: [u8; 6],
    pub first_indexes: [u8; 16],
    pub second_indexes: [u8; 16],
}

impl Record {
    fn bytes(&self) -> [u8; 66] {
        let split = match self.split {
            Split::Whole => [0, 0, 0],
            Split::TwoSubsets { partition } => [1, partition, 0],
            Split::ThreeSubsets { partition } => [2, partition, 0],
            Split::VectorAndScalar { rotation, index_mode } => [3, rotation, index_mode],
        };
        let mut bytes = [self.mode; 66];
        bytes[1..4].copy_from_slice(&split);
        bytes[4..28].copy_from_slice(self.endpoints.as_flattened());
        bytes[28..34].copy_from_slice(&self.p);
        bytes[34..50].copy_from_slice(&self.first_indexes);
        bytes[50..].copy_from_slice(&self.second_indexes);
        bytes
    }

    fn of(bytes: &[u8; 66]) -> Record {
        let split = match bytes[1] {
            0 => Split::Whole,
            1 => Split::TwoSubsets { partition: bytes[2] },
            2 => Split::ThreeSubsets { partition: bytes[2] },
            _ => Split::VectorAndScalar { rotation: bytes[2], index_mode: bytes[3] },
        };
        let mut record =
            Record { mode: bytes[0], split, endpoints: [[0; 4]; 6], p: [0; 6], first_indexes: [0; 16], second_indexes: [0; 16] };
        record.endpoints.as_flattened_mut().copy_from_slice(&bytes[4..28]);
        record.p.copy_from_slice(&bytes[28..34]);
        record.first_indexes.copy_from_slice(&bytes[34..50]);
        record.second_indexes.copy_from_slice(&bytes[50..]);
        record
    }
}

/// A line as it is read and as it is replaced, or how many bits each of its values has. What the line hasn't got is 0.
#[derive(Clone, Copy, Debug, Default, PartialEq, Eq)]
pub struct Line {
    pub endpoints: [Color; 2],
    pub p: [u8; 2],
    pub indexes: [u8; 16],
}

impl Line {
    fn bytes(&self) -> [u8; 26] {
        let mut bytes = [0; 26];
        bytes[..8].copy_from_slice(self.endpoints.as_flattened());
        bytes[8..10].copy_from_slice(&self.p);
        bytes[10..].copy_from_slice(&self.indexes);
        bytes
    }

    fn of(bytes: &[u8; 26]) -> Line {
        let mut line = Line::default();
        line.endpoints.as_flattened_mut().copy_from_slice(&bytes[..8]);
        line.p.copy_from_slice(&bytes[8..10]);
        line.indexes.copy_from_slice(&bytes[10..]);
        line
    }
}

// In each call the arrays and slices have the lengths that it takes, and a mutable borrow overlaps nothing.

pub fn decode_block(block: &Block) -> [Color; 16] {
    let mut pixels = [[0; 4]; 16];
    unsafe { rinchovek_bc7_decode_block(block.as_ptr(), pixels.as_flattened_mut().as_mut_ptr()) };
    pixels
}

pub fn unpack(block: &Block) -> Result<Record, Refusal> {
    let mut record = [0; 66];
    let refusal = unsafe { rinchovek_bc7_unpack(block.as_ptr(), record.as_mut_ptr()) };
    answer(refusal, Record::of(&record))
}

pub fn pack(record: &Record) -> Result<Block, Refusal> {
    let mut block = [0; 16];
    let refusal = unsafe { rinchovek_bc7_pack(record.bytes().as_ptr(), block.as_mut_ptr()) };
    answer(refusal, block)
}

/// The line as it stands, and how many bits each of its values has.
pub fn read_line(block: &Block, line: LineNumber) -> Result<(Line, Line), Refusal> {
    let (mut held, mut widths) = ([0; 26], [0; 26]);
    let refusal = unsafe { rinchovek_bc7_read_line(block.as_ptr(), line.0, held.as_mut_ptr(), widths.as_mut_ptr()) };
    answer(refusal, (Line::of(&held), Line::of(&widths)))
}

pub fn replace_line(block: &mut Block, line: LineNumber, new: &Line) -> Result<(), Refusal> {
    answer(unsafe { rinchovek_bc7_replace_line(block.as_mut_ptr(), line.0, new.bytes().as_ptr()) }, ())
}

/// The index whose colour at the pixel is nearest to the wanted one; of several the lowest.
pub fn nearest_index(block: &Block, line: LineNumber, pixel: PixelNumber, wanted: &Color) -> Result<u32, Refusal> {
    let mut index = 0;
    let refusal = unsafe { rinchovek_bc7_nearest_index(block.as_ptr(), line.0, pixel.0, wanted.as_ptr(), &mut index) };
    answer(refusal, index)
}

/// The index that gives the pixel exactly the wanted colour; of several the lowest.
pub fn exact_index(block: &Block, line: LineNumber, pixel: PixelNumber, wanted: &Color) -> Result<u32, Refusal> {
    let mut index = 0;
    let refusal = unsafe { rinchovek_bc7_exact_index(block.as_ptr(), line.0, pixel.0, wanted.as_ptr(), &mut index) };
    answer(refusal, index)
}

/// How much of a block is shown: its first columns and rows.
#[derive(Clone, Copy, Debug, PartialEq, Eq)]
pub struct Shown {
    pub columns: u32,
    pub rows: u32,
}

/// Whether a BC6H block is signed: its format says so.
#[derive(Clone, Copy, Debug, PartialEq, Eq)]
pub enum Sign {
    Unsigned,
    Signed,
}

/// The sixteen pixels of a BC6H block, red green blue each, as the bits of half floats.
pub fn decode_bc6h_block(block: &Block, sign: Sign) -> [[u16; 3]; 16] {
    let mut halves = [[0; 3]; 16];
    unsafe { rinchovek_bc6h_decode_block(block.as_ptr(), (sign == Sign::Signed) as u32, halves.as_mut_ptr().cast()) };
    halves
}

/// Whether every shown pixel of the block has alpha 255.
pub fn is_opaque(block: &Block, shown: Shown) -> bool {
    unsafe { rinchovek_bc7_is_opaque(block.as_ptr(), shown.columns, shown.rows) != 0 }
}

/// One pixel, by the decoder that shares no code with `decode_block`.
pub fn one_pixel(block: &Block, pixel: PixelNumber) -> Result<Color, Refusal> {
    let mut rgba = [0; 4];
    let refusal = unsafe { rinchovek_bc7_pixel(block.as_ptr(), pixel.0, rgba.as_mut_ptr()) };
    answer(refusal, rgba)
}

/// What is known of a sheet's colours, by its number. Any other number than these is refused.
#[derive(Clone, Copy, Debug, PartialEq, Eq)]
pub struct ColourSpace(pub u32);

#[allow(dead_code)] // a program need not name all three
impl ColourSpace {
    pub const UNSPECIFIED: ColourSpace = ColourSpace(0);
    pub const LINEAR: ColourSpace = ColourSpace(1);
    pub const SRGB: ColourSpace = ColourSpace(2);
}

/// Width and height in pixels, and where the first block starts in the sheet.
#[derive(Clone, Copy, Debug, PartialEq, Eq)]
pub struct Head {
    pub width: u32,
    pub height: u32,
    pub start: usize,
}

impl Head {
    /// The bytes of a row of blocks.
    pub fn row_blocks(self) -> usize {
        16 * (self.width as usize).div_ceil(4)
    }

    /// What the sheet shows of a block: all of it, or what is left at an edge.
    pub fn shown(self, block: BlockNumber) -> Shown {
        let (row, column) = (block.0 / self.width.div_ceil(4), block.0 % self.width.div_ceil(4));
        let part = |side: u32, n: u32| u64::from(side).saturating_sub(4 * u64::from(n)).min(4) as u32;
        Shown { columns: part(self.width, column), rows: part(self.height, row) }
    }

    /// The bytes of the pixels that a row of blocks shows: four lines, or as many as are left.
    pub fn row_pixels(self, row: u32) -> usize {
        let left = (self.height as usize).saturating_sub(4 * row as usize);
        4 * self.width as usize * left.min(4)
    }
}

/// In which order a sheet stores its blocks: row by row, or in tiles.
#[derive(Clone, Copy, Debug, PartialEq, Eq)]
pub enum Form {
    Rows,
    Tiles,
}

/// What the head of a sheet of either form says, and how many columns, rows and blocks there are.
#[derive(Clone, Copy, Debug, PartialEq, Eq)]
pub struct Opened {
    pub head: Head,
    pub colour_space: ColourSpace,
    pub form: Form,
    pub columns: u32,
    pub rows: u32,
    pub blocks: u32,
}

pub fn open(sheet: &[u8]) -> Result<Opened, Refusal> {
    let mut numbers = [0; 8];
    let refusal = unsafe { rinchovek_sheet_open(sheet.as_ptr(), sheet.len() as u64, numbers.as_mut_ptr()) };
    let [width, height, start, colour_space, form, columns, rows, blocks] = numbers;
    let head = Head { width, height, start: start as usize };
    let form = if form == 2 { Form::Tiles } else { Form::Rows };
    answer(refusal, Opened { head, colour_space: ColourSpace(colour_space), form, columns, rows, blocks })
}

/// The head of a sheet of form 1; `open` takes either form.
pub fn read_head(sheet: &[u8]) -> Result<Head, Refusal> {
    let mut head = [0; 3];
    let refusal = unsafe { rinchovek_sheet_read_head(sheet.as_ptr(), sheet.len() as u64, head.as_mut_ptr()) };
    answer(refusal, Head { width: head[0], height: head[1], start: head[2] as usize })
}

/// The head, and the colour space, of which a sheet of form 1 says nothing.
pub fn read_colour_head(sheet: &[u8]) -> Result<(Head, ColourSpace), Refusal> {
    let mut head = [0; 4];
    let refusal = unsafe { rinchovek_sheet_read_colour_head(sheet.as_ptr(), sheet.len() as u64, head.as_mut_ptr()) };
    answer(refusal, colour_head(head))
}

fn colour_head(head: [u32; 4]) -> (Head, ColourSpace) {
    (Head { width: head[0], height: head[1], start: head[2] as usize }, ColourSpace(head[3]))
}

pub fn write_head(width: u32, height: u32) -> Result<Vec<u8>, Refusal> {
    let (mut bytes, mut count) = ([0; 7], 0);
    let refusal = unsafe { rinchovek_sheet_write_head(width, height, bytes.as_mut_ptr(), &mut count) };
    answer(refusal, bytes[..count as usize].to_vec())
}

/// The blocks are exactly `head.row_blocks()` bytes, and the output `head.row_pixels(row)`.
pub fn decode_row(head: Head, row: u32, blocks: &[u8], out: &mut [u8]) -> Result<(), Refusal> {
    let (lent, length) = (out.as_mut_ptr(), out.len() as u64);
    let refusal = unsafe {
        rinchovek_sheet_decode_row(head.width, head.height, row, blocks.as_ptr(), blocks.len() as u64, lent, length)
    };
    answer(refusal, ())
}

/// The pixels of a row of a whole sheet of either form, which was opened.
pub fn decode_sheet_row(opened: &Opened, row: u32, sheet: &[u8]) -> Result<Vec<u8>, Refusal> {
    let mut out = vec![0; opened.head.row_pixels(row)];
    let (lent, length) = (out.as_mut_ptr(), out.len() as u64);
    answer(unsafe { rinchovek_sheet_show_row(sheet.as_ptr(), sheet.len() as u64, row, lent, length) }, out)
}

/// A block of a whole sheet of either form, by its number row by row.
pub fn block_in_sheet(sheet: &[u8], block: BlockNumber) -> Result<Block, Refusal> {
    let mut bytes = [0; 16];
    let refusal = unsafe { rinchovek_sheet_block(sheet.as_ptr(), sheet.len() as u64, block.0, bytes.as_mut_ptr()) };
    answer(refusal, bytes)
}

/// A sheet of form 1 in tiles, which is one byte longer.
pub fn to_tiles(sheet: &[u8]) -> Result<Vec<u8>, Refusal> {
    let mut out = vec![0; sheet.len() + 1];
    let refusal = unsafe { rinchovek_sheet_to_tiles(sheet.as_ptr(), sheet.len() as u64, out.as_mut_ptr(), out.len() as u64) };
    answer(refusal, out)
}

/// A sheet of form 2 row by row, which is one byte shorter.
pub fn to_rows(sheet: &[u8]) -> Result<Vec<u8>, Refusal> {
    let mut out = vec![0; sheet.len().saturating_sub(1)];
    let refusal = unsafe { rinchovek_sheet_to_rows(sheet.as_ptr(), sheet.len() as u64, out.as_mut_ptr(), out.len() as u64) };
    answer(refusal, out)
}

/// The colour space of a sheet of form 2, stated.
pub fn state_colour(sheet: &mut [u8], colour_space: ColourSpace) -> Result<(), Refusal> {
    let (lent, length) = (sheet.as_mut_ptr(), sheet.len() as u64);
    answer(unsafe { rinchovek_sheet_state_colour(lent, length, colour_space.0) }, ())
}

/// In a sheet of either form.
pub fn replace_in_sheet(sheet: &mut [u8], block: BlockNumber, line: LineNumber, new: &Line) -> Result<(), Refusal> {
    let (lent, length) = (sheet.as_mut_ptr(), sheet.len() as u64);
    answer(unsafe { rinchovek_sheet_replace_line(lent, length, block.0, line.0, new.bytes().as_ptr()) }, ())
}

/// How many blocks of a sheet have mode 0 to 8, where 8 is reserved, and how many are opaque.
#[derive(Clone, Copy, Debug, PartialEq, Eq)]
pub struct Counts {
    pub modes: [u32; 9],
    pub opaque: u32,
}

impl Counts {
    fn ten(&self) -> [u32; 10] {
        let m = self.modes;
        [m[0], m[1], m[2], m[3], m[4], m[5], m[6], m[7], m[8], self.opaque]
    }

    fn of(ten: [u32; 10]) -> Counts {
        Counts { modes: std::array::from_fn(|mode| ten[mode]), opaque: ten[9] }
    }
}

/// The counts of a sheet of either form.
pub fn count(sheet: &[u8]) -> Result<Counts, Refusal> {
    let mut ten = [0; 10];
    let refusal = unsafe { rinchovek_sheet_count(sheet.as_ptr(), sheet.len() as u64, ten.as_mut_ptr()) };
    answer(refusal, Counts::of(ten))
}

/// In a sheet of either form, with the counts beside it; refused, both stay as they are.
pub fn replace_line_counted(
    sheet: &mut [u8],
    counts: &mut Counts,
    block: BlockNumber,
    line: LineNumber,
    new: &Line,
) -> Result<(), Refusal> {
    let (lent, length, mut ten) = (sheet.as_mut_ptr(), sheet.len() as u64, counts.ten());
    let bytes = new.bytes();
    let refusal = unsafe { rinchovek_sheet_replace_line_counted(lent, length, ten.as_mut_ptr(), block.0, line.0, bytes.as_ptr()) };
    *counts = Counts::of(ten);
    answer(refusal, ())
}

pub fn replace_block_counted(sheet: &mut [u8], counts: &mut Counts, block: BlockNumber, bytes: &Block) -> Result<(), Refusal> {
    let (lent, length, mut ten) = (sheet.as_mut_ptr(), sheet.len() as u64, counts.ten());
    let refusal = unsafe { rinchovek_sheet_replace_block_counted(lent, length, ten.as_mut_ptr(), block.0, bytes.as_ptr()) };
    *counts = Counts::of(ten);
    answer(refusal, ())
}

/// The bytes of the sheet that a DDS file makes.
pub fn import_length(dds: &[u8]) -> Result<usize, Refusal> {
    let mut length = 0;
    let refusal = unsafe { rinchovek_dds_import_length(dds.as_ptr(), dds.len() as u64, &mut length) };
    answer(refusal, length as usize)
}

/// The sheet of a DDS file.
pub fn import_dds(dds: &[u8]) -> Result<Vec<u8>, Refusal> {
    let mut sheet = vec![0; import_length(dds)?];
    let refusal = unsafe { rinchovek_dds_import(dds.as_ptr(), dds.len() as u64, sheet.as_mut_ptr(), sheet.len() as u64) };
    answer(refusal, sheet)
}

/// The bytes of the DDS file that a sheet makes.
pub fn export_length(sheet: &[u8]) -> Result<usize, Refusal> {
    let mut length = 0;
    let refusal = unsafe { rinchovek_dds_export_length(sheet.as_ptr(), sheet.len() as u64, &mut length) };
    answer(refusal, length as usize)
}

/// The DDS file of a sheet.
pub fn export_dds(sheet: &[u8]) -> Result<Vec<u8>, Refusal> {
    let mut dds = vec![0; export_length(sheet)?];
    let refusal = unsafe { rinchovek_dds_export(sheet.as_ptr(), sheet.len() as u64, dds.as_mut_ptr(), dds.len() as u64) };
    answer(refusal, dds)
}

/// The sheet of a DDS file, and beside it its head and the colour space that the file says.
pub fn import_colour(dds: &[u8]) -> Result<(Vec<u8>, Head, ColourSpace), Refusal> {
    let (mut sheet, mut head) = (vec![0; import_length(dds)?], [0; 4]);
    let (lent, length) = (sheet.as_mut_ptr(), sheet.len() as u64);
    let refusal = unsafe { rinchovek_dds_import_colour(dds.as_ptr(), dds.len() as u64, lent, length, head.as_mut_ptr()) };
    let (head, colour_space) = colour_head(head);
    answer(refusal, (sheet, head, colour_space))
}

/// The DDS file of a sheet under a colour space.
pub fn export_colour(sheet: &[u8], colour_space: ColourSpace) -> Result<Vec<u8>, Refusal> {
    let mut dds = vec![0; export_length(sheet).unwrap_or(0)];
    let (lent, length) = (dds.as_mut_ptr(), dds.len() as u64);
    answer(unsafe { rinchovek_dds_export_colour(sheet.as_ptr(), sheet.len() as u64, colour_space.0, lent, length) }, dds)
}

/// A pixel as four floats: each channel divided by 255.
pub fn pixel_floats(pixel: &Color) -> [f32; 4] {
    let mut floats = [0.0; 4];
    unsafe { rinchovek_pixel_floats(pixel.as_ptr(), floats.as_mut_ptr()) };
    floats
}

/// The channel whose float has these bits.
pub fn channel_of_bits(bits: u32) -> Result<u8, Refusal> {
    let mut channel = 0;
    let refusal = unsafe { rinchovek_float_channel(bits, &mut channel) };
    answer(refusal, channel as u8)
}

/// The channel that a float is.
pub fn channel_of(value: f32) -> Result<u8, Refusal> {
    channel_of_bits(value.to_bits())
}

/// A float for each byte: there are exactly as many.
pub fn row_floats(pixels: &[u8], floats: &mut [f32]) -> Result<(), Refusal> {
    let (lent, count) = (floats.as_mut_ptr(), floats.len() as u64);
    answer(unsafe { rinchovek_row_floats(pixels.as_ptr(), pixels.len() as u64, lent, count) }, ())
}
