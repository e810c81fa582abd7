//! Times the published Rust and the archive's functions in one program, in turn, and prints medians.

use std::hint::black_box;
use std::time::Instant;

type Block = [u8; 16];
type Pixels = [[u8; 4]; 16];
type DecodeBlock = unsafe extern "C" fn(&Block, &mut Pixels);

// the archive's; the linker finds them
extern "C" {
    fn rinchovek_bc7_decode_block(block: &Block, pixels: &mut Pixels);
    #[cfg(rows)]
    fn rinchovek_sheet_decode_row(
        width: u32,
        height: u32,
        row: u32,
        blocks: *const u8,
        blocks_length: usize,
        out: *mut u8,
        out_length: usize,
    ) -> u32;
}

const MIXED: usize = 9;
const NAMES: [&str; 10] = ["0", "1", "2", "3", "4", "5", "6", "7", "8", "mixed"];

/// The blocks that `count` draws, by the same rule and from the same seed, so that the two can be held together.
fn make_blocks(count: usize, mode: usize) -> Vec<Block> {
    let mut state = 88172645463325252_u64;
    let mut random_number = || {
        state ^= state << 13;
        state ^= state >> 7;
        state ^= state << 17;
        state.wrapping_mul(0x2545F4914F6CDD1D)
    };
    let mut block_of_mode = |_| {
        let mode = if mode == MIXED { random_number() % 8 } else { mode as u64 };
        let (low, high) = (random_number(), random_number());
        let marked = if mode == 8 { 0 } else { (low << (mode + 1) | 1 << mode) % 256 };
        let number = u128::from(high) << 64 | u128::from(low - low % 256 + marked);
        number.to_le_bytes()
    };
    (0..count).map(&mut block_of_mode).collect()
}

/// A picture's blocks, and how many of them stand in a row.
struct Picture<'a> {
    blocks: &'a [Block],
    columns: usize,
}

type Decode = fn(&Picture, &mut [Pixels]);

fn every_block(decode: DecodeBlock, picture: &Picture, out: &mut [Pixels]) {
    for (block, pixels) in picture.blocks.iter().zip(out) {
        unsafe { decode(block, pixels) }
    }
}

/// `black_box` keeps the compiler from drawing the Rust into the loop, which it cannot do with the archive's function.
fn rust_blocks(picture: &Picture, out: &mut [Pixels]) {
    every_block(black_box(reference_block::rust_decode_block as DecodeBlock), picture, out)
}

fn our_blocks(picture: &Picture, out: &mut [Pixels]) {
    every_block(black_box(rinchovek_bc7_decode_block as DecodeBlock), picture, out)
}

#[cfg(rows)]
mod rows {
    use super::*;

    type DecodeRow = unsafe extern "C" fn(u32, u32, u32, *const u8, usize, *mut u8, usize) -> u32;

    fn every_row(decode: DecodeRow, picture: &Picture, out: &mut [Pixels]) {
        let columns = picture.columns;
        let height = 4 * (picture.blocks.len() / columns);
        for (row, (blocks, out)) in picture.blocks.chunks_exact(columns).zip(out.chunks_exact_mut(columns)).enumerate()
        {
            let (blocks, out) = (blocks.as_flattened(), out.as_flattened_mut().as_flattened_mut());
            // a picture has at most 1,024 rows of blocks: more of them are as many pictures
            let (width, height, row) = (4 * columns as u32, height.min(4096) as u32, row as u32 % 1024);
            let refused =
                unsafe { decode(width, height, row, blocks.as_ptr(), blocks.len(), out.as_mut_ptr(), out.len()) };
            assert_eq!(refused, 0);
        }
    }

    pub fn rust_rows(picture: &Picture, out: &mut [Pixels]) {
        every_row(black_box(reference_row::rust_decode_row as DecodeRow), picture, out)
    }

    pub fn our_rows(picture: &Picture, out: &mut [Pixels]) {
        every_row(black_box(rinchovek_sheet_decode_row as DecodeRow), picture, out)
    }
}

/// What takes apart, packs, reads and replaces: nothing of the Rust's stands beside it, so the times are those of a call.
#[cfg(lines)]
mod writing {
    use super::*;

    type Record = [u8; 66];
    type Line = [u8; 26];

    extern "C" {
        fn rinchovek_bc7_unpack(block: &Block, record: &mut Record) -> u32;
        fn rinchovek_bc7_pack(record: &Record, block: &mut Block) -> u32;
        fn rinchovek_bc7_read_line(block: &Block, line: u32, replacement: &mut Line, widths: &mut Line) -> u32;
        fn rinchovek_bc7_replace_line(block: &mut Block, line: u32, replacement: &Line) -> u32;
        #[cfg(indexes)]
        fn rinchovek_bc7_nearest_index(block: &Block, line: u32, pixel: u32, wanted: &[u8; 4], index: &mut u32) -> u32;
        #[cfg(indexes)]
        fn rinchovek_bc7_exact_index(block: &Block, line: u32, pixel: u32, wanted: &[u8; 4], index: &mut u32) -> u32;
        #[cfg(opacity)]
        fn rinchovek_bc7_is_opaque(block: &Block, columns: u32, rows: u32) -> u32;
        #[cfg(halves)]
        fn rinchovek_bc6h_decode_block(block: &Block, is_signed: u32, halves: &mut [[u16; 3]; 16]);
        #[cfg(pixels)]
        fn rinchovek_bc7_pixel(block: &Block, pixel: u32, rgba: &mut [u8; 4]) -> u32;
        #[cfg(floats)]
        fn rinchovek_pixel_floats(pixel: *const u8, floats: &mut [f32; 4]);
        #[cfg(floats)]
        fn rinchovek_float_channel(bits: u32, channel: &mut u32) -> u32;
        #[cfg(floats)]
        fn rinchovek_row_floats(pixels: *const u8, length: usize, floats: *mut f32, count: usize) -> u32;
        fn rinchovek_sheet_replace_line(sheet: *mut u8, length: usize, block: u32, line: u32, replacement: &Line) -> u32;
        #[cfg(files)]
        fn rinchovek_dds_import(dds: *const u8, dds_length: usize, sheet: *mut u8, sheet_length: usize) -> u32;
        #[cfg(files)]
        fn rinchovek_dds_export(sheet: *const u8, sheet_length: usize, dds: *mut u8, dds_length: usize) -> u32;
        #[cfg(colours)]
        fn rinchovek_dds_import_colour(dds: *const u8, dds_length: usize, sheet: *mut u8, sheet_length: usize, head: &mut [u32; 4]) -> u32;
        #[cfg(colours)]
        fn rinchovek_dds_export_colour(sheet: *const u8, sheet_length: usize, colour_space: u32, dds: *mut u8, dds_length: usize) -> u32;
        #[cfg(files)]
        fn rinchovek_dds_import_length(dds: *const u8, dds_length: usize, sheet_length: *mut u32) -> u32;
        #[cfg(files)]
        fn rinchovek_dds_export_length(sheet: *const u8, sheet_length: usize, dds_length: *mut u32) -> u32;
        #[cfg(forms)]
        fn rinchovek_sheet_to_tiles(sheet: *const u8, length: usize, out: *mut u8, out_length: usize) -> u32;
        #[cfg(forms)]
        fn rinchovek_sheet_to_rows(sheet: *const u8, length: usize, out: *mut u8, out_length: usize) -> u32;
        #[cfg(forms)]
        fn rinchovek_sheet_show_row(sheet: *const u8, length: usize, row: u32, out: *mut u8, out_length: usize) -> u32;
        #[cfg(forms)]
        fn rinchovek_sheet_block(sheet: *const u8, length: usize, block: u32, bytes: &mut Block) -> u32;
        #[cfg(stating)]
        fn rinchovek_sheet_state_colour(sheet: *mut u8, length: usize, colour_space: u32) -> u32;
        #[cfg(forms)]
        fn rinchovek_sheet_open(sheet: *const u8, length: usize, numbers: &mut [u32; 8]) -> u32;
    }

    fn nanoseconds(name: &str, count: usize, mut every: impl FnMut() -> u32) {
        let times = (0..SMALL_ROUNDS).map(|_| {
            let start = Instant::now();
            assert_eq!(every(), 0, "{name} refuses a call");
            start.elapsed().as_secs_f64()
        });
        println!("{name:46} {:7.1}", 1e9 * median(times.collect()) / count as f64);
    }

    /// Pixel 0 is in line 0 of every mode; what it shows is hit.
    #[cfg(indexes)]
    fn time_finding(blocks: &[Block]) {
        let mut index = 0;
        nanoseconds("rinchovek_bc7_nearest_index", SMALL, || {
            let find = |block| unsafe { rinchovek_bc7_nearest_index(block, 0, 0, &[9, 99, 199, 255], &mut index) };
            blocks.iter().map(find).fold(0, |refused, refusal| refused | refusal)
        });
        let mut pixels = [[0; 4]; 16];
        let shown = blocks.iter().map(|block| {
            unsafe { rinchovek_bc7_decode_block(block, &mut pixels) };
            pixels[0]
        });
        let shown: Vec<[u8; 4]> = shown.collect();
        nanoseconds("rinchovek_bc7_exact_index", SMALL, || {
            let find = |(block, wanted)| unsafe { rinchovek_bc7_exact_index(block, 0, 0, wanted, &mut index) };
            blocks.iter().zip(&shown).map(find).fold(0, |refused, refusal| refused | refusal)
        });
    }

    /// The sheet of all blocks as a DDS file and back; both lengths are asked for in the same round.
    #[cfg(files)]
    fn time_files(sheet: &[u8]) {
        let (mut dds, mut again, mut needed) = (vec![0; 148 + sheet.len() - 4], vec![0; sheet.len()], 0);
        nanoseconds("rinchovek_dds_export, all blocks", 1, || unsafe {
            rinchovek_dds_export(sheet.as_ptr(), sheet.len(), dds.as_mut_ptr(), dds.len())
        });
        nanoseconds("rinchovek_dds_import, all blocks", 1, || unsafe {
            rinchovek_dds_import(dds.as_ptr(), dds.len(), again.as_mut_ptr(), again.len())
        });
        assert!(again == sheet, "a sheet that was exported is imported as another");
        nanoseconds("rinchovek_dds_export_length and import_length", 1, || unsafe {
            rinchovek_dds_export_length(sheet.as_ptr(), sheet.len(), &mut needed)
                | rinchovek_dds_import_length(dds.as_ptr(), dds.len(), &mut needed)
        });
    }

    /// The same in sRGB, with the head that importing says.
    #[cfg(colours)]
    fn time_colours(sheet: &[u8]) {
        let (mut dds, mut again, mut head) = (vec![0; 148 + sheet.len() - 4], vec![0; sheet.len()], [0; 4]);
        nanoseconds("rinchovek_dds_export_colour, all blocks", 1, || unsafe {
            rinchovek_dds_export_colour(sheet.as_ptr(), sheet.len(), 2, dds.as_mut_ptr(), dds.len())
        });
        nanoseconds("rinchovek_dds_import_colour, all blocks", 1, || unsafe {
            rinchovek_dds_import_colour(dds.as_ptr(), dds.len(), again.as_mut_ptr(), again.len(), &mut head)
        });
        assert!(again == sheet && head[3] == 2, "a sheet that was exported is imported as another");
    }

    /// The sheet of all blocks moved to tiles and back, and both forms shown, opened, read and corrected by number.
    #[cfg(forms)]
    fn time_forms(sheet: &mut [u8], columns: usize, lines: &[Line]) {
        let (mut tiles, mut again) = (vec![0; sheet.len() + 1], vec![0; sheet.len()]);
        nanoseconds("rinchovek_sheet_to_tiles, all blocks", 1, || unsafe {
            rinchovek_sheet_to_tiles(sheet.as_ptr(), sheet.len(), tiles.as_mut_ptr(), tiles.len())
        });
        nanoseconds("rinchovek_sheet_to_rows, all blocks", 1, || unsafe {
            rinchovek_sheet_to_rows(tiles.as_ptr(), tiles.len(), again.as_mut_ptr(), again.len())
        });
        assert!(again == sheet, "a sheet that was moved to tiles comes back as another");
        #[cfg(stating)]
        nanoseconds("rinchovek_sheet_state_colour", SMALL, || {
            let state = |i| unsafe { rinchovek_sheet_state_colour(tiles.as_mut_ptr(), tiles.len(), i % 3) };
            (0..SMALL as u32).map(state).fold(0, |refused, refusal| refused | refusal)
        });
        let (mut row, mut first, mut numbers) = (vec![0; 64 * columns], vec![0; 64 * columns], [0; 8]);
        for (form, sheet) in [("form 1", &mut *sheet), ("form 2", &mut tiles[..])] {
            nanoseconds(&format!("rinchovek_sheet_show_row, a block, {form}"), SMALL, || {
                let show = |y| unsafe { rinchovek_sheet_show_row(sheet.as_ptr(), sheet.len(), y, row.as_mut_ptr(), row.len()) };
                (0..(SMALL / columns) as u32).map(show).fold(0, |refused, refusal| refused | refusal)
            });
            if form == "form 1" {
                first.clone_from(&row);
            }
            assert!(row == first, "the last row shows something else in tiles");
            nanoseconds(&format!("rinchovek_sheet_open, {form}"), SMALL, || {
                let open = |_| unsafe { rinchovek_sheet_open(black_box(sheet.as_ptr()), sheet.len(), &mut numbers) };
                (0..SMALL).map(open).fold(0, |refused, refusal| refused | refusal)
            });
            nanoseconds(&format!("rinchovek_sheet_block, {form}"), SMALL, || {
                let take = |i| unsafe { rinchovek_sheet_block(sheet.as_ptr(), sheet.len(), i, black_box(&mut [0; 16])) };
                (0..SMALL as u32).map(take).fold(0, |refused, refusal| refused | refusal)
            });
            nanoseconds(&format!("rinchovek_sheet_replace_line, {form}"), SMALL, || {
                let replace = |i| unsafe { rinchovek_sheet_replace_line(sheet.as_mut_ptr(), sheet.len(), i as u32, 0, &lines[i]) };
                (0..SMALL).map(replace).fold(0, |refused, refusal| refused | refusal)
            });
        }
    }

    pub fn time() {
        println!("\nNanoseconds a call, over {SMALL} mixed blocks again and again, {SMALL_ROUNDS} rounds, in cache");
        let blocks = make_blocks(SMALL, MIXED);
        let (mut records, mut out) = (vec![[0; 66]; SMALL], blocks.clone());
        let (mut lines, mut widths) = (vec![[0; 26]; SMALL], [0; 26]);
        // 256 columns of blocks
        let head = [0x01, 0x80, 0x08, (4 * SMALL / 256) as u8];
        let mut sheet = [&head[..], blocks.as_flattened()].concat();

        let every = |call: &mut dyn FnMut(usize) -> u32| (0..SMALL).fold(0, |refused, i| refused | call(i));
        nanoseconds("rinchovek_bc7_decode_block", SMALL, || {
            let mut pixels = [[0; 4]; 16];
            every(&mut |i| unsafe { rinchovek_bc7_decode_block(black_box(&blocks[i]), black_box(&mut pixels)); 0 })
        });
        // the same bytes as BC6H blocks: three of four have two subsets, and one in eight is reserved
        #[cfg(halves)]
        for (name, is_signed) in [("unsigned", 0), ("signed", 1)] {
            nanoseconds(&format!("rinchovek_bc6h_decode_block, {name}"), SMALL, || {
                let mut halves = [[0; 3]; 16];
                every(&mut |i| unsafe { rinchovek_bc6h_decode_block(black_box(&blocks[i]), is_signed, black_box(&mut halves)); 0 })
            });
        }
        nanoseconds("rinchovek_bc7_unpack", SMALL, || {
            every(&mut |i| unsafe { rinchovek_bc7_unpack(&blocks[i], &mut records[i]) })
        });
        nanoseconds("rinchovek_bc7_pack", SMALL, || {
            every(&mut |i| unsafe { rinchovek_bc7_pack(&records[i], &mut out[i]) })
        });
        nanoseconds("rinchovek_bc7_read_line", SMALL, || {
            every(&mut |i| unsafe { rinchovek_bc7_read_line(&blocks[i], 0, &mut lines[i], &mut widths) })
        });
        #[cfg(indexes)]
        time_finding(&blocks);
        // it answers yes or no, and refuses nothing
        #[cfg(opacity)]
        nanoseconds("rinchovek_bc7_is_opaque", SMALL, || {
            every(&mut |i| unsafe { black_box(rinchovek_bc7_is_opaque(&blocks[i], 4, 4)); 0 })
        });
        #[cfg(pixels)]
        nanoseconds("rinchovek_bc7_pixel", SMALL, || {
            every(&mut |i| unsafe { rinchovek_bc7_pixel(&blocks[i], i as u32 % 16, &mut [0; 4]) })
        });
        #[cfg(floats)]
        {
            let bytes = blocks.as_flattened();
            let (mut row, mut four) = (vec![0.0; bytes.len()], [0.0; 4]);
            nanoseconds("rinchovek_pixel_floats", SMALL, || {
                every(&mut |i| unsafe { rinchovek_pixel_floats(blocks[i].as_ptr(), black_box(&mut four)); 0 })
            });
            nanoseconds("rinchovek_row_floats, a channel", bytes.len(), || unsafe {
                rinchovek_row_floats(bytes.as_ptr(), bytes.len(), row.as_mut_ptr(), row.len())
            });
            nanoseconds("rinchovek_float_channel", SMALL, || {
                every(&mut |i| unsafe { rinchovek_float_channel(row[i].to_bits(), black_box(&mut 0)) })
            });
        }
        #[cfg(files)]
        time_files(&sheet);
        #[cfg(colours)]
        time_colours(&sheet);
        let replaced = |lines: &[Line], out: &mut [Block]| {
            every(&mut |i| unsafe { rinchovek_bc7_replace_line(&mut out[i], 0, &lines[i]) })
        };
        nanoseconds("rinchovek_bc7_replace_line, kept", SMALL, || replaced(&lines, &mut out));
        nanoseconds("rinchovek_sheet_replace_line, kept", SMALL, || {
            every(&mut |i| unsafe { rinchovek_sheet_replace_line(sheet.as_mut_ptr(), sheet.len(), i as u32, 0, &lines[i]) })
        });
        #[cfg(forms)]
        time_forms(&mut sheet, 256, &lines);
        for (block, line) in blocks.iter().zip(&mut lines) {
            unsafe { rinchovek_bc7_read_line(block, 0, line, &mut widths) };
            for v in 10..26 {
                line[v] = ((1 << widths[v]) - 1) - line[v];
            }
        }
        nanoseconds("rinchovek_bc7_replace_line, turned", SMALL, || replaced(&lines, &mut out));
        // no mode has a line 3; an index of 16 is above every width
        let all_refused = |number: u32, line: u32, lines: &[Line], out: &mut [Block]| {
            let mut right = 0;
            every(&mut |i| {
                right += u32::from(unsafe { rinchovek_bc7_replace_line(&mut out[i], line, &lines[i]) } == number);
                0
            });
            SMALL as u32 - right
        };
        nanoseconds("rinchovek_bc7_replace_line, refused 2", SMALL, || all_refused(2, 3, &lines, &mut out));
        for line in &mut lines {
            line[25] = 16;
        }
        nanoseconds("rinchovek_bc7_replace_line, refused 3", SMALL, || all_refused(3, 0, &lines, &mut out));
    }
}

fn seconds(decode: Decode, picture: &Picture, out: &mut [Pixels]) -> f64 {
    let start = Instant::now();
    decode(black_box(picture), black_box(&mut *out));
    start.elapsed().as_secs_f64()
}

fn median(mut values: Vec<f64>) -> f64 {
    values.sort_by(f64::total_cmp);
    values[values.len() / 2]
}

/// Median seconds of both over the same buffers. They take turns, and turns at being first, so that whatever slows the
/// machine for a while slows both.
fn compare(sides: [Decode; 2], picture: &Picture, out: &mut [Pixels], rounds: usize) -> [f64; 2] {
    // row by row, to need no second output of full size
    let columns = picture.columns;
    let mut expected = vec![[[1; 4]; 16]; columns];
    for (blocks, out) in picture.blocks.chunks_exact(columns).zip(out.chunks_exact_mut(columns)) {
        let row = Picture { blocks, columns };
        sides[0](&row, &mut expected);
        sides[1](&row, out);
        assert!(*out == *expected, "the two write different pixels");
    }

    let mut times = [vec![], vec![]];
    for round in 0..rounds {
        for turn in 0..2 {
            let side = (round + turn) % 2;
            times[side].push(seconds(sides[side], picture, out));
        }
    }
    times.map(median)
}

fn head() {
    println!("            Rust                 here            time");
    println!("mode   blocks/s    MB/s    blocks/s    MB/s  here/Rust");
}

fn line(name: &str, blocks: usize, [rust, here]: [f64; 2]) {
    let speed = |seconds: f64| (blocks as f64 / seconds / 1e6, 64.0 * blocks as f64 / seconds / 1e6);
    let ((rust_blocks, rust_bytes), (our_blocks, our_bytes)) = (speed(rust), speed(here));
    println!("{name:5} {rust_blocks:7.2} M {rust_bytes:7.0}   {our_blocks:7.2} M {our_bytes:7.0} {:10.2}", here / rust);
}

/// The bytes of the machine's largest cache, where the system tells.
fn largest_cache() -> Option<usize> {
    let size = |index: usize| -> Option<usize> {
        let text = std::fs::read_to_string(format!("/sys/devices/system/cpu/cpu0/cache/index{index}/size")).ok()?;
        let text = text.trim();
        let kibibytes: usize = text.strip_suffix('K')?.parse().ok()?;
        Some(1024 * kibibytes)
    };
    (0..8).filter_map(size).max()
}

const SMALL: usize = 4096;
const SMALL_ROUNDS: usize = 201;
const LARGE_ROUNDS: usize = 9;
/// 64 MiB of blocks and 256 MiB of pixels: enough of a shared machine's memory.
const LARGEST: usize = 1 << 22;

fn main() {
    let kinds: &[(&str, usize, [Decode; 2])] = &[
        ("blocks, one call each", 1024, [rust_blocks, our_blocks]),
        #[cfg(rows)]
        ("rows of 256 blocks, one call each", 256, [rows::rust_rows, rows::our_rows]),
        #[cfg(rows)]
        ("rows of 1024 blocks, one call each", 1024, [rows::rust_rows, rows::our_rows]),
    ];

    println!("MB: a million bytes of pixels. Medians; the two take turns. Their pixels were compared before.");
    println!(
        "\nIn cache: {} kB of blocks and {} kB of pixels, read and written in the round before",
        16 * SMALL / 1000,
        64 * SMALL / 1000
    );

    // written, not only reserved: the first touch of a page is the system's work
    let mut out = vec![[[1; 4]; 16]; SMALL];
    for (kind, columns, sides) in kinds {
        println!("\n{kind}: {SMALL} blocks again and again, {SMALL_ROUNDS} rounds");
        head();
        for (mode, name) in NAMES.iter().enumerate() {
            let blocks = make_blocks(SMALL, mode);
            line(name, SMALL, compare(*sides, &Picture { blocks: &blocks, columns: *columns }, &mut out, SMALL_ROUNDS));
        }
    }

    #[cfg(lines)]
    writing::time();

    let cache = largest_cache();
    let wanted = 2 * cache.unwrap_or(64 << 20);
    let mut count = 1 << 18;
    while 80 * count < wanted && count < LARGEST {
        count *= 2;
    }
    let blocks = make_blocks(count, MIXED);
    let mut out = vec![[[1; 4]; 16]; count];
    let megabytes = |bytes: usize| bytes / 1_000_000;
    let state = match cache {
        Some(bytes) if 80 * count > bytes => format!("Larger than the largest cache, {} MB", megabytes(bytes)),
        Some(bytes) => format!("NOT larger than the largest cache, {} MB, but this program's most", megabytes(bytes)),
        None => "The system does not say how large its caches are".to_string(),
    };
    let (read, written) = (megabytes(16 * count), megabytes(64 * count));
    println!("\n{state}: {read} MB of blocks and {written} MB of pixels, every page touched before");
    for (kind, columns, sides) in kinds {
        println!("\n{kind}: {count} blocks, {LARGE_ROUNDS} rounds");
        head();
        line("mixed", count, compare(*sides, &Picture { blocks: &blocks, columns: *columns }, &mut out, LARGE_ROUNDS));
    }
    #[cfg(not(rows))]
    println!("\nno rows: the archive has no rinchovek_sheet_decode_row");
}
