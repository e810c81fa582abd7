//! Every call of include/rinchovek.h, from Rust, through the safe module rinchovek.rs. It prints what correct.c prints.
#![deny(unsafe_code)]

mod rinchovek;

use rinchovek::*;

fn show_bytes(what: &str, bytes: &[u8]) {
    let shown: Vec<String> = bytes.iter().map(|byte| format!("{byte:02X}")).collect();
    println!("{what} {}", shown.join(" "));
}

fn number<T>(answer: &Result<T, Refusal>) -> u32 {
    answer.as_ref().map_or_else(|refusal| refusal.number(), |_| 0)
}

fn show_refusal<T>(what: &str, answer: &Result<T, Refusal>) {
    let text = answer.as_ref().map_or_else(|refusal| refusal.to_string(), |_| "accepted".to_string());
    println!("{what}: {}, {text}", number(answer));
}

/// The first pixel of the row, and the first of its second block.
fn show_row(sheet: &[u8]) -> Result<(), Refusal> {
    let head = read_head(sheet)?;
    let mut pixels = vec![0; head.row_pixels(0)];
    let answer = decode_row(head, 0, &sheet[head.start..][..head.row_blocks()], &mut pixels);
    let shown = |at: usize| format!("{} {} {} {}", pixels[at], pixels[at + 1], pixels[at + 2], pixels[at + 3]);
    println!("row: {}, pixel 0: {}, pixel 4: {}", number(&answer), shown(0), shown(16));
    answer
}

fn show_pixel(block: &Block) {
    let [red, green, blue, alpha] = decode_block(block)[0];
    println!("pixel 0: {red} {green} {blue} {alpha}");
}

/// Which index of line 0 gives pixel 0 this red, and which is nearest.
fn show_indexes(block: &Block, red: u8) {
    let wanted = [red, 0, 0, 0];
    let exact = exact_index(block, LineNumber(0), PixelNumber(0), &wanted);
    let text = exact.map_or_else(|refusal| refusal.to_string(), |index| format!("accepted, index {index}"));
    print!("red {red}, exactly: {}, {text}", number(&exact));
    if let Ok(index) = nearest_index(block, LineNumber(0), PixelNumber(0), &wanted) {
        print!("; nearest: index {index}");
    }
    println!();
}

/// Whether a block of a sheet of this size is opaque.
fn show_opaque(block: &Block, width: u32, height: u32, number: u32) {
    let shown = Head { width, height, start: 0 }.shown(BlockNumber(number));
    let said = if is_opaque(block, shown) { "opaque" } else { "not opaque" };
    println!("block {number} of {width} by {height} shows {} by {}: {said}", shown.columns, shown.rows);
}

/// One pixel, as a cursor reads it.
fn show_one(block: &Block, pixel: u32) {
    let read = one_pixel(block, PixelNumber(pixel));
    let text = read.map_or_else(|refusal| refusal.to_string(), |[r, g, b, a]| format!("accepted, {r} {g} {b} {a}"));
    println!("pixel {pixel}: {}, {text}", number(&read));
}

/// The first pixel of a BC6H block, as the bits of three half floats, unsigned and signed.
fn show_halves(what: &str, block: &Block) {
    let shown = |sign| {
        let [red, green, blue] = decode_bc6h_block(block, sign)[0];
        format!("{red:04X} {green:04X} {blue:04X}")
    };
    println!("{what}: unsigned {}, signed {}", shown(Sign::Unsigned), shown(Sign::Signed));
}

/// What a sheet of either form says of itself.
fn show_counts(counts: &Counts) {
    let words: Vec<String> = counts.modes.iter().map(u32::to_string).collect();
    println!("counts {} {}", words.join(" "), counts.opaque);
}

fn show_opened(sheet: &[u8]) -> Result<Opened, Refusal> {
    let opened = open(sheet)?;
    let Head { width, height, start } = opened.head;
    let form = if opened.form == Form::Tiles { 2 } else { 1 };
    println!(
        "opened: 0, {width} by {height}, blocks from {start}, colour space {}, form {form}, {} columns, {} rows, {} blocks",
        opened.colour_space.0, opened.columns, opened.rows, opened.blocks
    );
    Ok(opened)
}

fn show_floats(what: &str, floats: &[f32]) {
    let shown: Vec<String> = floats.iter().map(|float| format!("{:08X}", float.to_bits())).collect();
    println!("{what} {}", shown.join(" "));
}

fn show_channel(what: &str, value: f32) {
    match channel_of(value) {
        Ok(channel) => println!("{what}: 0, accepted, channel {channel}"),
        refused => show_refusal(what, &refused),
    }
}

fn main() -> Result<(), Refusal> {
    let (major, minor, patch) = version();
    println!("version {major}.{minor}.{patch}");

    let mut alone = [0x40, 0xC0, 0x1F, 0, 0, 0, 0, 0, 0x0E, 0, 0, 0, 0, 0, 0, 0];
    let mut sheet = vec![0x01, 0x08, 0x04];
    let start = sheet.len();
    sheet.extend(alone);
    sheet.resize(start + 32, 0);

    // red from 0 to 127, index 8 at pixel 0 and 0 elsewhere
    let mut new = Line::default();
    new.endpoints[1] = [127, 0, 0, 0];
    new.indexes[0] = 8;
    show_row(&sheet)?;
    show_refusal("replaced in the sheet", &replace_in_sheet(&mut sheet, BlockNumber(0), LineNumber(0), &new));
    show_bytes("block", &sheet[start..][..16]);
    show_row(&sheet)?;

    show_pixel(&alone);
    show_indexes(&alone, 135);
    show_indexes(&alone, 130);
    show_refusal("replaced", &replace_line(&mut alone, LineNumber(0), &new));
    show_bytes("block", &alone);
    show_pixel(&alone);

    // 128 needs eight bits where the line has seven; block 1 is reserved; mode 6 has no line 1
    new.endpoints[1] = [128, 0, 0, 0];
    show_refusal("red 128", &replace_in_sheet(&mut sheet, BlockNumber(0), LineNumber(0), &new));
    show_refusal("block 1", &replace_in_sheet(&mut sheet, BlockNumber(1), LineNumber(0), &new));
    show_refusal("line 1", &replace_line(&mut alone, LineNumber(1), &new));
    show_bytes("block", &alone);

    // the record of the block, packed again; and a kind that isn't the mode's
    let mut record = unpack(&alone)?;
    println!("unpacked: 0, mode {}, red {} and {}", record.mode, record.endpoints[0][0], record.endpoints[1][0]);
    let packed = pack(&record);
    show_refusal("packed", &packed);
    show_bytes("block", &packed?);
    record.split = Split::TwoSubsets { partition: 0 };
    show_refusal("two subsets", &pack(&record));

    // the line as it stands, for the pair was stored turned; one index of it changed
    let (mut line, widths) = read_line(&alone, LineNumber(0))?;
    println!("line 0: 0, pixel 0 has index {} of {} bits", line.indexes[0], widths.indexes[0]);
    line.indexes[0] = 3;
    show_refusal("index 3", &replace_line(&mut alone, LineNumber(0), &line));
    show_pixel(&alone);

    let head = write_head(16384, 5);
    show_refusal("head", &head);
    show_bytes("head", &head?);
    show_refusal("head", &write_head(16385, 5));

    // mode 6 from alpha 255 to 0: every pixel has index 0 but the last one, in column 3 and row 3, which has 15
    let corner = [0x40, 0, 0, 0, 0, 0, 0xFE, 0x80, 0, 0, 0, 0, 0, 0, 0, 0xF0];
    show_opaque(&corner, 7, 4, 0);
    show_opaque(&corner, 7, 4, 1);
    show_opaque(&[0; 16], 8, 4, 1);
    for pixel in 14..=16 {
        show_one(&corner, pixel);
    }

    // BC6H, mode 03: red 512 of ten bits, which signed is the lowest value, and all else 0; and a reserved mode
    show_halves("backdrop", &[0x03, 0x40, 0, 0, 0, 0, 0, 0, 0, 0, 0, 0, 0, 0, 0, 0]);
    show_halves("reserved", &[0xF3, 0xFF, 0, 0, 0, 0, 0, 0, 0, 0, 0, 0, 0, 0, 0, 0]);

    // the sheet as a DDS file, of which the sides are shown, height first; the file as a sheet again; and what is no such file
    println!("exported: 0, {} bytes", export_length(&sheet)?);
    let file = export_dds(&sheet)?;
    show_bytes("sides", &file[12..20]);
    println!("imported: 0, {} bytes", import_length(&file)?);
    show_bytes("sheet", &import_dds(&file)?[..start + 16]);
    show_refusal("a sheet for a file", &import_dds(&sheet));

    // in sRGB the format is 99; importing says so beside the sheet, which has no room for it; there is no colour space 3
    let file = export_colour(&sheet, ColourSpace::SRGB)?;
    println!("exported in sRGB: 0, format {}", file[128]);
    let (again, said, colour) = import_colour(&file)?;
    println!("imported: 0, {} by {}, blocks from {}, colour space {}", said.width, said.height, said.start, colour.0);
    let (_, colour) = read_colour_head(&again)?;
    println!("its head: 0, colour space {}", colour.0);
    show_refusal("colour space 3", &export_colour(&sheet, ColourSpace(3)));

    // a sheet of three by two blocks of mode 6, block n all in red 4 * n; in tiles they are stored in the order 0 1 3 4 2 5
    let mut in_rows = vec![0x01, 12, 8];
    for n in 0..6 {
        in_rows.extend([0x40, n, 0, 0, 0, 0, 0, 0, 0, 0, 0, 0, 0, 0, 0, 0]);
    }
    show_opened(&in_rows)?;
    let moved = to_tiles(&in_rows);
    show_refusal("to tiles", &moved);
    let mut in_tiles = moved?;
    let opened = show_opened(&in_tiles)?;
    let stored: Vec<String> = in_tiles[opened.head.start..].chunks(16).map(|block| block[1].to_string()).collect();
    println!("stored {}", stored.join(" "));
    let block = block_in_sheet(&in_tiles, BlockNumber(2));
    show_refusal("block 2", &block);
    show_bytes("block", &block?[..2]);
    show_refusal("block 6", &block_in_sheet(&in_tiles, BlockNumber(6)));
    let scanlines = decode_sheet_row(&opened, 1, &in_tiles)?;
    println!("row 1: 0, red {} {} {}", scanlines[0], scanlines[16], scanlines[32]);
    show_refusal("tiles in three numbers", &read_head(&in_tiles));
    let back = to_rows(&in_tiles);
    show_refusal("to rows", &back);
    println!("the same bytes: {}", if back? == in_rows { "yes" } else { "no" });
    show_refusal("sRGB stated", &state_colour(&mut in_tiles, ColourSpace::SRGB));
    show_opened(&in_tiles)?;
    show_refusal("3 stated", &state_colour(&mut in_tiles, ColourSpace(3)));
    show_refusal("sRGB to rows", &to_rows(&in_tiles));

    let mut counts = count(&in_tiles)?;
    println!("counted: 0, accepted");
    show_counts(&counts);
    show_refusal("block 2 replaced", &replace_block_counted(&mut in_tiles, &mut counts, BlockNumber(2), &[0; 16]));
    show_counts(&counts);
    let (line, _) = read_line(&block_in_sheet(&in_tiles, BlockNumber(3))?, LineNumber(0))?;
    let replaced = replace_line_counted(&mut in_tiles, &mut counts, BlockNumber(3), LineNumber(0), &line);
    show_refusal("line 0 of block 3 replaced", &replaced);
    show_counts(&counts);
    counts.modes[6] += 1;
    show_refusal("one too many", &replace_line_counted(&mut in_tiles, &mut counts, BlockNumber(3), LineNumber(0), &line));
    // two pixels as floats, by their bits: one alone, and both as a row; -0.0 and 0.5 are no channel's, and neither is a NaN
    let two = [135, 0, 51, 255, 254, 1, 2, 3];
    let mut floats = [0.0; 8];
    show_floats("floats", &pixel_floats(&[135, 0, 51, 255]));
    show_refusal("room for 7", &row_floats(&two, &mut floats[..7]));
    show_refusal("room for 8", &row_floats(&two, &mut floats));
    show_floats("row", &floats);
    show_channel("0.2", 0.2);
    show_channel("-0.0", -0.0);
    show_channel("0.5", 0.5);
    show_refusal("bits 7FC00000", &channel_of_bits(0x7FC00000));

    for refusal in Refusal::ALL {
        println!("{}: {refusal}", refusal.number());
    }
    Ok(())
}
