//! The published Rust decoder behind a C name, with the signature of the function it is measured against.
//! `prepare.sh` puts this file beside a copy of the published sources, whose modules it declares.
//!
//! It is compiled with `--cfg block` and with `--cfg row`, and with `--cfg halves` where the BC6H decoder of the same author stands beside it: a
//! decoder with one caller is inlined into it, and no measured function should cost more because another stands beside it.

#![allow(dead_code)]

mod bcn_data;

/// The published `util` needs the rest of its crate; the decoder uses only this hint.
mod util {
    #[cold]
    #[inline]
    pub(crate) fn unlikely_branch() {}
}

mod decode {
    #[cfg(halves)]
    pub(crate) mod bc6;
    #[cfg(not(halves))]
    pub(crate) mod bc7;
    pub(crate) mod bcn_util;
}

#[cfg(halves)]
use decode::bc6::{decode_bc6_block, BC6HFormat};
#[cfg(not(halves))]
use decode::bc7::decode_bc7_block;

/// The sign is known when it runs, as in the function it is measured against.
#[cfg(halves)]
#[no_mangle]
pub extern "C" fn rust_decode_bc6h(block: &[u8; 16], is_signed: u32, halves: &mut [[u16; 3]; 16]) {
    let format = if is_signed == 0 { BC6HFormat::UnsignedF16 } else { BC6HFormat::SignedF16 };
    *halves = decode_bc6_block(*block, format);
}

#[cfg(block)]
#[no_mangle]
pub extern "C" fn rust_decode_block(block: &[u8; 16], pixels: &mut [[u8; 4]; 16]) {
    *pixels = decode_bc7_block(*block);
}

/// One row of blocks as one would write it in Rust: each block is decoded and its lines copied to their places, the whole
/// blocks first and then one that the edge cuts (one loop for both counts more). Answers 0, as the measured function does
/// where it accepts; lengths that do not fit panic.
///
/// # Safety
/// `blocks` and `out` point to as many bytes as their lengths say.
#[cfg(row)]
#[no_mangle]
pub unsafe extern "C" fn rust_decode_row(
    width: u32,
    height: u32,
    row: u32,
    blocks: *const u8,
    blocks_length: usize,
    out: *mut u8,
    out_length: usize,
) -> u32 {
    let blocks = std::slice::from_raw_parts(blocks, blocks_length);
    let out = std::slice::from_raw_parts_mut(out, out_length);
    let width = width as usize;
    let lines = (height as usize - 4 * row as usize).min(4);

    let whole = width / 4;
    for column in 0..whole {
        let pixels = decode_bc7_block(blocks[16 * column..][..16].try_into().unwrap());
        for line in 0..lines {
            let place = 4 * (width * line + 4 * column);
            out[place..place + 16].copy_from_slice(pixels[4 * line..][..4].as_flattened());
        }
    }
    let shown = width % 4;
    if shown > 0 {
        let pixels = decode_bc7_block(blocks[16 * whole..][..16].try_into().unwrap());
        for line in 0..lines {
            for column in 0..shown {
                let place = 4 * (width * line + 4 * whole + column);
                out[place..place + 4].copy_from_slice(&pixels[4 * line + column]);
            }
        }
    }
    0
}
