# Sourced by `count` and `run`: finds the kit, the archive and the published Rust, and makes a work folder.
#
#     prepare [ARCHIVE] [PUBLISHED]
# sets  archive    the static library that is measured
#       has_rows   yes where the archive has rinchovek_sheet_decode_row, else empty
#       has_lines  yes where it has rinchovek_bc7_read_line, with which the calls that write are prepared, else empty
#       has_indexes yes where it has rinchovek_bc7_nearest_index, else empty
#       has_opacity yes where it has rinchovek_bc7_is_opaque, else empty
#       has_pixels yes where it has rinchovek_bc7_pixel, else empty
#       has_files  yes where it has rinchovek_dds_import, else empty
#       has_colours  yes where it has rinchovek_dds_import_colour, else empty
#       has_forms  yes where it has rinchovek_sheet_to_tiles, else empty
#       has_stating  yes where it has rinchovek_sheet_state_colour, else empty
#       has_halves  yes where it has rinchovek_bc6h_decode_block and the Rust that it is counted beside stands below PUBLISHED, else empty
#       has_floats  yes where it has rinchovek_row_floats, else empty
#       kit        the folder of the kit's clang and linker for this machine
#       work       a fresh folder, removed at exit, with the published sources and reference.rs in it

die() { echo "${0##*/}: $*" >&2; exit 2; }

prepare() {
    local bench repository place published=
    bench=$(cd "$(dirname "${BASH_SOURCE[0]}")" && pwd)
    repository=$(dirname "$bench")

    archive=${1:-$repository/target/staticlib/librinchovek.a}
    [ -f "$archive" ] || die "no archive $archive: 'processors/make --module' writes it"
    archive=$(readlink -f "$archive")
    if [ -z "${1:-}" ] && [ -n "$(find "$repository/crates" -name '*.rt' -newer "$archive" -print -quit)" ]; then
        echo "${0##*/}: a source is newer than the archive: 'processors/make --module' writes it again" >&2
    fi
    # an archive's index has the exported names as plain text
    grep -qaw rinchovek_bc7_decode_block "$archive" || die "$archive has no rinchovek_bc7_decode_block"
    has_rows=
    if grep -qaw rinchovek_sheet_decode_row "$archive"; then has_rows=yes; fi
    has_lines=
    if grep -qaw rinchovek_bc7_read_line "$archive"; then has_lines=yes; fi
    has_indexes=
    if grep -qaw rinchovek_bc7_nearest_index "$archive"; then has_indexes=yes; fi
    has_opacity=
    if grep -qaw rinchovek_bc7_is_opaque "$archive"; then has_opacity=yes; fi
    has_pixels=
    if grep -qaw rinchovek_bc7_pixel "$archive"; then has_pixels=yes; fi
    has_files=
    if grep -qaw rinchovek_dds_import "$archive"; then has_files=yes; fi
    has_colours=
    if grep -qaw rinchovek_dds_import_colour "$archive"; then has_colours=yes; fi
    has_forms=
    if grep -qaw rinchovek_sheet_to_tiles "$archive"; then has_forms=yes; fi
    has_stating=
    if grep -qaw rinchovek_sheet_state_colour "$archive"; then has_stating=yes; fi
    has_floats=
    if grep -qaw rinchovek_row_floats "$archive"; then has_floats=yes; fi

    has_halves=
    if grep -qaw rinchovek_bc6h_decode_block "$archive"; then has_halves=yes; fi

    place=${2:-$repository/../shared}
    for published in "$place/docs/src/src" "$place/src" "$place"; do
        [ ! -f "$published/decode/bc7.rs" ] || break
    done
    [ -f "$published/decode/bc7.rs" ] || die "no published Rust (decode/bc7.rs) below $place"

    command -v rustc >/dev/null || die 'no rustc on the PATH'
    command -v rt >/dev/null || die "no rt on the PATH: the kit's compiler is needed"
    kit=$(cd "$(dirname "$(rt doc)")/toolchain/bin" && pwd) || die "no compiler in the kit"

    work=$(mktemp -d)
    trap 'rm -rf "$work"' EXIT
    mkdir "$work/decode"
    cp "$published/bcn_data.rs" "$work/"
    cp "$published/decode/bc7.rs" "$published/decode/bcn_util.rs" "$work/decode/"
    # the BC6H decoder of the same author: it takes from the same two files, of which one has tests behind it
    if [ -f "$place/outside/bc6h/rust/decode/bc6.rs" ]; then cp "$place/outside/bc6h/rust/decode/bc6.rs" "$work/decode/"; else has_halves=; fi
    # what was copied may be read-only
    chmod -R u+w "$work"
    cp "$bench/reference.rs" "$bench/count.c" "$bench/time.rs" "$work/"
    cd "$work"
}

# compile_reference block|row|halves WORDS..: the published decoder behind rust_decode_block, rust_decode_row or rust_decode_bc6h
compile_reference() {
    local part=$1
    shift
    rustc --edition 2021 --crate-name "reference_$part" --cfg "$part" --check-cfg 'cfg(block, row, halves)' \
        -C opt-level=3 -C codegen-units=1 "$@" reference.rs
}
