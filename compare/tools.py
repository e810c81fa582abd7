"""What the scripts share: where things are, how a built program is started, and filters over blocks."""
import os
import platform
import shutil
import subprocess
from pathlib import Path

HERE = Path(__file__).resolve().parent
ROOT = HERE.parent
BUILT = ROOT / "target" / "compare"  # our own helpers; target/ is not committed


def shared_folder(given=None):
    """The folder with docs/ and outside/: an argument, else the environment's SHARED, else beside the repository."""
    return Path(given or os.environ.get("SHARED") or ROOT.parent / "shared")


def build_oracle(docs_src):
    """The Rust decoder as a filter, built anew each time: it takes a second or two."""
    out = BUILT / "oracle"
    subprocess.run([str(HERE / "oracle"), str(out), str(docs_src)], check=True)
    return [str(out)]


def build_halves_oracle(folder):
    """The Rust's BC6H decoder as a filter: a word behind the command says which sign (halves.SIGNS)."""
    out = BUILT / "oracle_bc6h"
    subprocess.run([str(HERE / "oracle_bc6h"), str(out), str(folder)], check=True)
    return [str(out)]


def toolchain():
    """The folder of the kit's compiler, linker, C library and emulator."""
    guide = subprocess.run(["rt", "doc"], stdout=subprocess.PIPE, check=True, text=True).stdout.strip()
    return Path(guide).parent / "toolchain"


def started(path):
    """The command that starts a program that the kit has linked, for x86-64: by the kit's loader and C library, on Arm under its emulator."""
    if shutil.which("rt") is None:
        return [str(path)]
    kit = toolchain()
    emulator = kit / "bin" / "qemu-x86_64"
    start = [str(emulator)] if os.access(emulator, os.X_OK) else []
    return [*start, str(kit / "lib" / "ld-linux-x86-64.so.2"), "--library-path", str(kit / "lib"), str(path)]


def program(name):
    """The command that starts the program NAME, or None where it isn't built."""
    path = ROOT / "crates" / name / "out" / name
    return started(path) if path.exists() else None


def own_archive():
    """The processor of this machine, and the archive for it."""
    processor = {"x86_64": "x86-64", "aarch64": "aarch64", "arm64": "aarch64"}.get(platform.machine(), "armv7")
    archive = BUILT / "native.a"
    BUILT.mkdir(parents=True, exist_ok=True)
    subprocess.run([ROOT / "processors/make", processor, archive], check=True, stdout=subprocess.DEVNULL)
    return processor, archive


def native():
    """The selftest for this machine's own processor, over the archive for it: it answers as `replay` does the calls that C has."""
    processor, archive = own_archive()
    out = BUILT / "native"
    subprocess.run([ROOT / "selftest/build", processor, archive, out], check=True)
    return [str(out), "--answers"]


def over_own_archive(name):
    """NAME.c of this folder as a filter over the archive for this machine's own processor, or None where there is no C compiler."""
    if shutil.which("cc") is None:
        return None
    _, archive = own_archive()
    out = BUILT / ("native_" + name)
    subprocess.run(["cc", "-O2", "-I", ROOT / "include", HERE / (name + ".c"), archive, "-o", out], check=True)
    return [str(out)]


def over_archive(name):
    """The same over the archive for x86-64, by the kit, or None where there is no archive (`processors/make --module`) or no kit."""
    archive = ROOT / "target" / "staticlib" / "librinchovek.a"
    if not archive.exists() or shutil.which("rt") is None:
        return None
    kit, out = toolchain(), BUILT / name
    lib, headers, part = kit / "lib", BUILT / "include", out.with_suffix(".o")
    headers.mkdir(parents=True, exist_ok=True)
    (headers / "stddef.h").write_text("typedef unsigned long size_t;\n")
    (headers / "stdint.h").write_text("typedef unsigned char uint8_t; typedef unsigned short uint16_t; typedef unsigned uint32_t; typedef unsigned long uint64_t;\n")
    compile_words = ["--target=x86_64-linux-gnu", "-nostdinc", "-isystem", headers, "-I", ROOT / "include", "-O2"]
    subprocess.run([kit / "bin" / "clang", *compile_words, "-c", HERE / (name + ".c"), "-o", part], check=True)
    before = [lib / name for name in ("Scrt1.o", "crti.o", "crtbeginS.o")]
    behind = [lib / name for name in ("libc.so.6", "libc_nonshared.a", "ld-linux-x86-64.so.2", "libgcc.a", "crtendS.o", "crtn.o")]
    link_words = ["-pie", "-dynamic-linker", lib / "ld-linux-x86-64.so.2", "-o", out, *before, part, archive, *behind]
    subprocess.run([kit / "bin" / "ld.lld", *link_words], check=True)
    return started(out)


def through(command, data, timeout=600):
    """What the command writes when it is given the data."""
    done = subprocess.run(command, input=data, stdout=subprocess.PIPE, stderr=subprocess.PIPE, timeout=timeout)
    if done.returncode != 0:
        said = done.stderr[-500:].decode("latin-1")
        raise RuntimeError("%s ended with status %d: %s" % (command[-1], done.returncode, said))
    return done.stdout


def outside_blocks(path):
    """width, height and the top level's blocks of a DDS file with the extended header (148 bytes)."""
    data = Path(path).read_bytes()
    assert data[:4] == b"DDS " and data[84:88] == b"DX10"
    height, width = (int.from_bytes(data[at : at + 4], "little") for at in (12, 16))
    count = ((width + 3) // 4) * ((height + 3) // 4)
    return width, height, data[148 : 148 + 16 * count]
