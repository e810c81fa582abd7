# How C is compiled and linked by the kit alone, which has a compiler, a linker and a C library for x86-64, and no C header. Who sources this
# stands in the repository's folder, and has set `work` to a folder of its own. On Arm the kit's emulator runs what is linked.
kit=$(cd "$(dirname "$(rt doc)")" && pwd)/toolchain
lib=$kit/lib
emulator=$kit/bin/qemu-x86_64
[ -x "$emulator" ] || emulator=

# tests/kit.h stands in the place of each header.
mkdir -p "$work/include/sys"
for header in errno fcntl signal stddef stdint stdio stdlib string time unistd sys/file sys/mman sys/stat; do
    ln -sf "$PWD/tests/kit.h" "$work/include/$header.h"
done

# compiled_by_kit SOURCE OBJECT [FLAG..]: without a warning.
compiled_by_kit() {
    source=$1 object=$2
    shift 2
    "$kit/bin/clang" --target=x86_64-linux-gnu -std=c99 -nostdinc -isystem "$work/include" -Iinclude -O2 -Wall -Wextra -Werror "$@" \
        -c "$source" -o "$object"
}

# linked_by_kit COMMAND ARCHIVE OBJECT..: a command of these objects and the archive, which the kit's loader starts.
linked_by_kit() {
    command=$1 archive=$2
    shift 2
    "$kit/bin/ld.lld" -pie -dynamic-linker "$lib/ld-linux-x86-64.so.2" -o "$command.program" "$lib/Scrt1.o" "$lib/crti.o" \
        "$lib/crtbeginS.o" "$@" "$archive" "$lib/libc.so.6" "$lib/libc_nonshared.a" "$lib/ld-linux-x86-64.so.2" "$lib/libgcc.a" \
        "$lib/crtendS.o" "$lib/crtn.o"
    printf '#!/bin/sh\nexec %s "%s" --library-path "%s" "%s" "$@"\n' "$emulator" "$lib/ld-linux-x86-64.so.2" "$lib" "$command.program" >"$command"
    chmod +x "$command"
}
