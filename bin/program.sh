# What ./bin/sheetlist and ./bin/bitchart share: their options, their file, and how the program is proved, built and started. Who sources this has
# set `name` and `version` and the function `usage`. The program is built for x86-64, and the kit's loader and C library run it: on Arm
# under the kit's emulator.

say() { printf '%s: %s\n' "$name" "$*" >&2; }
fail() {
    say "$@"
    exit 2
}

# input WORDS: an option is answered, and a file becomes the standard input.
input() {
    case ${1-} in
    --help) usage; exit 0 ;;
    --version) echo "$name $version"; exit 0 ;;
    --) shift ;;
    -?*) fail "there is no option $1; --help says what there is" ;;
    esac
    [ $# -le 1 ] || fail "one file at a time; --help says more"
    if [ $# -eq 1 ]; then
        [ ! -d "$1" ] && [ -r "$1" ] || fail "cannot read $1"
        exec <"$1"
    fi
}

# changed FOLDER FILE: whether a source is newer than the file. What rt makes stands in the crates' own folders, in out/.
changed() { [ -n "$(cd "$1" && find crates crates.txt -name out -prune -o \( ! -path 'crates/*' -o -path 'crates/*/*' \) -newer "$2" -print 2>/dev/null | head -n 1)" ]; }

# build FOLDER: where sources have changed, the program is proved and built first. `rt run` does that, and starts it then: on no input here.
build() {
    checked=$1/target/$name.checked
    if [ ! -x "$1/crates/$name/out/$name" ] || [ ! -f "$checked" ]; then
        why='the program has to be proved and built first'
    elif changed "$1" "target/$name.checked"; then
        why='the sources have changed, and the program has to be proved and built again'
    else
        return
    fi
    command -v rt >/dev/null || fail "$why, and the kit's command rt is not on the PATH"
    (mkdir -p "$1/target" && : >"$checked.new") 2>/dev/null || fail "$why, and $1 may not be written"
    say "$why, which takes some minutes"
    told=$(cd "$1/crates/$name" && rt run </dev/null 2>&1 >/dev/null) || {
        printf '%s\n' "$told" >&2
        fail 'the program was not proved'
    }
    mv "$checked.new" "$checked"
}

# run FOLDER: what the program prints goes straight on. It returns where the input was refused; where it was not, and where the program
# could not read or write, the run is over.
run() {
    build "$1"
    set -- "$1/crates/$name/out/$name" --status
    # by the kit's loader where the kit is there
    if command -v rt >/dev/null; then
        kit=$(dirname "$(rt doc </dev/null)")/toolchain # rt does not start where its input is a folder
        set -- "$kit/lib/ld-linux-x86-64.so.2" --library-path "$kit/lib" "$@"
        [ ! -x "$kit/bin/qemu-x86_64" ] || set -- "$kit/bin/qemu-x86_64" "$@"
    fi
    # Its standard error, which is caught, is empty where nothing was refused, and `refused` where something was. Where nobody reads the
    # pipe any more that it writes to, as behind `head`, it ends as if by the signal 13, and there is nobody to tell.
    (: 3>&1) 2>/dev/null || fail 'cannot write'
    status=0
    { told=$("$@" 2>&1 >&3 3>&-) || status=$?; } 3>&1
    case $told in
    '')
        [ "$status" -ne 0 ] || exit 0
        [ "$status" -ne $((128 + 13)) ] || exit 2
        fail "the program ended with status $status"
        ;;
    refused) ;;
    *)
        printf '%s\n' "$told" >&2
        exit 2
        ;;
    esac
}
