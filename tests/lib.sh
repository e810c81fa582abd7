# What the scripts share that try the client. Who sources this has set `name`, `client` and `faulty` to whole paths; it is in an empty folder of
# its own then, `work`, which goes at the end, and `root` is the repository.
set -u
root=$(cd "$(dirname "$0")/.." && pwd)
work=$(mktemp -d)
trap 'rm -rf "$work"' EXIT
cd "$work"
ulimit -c 0
wrong=0
input=/dev/null
program=$client

complain() {
    echo "$name: $*" >&2
    wrong=1
}

# run ARGUMENT..: starts the program; what it prints is in .printed, what it says on standard error in .said, how it ended in `ended`.
run() {
    "$program" "$@" <"$input" >.printed 2>.said
    ended=$?
}

# is STATUS PRINTED SAID ARGUMENT..: what the program ends with, prints, and says on standard error, each as it stands.
is() {
    status=$1 printed=$2 said=$3
    shift 3
    run "$@"
    [ "$ended" -eq "$status" ] && [ "$(cat .printed)" = "$printed" ] && [ "$(cat .said)" = "$said" ] ||
        complain "$*: status $ended, printed: $(cat .printed), said: $(cat .said)"
}

# says SAID ARGUMENT..: it ends with 2, prints nothing, and says this.
says() {
    said=$1
    shift
    is 2 '' "rinchovek: $said" "$@"
}

# refused NUMBER VERB FILE ARGUMENT..: the program refuses the file with this number, by its text; the reason behind that is `reason`, where that
# is set, and any otherwise.
refused() {
    case $1 in
    1) text='the block is reserved' ;;
    2) text='the block has no such line' ;;
    3) text='a value needs more bits than it has' ;;
    4) text='the p bits differ, and mode 1 has one for both endpoints' ;;
    7) text='a number of the head is cut off, too long or not in its shortest form' ;;
    8) text='the form of the sheet is not one that the call takes' ;;
    9) text='the width or the height is 0 or too large' ;;
    10) text='too few or too many bytes of blocks' ;;
    12) text='the row or the block is beyond the sheet' ;;
    13) text='the pixel is not in the line' ;;
    15) text='the file is not a DDS file of one BC7 texture with one level' ;;
    16) text='the sheet states a colour space, and form 1 has no room for it' ;;
    18) text='there is no such colour space' ;;
    esac
    text="refused with $1, $text"
    shift
    run "$@"
    said=$(cat .said)
    [ "$2" != - ] || set -- "$1" 'standard input'
    [ "$ended" -eq 1 ] && [ ! -s .printed ] && case $said in
    "rinchovek: $2: $text") [ -z "${reason-}" ] ;;
    "rinchovek: $2: $text; ${reason-}"*) [ -z "${reason-}" ] || [ "$said" = "rinchovek: $2: $text; $reason" ] ;;
    *) false ;;
    esac || complain "$*: status $ended, wanted: $text; ${reason-}, said: $said"
}

# kept, untouched WHAT: the files of the folder maps are those of the copy, byte for byte, with the time stamps of then, and nothing is beside
# them but locks.
kept() {
    rm -rf kept && mkdir kept && rm -f maps/*.lock && cp -p maps/* kept/ && touch -t 200001010000 maps/* old
}
untouched() {
    diff -r -x '*.lock' maps kept >/dev/null && [ -z "$(find maps -type f -newer old ! -name '*.lock')" ] ||
        complain "$1 changed a file, or left one: $(ls maps)"
}

# three blocks: C of the README, a reserved one, and one of mode 1
c='\100\300\037\000\000\000\000\000\016\000\000\000\000\000\000\000'
mode_1='\106\000\000\374\000\000\000\000\000\000\200\001\000\000\000\000'
zeros='\000\000\000\000\000\000\000\000\000\000\000\000\000\000\000\000'
three() { printf "\\001\\014\\004$c$zeros$mode_1"; }
c_in_words='# block 0, line 0: mode 6
first    0   0   0   0  # bits 7 7 7 7
second 127   0   0   0  # bits 7 7 7 7
p        0   0          # bits 1 1
index    7   0   0   0  # bits 4 4 4 4
         0   0   0   0  # bits 4 4 4 4
         0   0   0   0  # bits 4 4 4 4
         0   0   0   0  # bits 4 4 4 4'
# C after the README's correction
corrected() { printf "\\001\\014\\004\\300\\077\\000\\000\\000\\000\\000\\000\\376\\377\\377\\377\\377\\377\\377\\377$zeros$mode_1"; }
