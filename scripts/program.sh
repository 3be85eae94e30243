# What the scripts share that run a program on numbers and a table file. A script sets `root`, the repository, and `name`, the program's name,
# and then reads this file.
program=$root/crates/$name/out/$name

# One line on standard error, and status 2.
fail() {
    printf '%s: %s\n' "$name" "$1" >&2
    exit 2
}

# Prints the first file that is newer than the program, of all that stands in crates/ and crates.txt but what rt makes, in the out/ of each crate.
newer() {
    (cd "$root" && find crates crates.txt -path 'crates/*/out' ! -path 'crates/*/*/out' -prune -o \
        -newer "crates/$name/out/$name" -type f -print | head -n 1)
}

# The program is missing, or a source is newer than it.
stale() {
    [ ! -x "$program" ] || [ -n "$(newer)" ]
}

# Proves and builds the program at the first use, and again where its sources have changed. `rt run` runs it too, here on no input, and so ends with
# status 0 only where it was built: a program has that status on every input.
build() {
    stale || return 0
    command -v rt >/dev/null || fail "the toolchain's command rt is not on the PATH"
    echo "$name: proving and building the program (some minutes, at the first use)" >&2
    (cd "$root/crates/$name" && rt run </dev/null >/dev/null) || fail "the program was not built"
    touch -c "$program"
}

# The file is there and can be read.
readable() {
    [ -f "$1" ] || fail "there is no file '$1'"
    [ -r "$1" ] || fail "the file '$1' can't be read"
}

# Prints the number that digits give, without leading zeros. It fails where they are none, and above 4294967295.
number() {
    case $1 in
        '' | *[!0123456789]*) return 1 ;;
    esac
    rest=$1
    while [ "$rest" != "${rest#0?}" ]; do
        rest=${rest#0}
    done
    [ ${#rest} -le 10 ] && [ "$rest" -le 4294967295 ] && echo "$rest"
}

# Prints the ticks of a time of day as HH:MM:SS.mmm. A 1 before each number keeps leading zeros from making it octal.
ticks_of_day() {
    hours=${1%%:*}
    seconds=${1##*:}
    minutes=${1#*:}
    minutes=${minutes%:*}
    echo $((((1$hours - 100) * 3600 + (1$minutes - 100) * 60 + 1${seconds%.*} - 100) * 1000 + 1${seconds#*.} - 1000))
}

# Prints the tick of a time: ticks, or a time of day. It fails where it is neither.
tick_of() {
    digit='[0123456789]'
    sixty="[012345]$digit"
    case $1 in
        [01]$digit:$sixty:$sixty | 2[0123]:$sixty:$sixty) ticks_of_day "$1.000" ;;
        [01]$digit:$sixty:$sixty.$digit$digit$digit | 2[0123]:$sixty:$sixty.$digit$digit$digit) ticks_of_day "$1" ;;
        *) number "$1" ;;
    esac
}

# Prints the tick that an argument says, which is given by its name and its value.
tick_argument() {
    tick_of "$2" || fail "$1 is neither ticks (0 to 4294967295) nor a time of day, 00:00:00 to 23:59:59.999 (HH:MM:SS or HH:MM:SS.mmm)"
}

# A number as 4 bytes, high byte first.
bytes() {
    printf "$(printf '\\%03o\\%03o\\%03o\\%03o' $(($1 >> 24)) $(($1 >> 16 & 255)) $(($1 >> 8 & 255)) $(($1 & 255)))"
}

# Runs the program on a file with numbers before it: the file, and then the numbers.
run() {
    build
    exec <"$1" || fail "the file '$1' can't be read"
    shift
    {
        for value in "$@"; do
            bytes "$value"
        done
        cat
    } | "$program"
}
