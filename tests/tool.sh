# shellcheck shell=sh
# What tests/tool_test and tests/tool_input_test share: both binaries of the tool, built here, cases that run on each of
# them, and blocks and tables to run on. The test that reads this (. tests/tool.sh) defines `cases` and ends in `both`.
#
# A case is a command, which is a piece of shell in a directory of its own where `burst` is the program, with what it
# must leave: its status, its lines on standard error, each of which begins with burst, and standard output to the
# letter. So a report of a sanitizer fails any case, and so does its exit status.
set -u
cd "$(dirname "$0")/.." || exit 2
root=$PWD
name=${0##*/}
work=$(mktemp -d) || exit 2
trap 'rm -rf "$work"' EXIT
LC_ALL=C ASAN_OPTIONS=exitcode=99:allocator_may_return_null=1 LSAN_OPTIONS=exitcode=99 UBSAN_OPTIONS=exitcode=99
export LC_ALL ASAN_OPTIONS LSAN_OPTIONS UBSAN_OPTIONS
passed=0
failed=0
program=
verdict() { # STATUS WHAT
    if [ "$1" -eq 0 ]; then
        passed=$((passed + 1))
    else
        failed=$((failed + 1))
        printf '%s: %s: %s\n' "$name" "${program##*/}" "$2"
    fi
}

# shellcheck disable=SC2317 # called by cases, which are evaluated
burst() { timeout 60 "$program" "$@"; }

# STATUS, LINES and WORDS are patterns of `case`: the exit status, how many lines are on standard error, and one of
# them. WANTED prints what must be on standard output; without it that is not looked at.
judge() { # STATUS LINES WORDS COMMAND [WANTED]
    (eval "$4") < /dev/null > out 2> err
    status=$?
    fault=
    # shellcheck disable=SC2254 # a pattern on purpose
    case $status in $1) ;; *) fault="status $status for $1" ;; esac
    said "$2" "$3" || fault="$fault; on standard error, for $2 lines and '$3': $(head -n 5 err)"
    if [ $# -gt 4 ]; then
        eval "$5" > wanted
        cmp -s wanted out || fault="$fault; $(diff -a wanted out | head -n 5)"
    fi
    [ -z "$fault" ]
    verdict $? "$4: ${fault#; }"
}
said() { # LINES WORDS
    lines=0
    fits=no
    while IFS= read -r line || [ -n "$line" ]; do
        lines=$((lines + 1))
        case $line in burst[\ :]*) ;; *) return 1 ;; esac
        # shellcheck disable=SC2254
        case $line in $2) fits=yes ;; esac
    done < err
    # shellcheck disable=SC2254
    case $lines in $1) [ "$lines" -eq 0 ] || [ $fits = yes ] ;; *) return 1 ;; esac
}
gives() { judge 0 0 '*' "$@"; } # COMMAND WANTED: done, and nothing on standard error
notes() { judge 0 1 '*' "$@"; } # COMMAND WANTED: done, and a line on standard error
# A line begins so; without WANTED there is no output.
refuses() { judge "$1" 1 "burst $2*" "$3" "${4-:}"; } # STATUS WORDS COMMAND [WANTED]
tells() { # COMMAND WORDS..: done, with these words on standard output, and nothing on standard error
    command=$1
    shift
    gives "$command > told && has $*" :
}
has() { # WORDS..
    for word in "$@"; do
        grep -qw -- "$word" told || { echo "no $word"; return 1; }
    done
}

both() { # calls `cases` for each of the two binaries, and ends the test
    for program in "$root/target/tool/burst" "$root/target/tool/burst-sanitized"; do
        cases
    done
    printf '%d passed, %d failed\n' "$passed" "$failed"
    [ "$failed" -eq 0 ] && [ "$passed" -gt 0 ]
}

# Blocks. In text a block is a line with its number; in bytes it is two, low first.
zeros() { head -c $((2 * $1)) /dev/zero; } # COUNT: blocks of zeros, in bytes
lines() { yes "$2" | head -n "$1"; } # COUNT NUMBER: the same block again and again, in text
text() { printf '%s\n' "$@"; } # NUMBERS..: these blocks, in text
pack() { # text to bytes
    # shellcheck disable=SC2059 # a format on purpose
    printf "$(awk '{ printf "\\%03o\\%03o", $1 % 256, int($1 / 256) }')"
}
unpack() { od -An -v -tu1 -w2 | awk '{ print $1 + 256 * $2 }'; } # bytes to text
random() { # COUNT BELOW SEED: numbers that are the same each time, in text: Lehmer's generator
    awk -v count="$1" -v below="$2" -v x="$3" 'BEGIN {
        for (x = x * 7919 + 12345; count > 0; count--) { x = x * 16807 % 2147483647; print int(x / 64) % below }
    }'
}

# Tables. In text a table is a line of numbers, n, N, m and the rows; in bytes it is that of 01.
hex() { # BYTES..: in hexadecimal, as 01 writes them
    for byte in "$@"; do
        # shellcheck disable=SC2059
        printf "\\$(printf %03o "0x$byte")"
    done
}
records() { # text to bytes, rows in order
    # shellcheck disable=SC2059
    printf "$(awk '{
        printf "\\001\\%03o\\%03o\\%03o", $1, $2, $3
        for (j = 1; j < $1; j++) {
            printf "\\002\\%03o", j
            for (k = 0; k < 8; k++) { printf "\\%03o", $(j + 3) % 256; $(j + 3) = int($(j + 3) / 256) }
        }
        printf "\\000"
    }')"
}
# The made table for n and m, in text. The triangle stands in the rows for n = 16, above their bit 16; rows of a smaller
# n have its first n - 1 columns above their bit n, and bit n - j.
rows=$(sed -n 's/^make 16 64: 0; table 16 32 64 //p' tests/interface.stdout)
made() { # n m
    printf '%d %d %d' "$1" $((2 * $1)) "$2"
    j=1
    for row in $rows; do
        [ "$j" -lt "$1" ] || break
        printf ' %d' $((((row >> 17) & ((1 << ($1 - 1)) - 1)) << ($1 + 1) | 1 << ($1 - j)))
        j=$((j + 1))
    done
    printf '\n'
}

for target in tool tool-sanitized target/bin/listing; do
    make -s "$target" > "$work/log" 2>&1
    verdict $? "make $target: $(tail -n 3 "$work/log")"
done
for mark in __asan_init __ubsan_handle; do
    nm target/tool/burst-sanitized 2> /dev/null | grep -q "$mark"
    verdict $? "burst-sanitized has no $mark"
done
cd "$work" || exit 2

# shellcheck disable=SC2034 # for the cases
z='-n 2 -m 1' # the table Z of 01, as it is made: n = 2, N = 4, row 10; a delay of 3
z1='01 02 04 01 02 01 0A 00 00 00 00 00 00 00 00' # T1, Z as bytes
# shellcheck disable=SC2086 # words on purpose
hex $z1 > t1
