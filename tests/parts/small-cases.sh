#!/bin/bash
# Writes a few cases as rust/PROTOCOL.md has them to standard output, most of them from the description's
# examples: crates/answer_trials/stdin is what this writes, and the file `stdout` beside it what the Rust
# implementation answers (`trials --serve`). tests/trials.sh compares both.
set -u

bytes() { # HEX..
    local hex
    for hex in "$@"; do printf '%b' "\\x$hex"; done
}

word() { # NUMBER..: four bytes each, low byte first
    local n
    for n in "$@"; do
        bytes "$(printf '%02x' $((n & 255)))" "$(printf '%02x' $((n >> 8 & 255)))" \
            "$(printf '%02x' $((n >> 16 & 255)))" "$(printf '%02x' $((n >> 24 & 255)))"
    done
}

# A case with its file in hexadecimal and its inputs, each in one argument.
small_case() { # KIND CURSOR ROOM LIMIT MEMORY TABLE FILE INPUTS
    local -a file inputs
    read -r -a file <<<"$7"
    read -r -a inputs <<<"$8"
    bytes "0$1" ee 00 00
    word ${#file[@]} ${#inputs[@]} "$2" "$3" "$4" "$5" "$6"
    bytes "${file[@]}"
    word "${inputs[@]}"
}

a='01 03 00 05 00 08 01 01 02 00 02 05 01 01 07 02 00 00 0A 00 01 00 03 00 00 01 0D 01 02'
a2='02 03 00 05 02 00 08 00 01 02 06 01 01 07 02 00 00 12 00 02 0A 00 01 03 00 00 01 0D 01 02'
# IN 0, IN 1, ADD 2 0 1, OUT 2, LOAD32 3 2, JUMP 0
adds='02 00 06 10 00 10 01 03 02 00 01 11 02 07 03 02 0C 00'

# Numbers: examples 7 and 8; a place past the end; 300 where it fits and where not.
for number in 'AC 02' '80 00' '80' 'FF FF FF FF 0F' 'FF FF FF FF 10'; do
    small_case 1 0 0 0 0 0 "$number" ''
done
small_case 1 7 0 0 0 0 'AC 02' ''
small_case 2 1 4 300 0 0 '' ''
small_case 2 1 2 300 0 0 '' ''
# Files: A and its instrumented form, each asked for as the other version too.
small_case 3 0 0 0 0 0 "$a" ''
small_case 3 0 0 0 0 0 "$a2" ''
small_case 4 0 0 0 0 0 "$a2" ''
small_case 4 0 0 0 0 0 "$a" ''
small_case 5 0 40 0 0 0 "$a2" ''
small_case 5 0 29 0 0 0 "$a2" ''
# The colors of A; example 1, with room and without.
small_case 6 0 0 0 0 0 "$a" ''
small_case 7 0 40 0 0 0 "$a" ''
small_case 7 0 29 0 0 0 "$a" ''
# Runs: example 4, a run with inputs, a table that is too short; example 3, memory that is too long.
small_case 8 0 10 8 57344 7168 "$a2" ''
small_case 8 0 10 1000 57344 7168 "$adds" '35 7 57000 341'
small_case 8 0 10 8 57344 7167 "$a2" ''
small_case 9 0 1000 1000000 57344 7168 "$a" ''
small_case 9 0 1000 1000000 57345 7168 "$a" ''
# No more cases.
word 0 0 0 0 0 0 0 0
