#!/bin/sh
# The tool `sheet`, word for word: what it prints, where, and its exit status. Usage: sheet_tool.sh TOOL FOLDER
# Prints a line for each test that fails, and 'N passed, M failed'.
set -u
tool=$1
folder=$2
passed=0
failed=0
mkdir -p "$folder"
cd "$folder" || exit 1

# expect STATUS OUTPUT ERRORS WORDS...: runs the tool with the words.
expect() {
    status=$1 output=$2 errors=$3
    shift 3
    got=0
    "$tool" "$@" >out 2>err || got=$?
    if [ "$got" = "$status" ] && [ "$(cat out)" = "$output" ] && [ "$(cat err)" = "$errors" ]; then
        passed=$((passed + 1))
    else
        echo "FAILED: sheet $*: status $got, expected $status"
        cat out err
        failed=$((failed + 1))
    fi
}

# packs HEX WORDS...: the page, in hexadecimal.
packs() {
    hex=$1
    shift
    if [ "$("$tool" pack "$@" | od -An -v -tx1 | tr -d ' \n')" = "$hex" ]; then
        passed=$((passed + 1))
    else
        echo "FAILED: sheet pack $*"
        failed=$((failed + 1))
    fi
}

zeros() {
    head -c "$1" /dev/zero
}

# ---- sheets
zeros 16384 >blank
{ zeros 6400; printf x; zeros 9983; } >stray
{ "$tool" pack 8 1 opening; "$tool" pack 8 2 image 3 1 0 10 AB; "$tool" pack 8 3 committed 1; zeros 192; } >lawful
{ "$tool" pack 8 1 opening; "$tool" pack 8 2 image 8 1 0 10 0x00ff20; "$tool" pack 8 3 aborted 1 | head -c 20; zeros 44; } >torn
{ "$tool" pack 8 1 opening; "$tool" pack 8 2 committed 1; "$tool" pack 8 3 aborted 1; } >twice
{ "$tool" pack 8 1 opening; "$tool" pack 8 2 image 3 1 0 10 AB; "$tool" pack 8 3 image 3 1 0 7 AC; "$tool" pack 8 4 image 3 1 0 9 AD; } >again
{ head -c 192 again; "$tool" pack 8 4 image 3 1 3 9 AD; } >linked
{ "$tool" pack 8 1 opening; "$tool" pack 8 2 image 3 1 0 10 AB; "$tool" pack 8 3 opening; "$tool" pack 8 4 image 3 3 0 9 AD; } >anothers
{ "$tool" pack 8 1 opening; zeros 64; "$tool" pack 8 3 opening; } >gap
{ "$tool" pack 8 1 carried; "$tool" pack 8 2 image 3 1 0 10 AB; "$tool" pack 8 3 committed 1; "$tool" pack 8 4 carried; zeros 64; } >moved
{ head -c 256 moved; "$tool" pack 8 5 image 3 4 2 11 AC; "$tool" pack 8 6 committed 4; "$tool" pack 8 7 opening; } >carried
{ printf '\001\002'; "$tool" pack 8 1 opening | tail -c 62; } >small_2
{ "$tool" pack 8 1 opening; "$tool" pack 8 2 image 1 1 0 1 0x; "$tool" pack 8 3 image 2 1 0 1 0x3078; } >values
{ zeros 63; } >short
{ zeros 65; } >odd
: >empty
zeros 4194304 >longest
zeros 4194305 >longer
zeros 4194368 >page_longer

# ---- blank
expect 0 "blank: blank, 256 pages" "" blank blank
expect 0 "longest: blank, 65536 pages" "" blank longest
expect 1 "stray: used, up to page 101 of 256" "" blank stray
expect 1 "lawful: used, up to page 3 of 6" "" blank lawful
expect 2 "" "sheet: empty: no sheet: 0 bytes are not pages of 64" blank empty
expect 2 "" "sheet: short: no sheet: 63 bytes are not pages of 64" blank short
expect 2 "" "sheet: odd: no sheet: 65 bytes are not pages of 64" blank odd
expect 2 "" "sheet: longer: no sheet: more than 4194304 bytes" blank longer
expect 2 "" "sheet: page_longer: no sheet: more than 4194304 bytes" blank page_longer
expect 2 "" "sheet: missing: No such file or directory" blank missing
expect 2 "" "sheet: .: Is a directory" blank .
expect 2 "" "sheet: /dev/zero: no sheet: more than 4194304 bytes" blank /dev/zero

# ---- inspect
wrong="not lawful, the lowest page that is bad or does not go on from those below is"
expect 0 "blank: lawful, 0 of 256 pages used" "" inspect 8 blank
expect 0 "lawful: lawful, 3 of 6 pages used" "" inspect 8 lawful
expect 0 "torn: lawful, 3 of 3 pages used" "" inspect 8 torn
expect 1 "torn: $wrong
2: unfit" "" inspect 7 torn
expect 1 "twice: $wrong
3: aborted, action 1" "" inspect 8 twice
expect 0 "again: lawful, 4 of 4 pages used" "" inspect 8 again
expect 1 "linked: $wrong
4: image, file 3, action 1, link 3, start 9, value AD" "" inspect 8 linked
expect 1 "anothers: $wrong
4: image, file 3, action 3, link 0, start 9, value AD" "" inspect 8 anothers
expect 1 "gap: $wrong
2: blank" "" inspect 8 gap
expect 0 "moved: lawful, 4 of 5 pages used" "" inspect 8 moved
expect 0 "carried: lawful, 7 of 7 pages used" "" inspect 8 carried
expect 1 "small_2: $wrong
1: unfit" "" inspect 8 small_2
expect 1 "stray: $wrong
1: blank" "" inspect 256 stray
expect 2 "" "sheet: FILES is 1 to 256, not 0" inspect 0 lawful
expect 2 "" "sheet: FILES is 1 to 256, not 257" inspect 257 lawful
expect 2 "" "sheet: FILES is 1 to 256, not +8" inspect +8 lawful
expect 2 "" "sheet: FILES is 1 to 256, not " inspect "" lawful
expect 2 "" "sheet: FILES is 1 to 256, not 18446744073709551617" inspect 18446744073709551617 lawful
expect 2 "" "sheet: short: no sheet: 63 bytes are not pages of 64" inspect 8 short

# ---- show
expect 0 "1: opening
2: image, file 3, action 1, link 0, start 10, value AB
3: committed, action 1
4 to 6: blank" "" show 8 lawful
expect 0 "1: opening
2: image, file 8, action 1, link 0, start 10, value 0x00ff20
3: torn" "" show 8 torn
expect 1 "1: opening
2: unfit
3: torn" "" show 7 torn
expect 0 "1: opening
2: image, file 1, action 1, link 0, start 1, value 0x
3: image, file 2, action 1, link 0, start 1, value 0x3078" "" show 8 values
expect 1 "1: opening
2: blank
3: opening" "" show 8 gap
expect 0 "1: carried opening
2: image, file 3, action 1, link 0, start 10, value AB
3: committed, action 1
4: carried opening
5: blank" "" show 8 moved
expect 1 "1: unfit" "" show 8 small_2
expect 0 "1 to 256: blank" "" show 8 blank
expect 2 "" "sheet: odd: no sheet: 65 bytes are not pages of 64" show 8 odd

# ---- pack
zeros30=000000000000000000000000000000000000000000000000000000000000
packs "010000000000000001000000000000000000000000000000${zeros30}000001000000a3cb00a5" 8 1 opening
packs "010100000000000001000000000000000000000000000000${zeros30}000001000000310700a5" 8 1 carried
packs "020200000300000001000000000000000a000000000000004142${zeros30}02000000541500a5" 8 2 image 3 1 0 10 AB
no="sheet: no such page: NUMBER is 1 to FILES, ACTION 1 or more, START 1 or more; ACTION and LINK are below PLACE"
expect 1 "" "sheet: no such page: ACTION is 1 or more, and below PLACE" pack 8 2 committed 2
expect 1 "" "sheet: no such page: ACTION is 1 or more, and below PLACE" pack 8 2 aborted 0
expect 1 "" "$no" pack 8 2 image 9 1 0 1 a
expect 1 "" "$no" pack 8 2 image 4294967297 1 0 1 a
expect 1 "" "$no" pack 8 2 image 1 1 0 0 a
expect 1 "" "sheet: no such page: a value has at most 32 bytes, not 33" pack 8 2 image 1 1 0 1 123456789012345678901234567890123
expect 2 "" "sheet: VALUE: not pairs of hexadecimal digits (0 to 9, a to f): 0x123" pack 8 2 image 1 1 0 1 0x123
expect 2 "" "sheet: VALUE: not pairs of hexadecimal digits (0 to 9, a to f): 0x1G" pack 8 2 image 1 1 0 1 0x1G
expect 2 "" "sheet: LINK: not a number from 0 to 18446744073709551615: -1" pack 8 2 image 1 1 -1 1 a
for place in 0 65537 18446744073709551617 -1 ""; do
    expect 2 "" "sheet: PLACE is 1 to 65536, not $place" pack 8 "$place" opening
done
expect 2 "" "sheet: FILES is 1 to 256, not 0" pack 0 0 opening
expect 2 "" "sheet: pack what? See sheet help" pack 8 1 opening 1
expect 2 "" "sheet: pack what? See sheet help" pack 8 1 carried 1
expect 2 "" "sheet: pack what? See sheet help" pack 8 1 carried opening

# ---- words and options
help=$("$tool" help)
expect 0 "$help" "" --help
expect 0 "$help" "" -h
expect 0 "sheet 1.0" "" --version
expect 2 "" "$help"
expect 2 "" "$help" -x
expect 2 "" "$help" --help blank
expect 2 "" "$help" --version 1
expect 2 "" "$help" blank
expect 2 "" "$help" show 8
expect 2 "" "$help" repair 8 lawful

if "$tool" show 8 lawful >/dev/full 2>err || [ "$(cat err)" != "sheet: standard output: No space left on device" ]; then
    echo "FAILED: a full output"
    failed=$((failed + 1))
else
    passed=$((passed + 1))
fi
echo "$passed passed, $failed failed"
[ "$failed" = 0 ]
