#!/bin/sh
# No multiplication, remainder or division runs for a check word: looks at the compiled code, as it is linked. A function works a
# word out if it has the number 65,521, of a word's last step, or one at which a word begins; those of the crate encoding are looked at too.
# Usage: products.sh FOLDER FILE..., where FOLDER is for the controls, which must be found out: products by themselves, and the word in C as
# document 01 says it. Prints a line for each function that fails, and 'N passed, M failed'.
set -eu
here=$(dirname "$0")
folder=$1
shift
passed=0
failed=0

# test_that WHAT COMMAND...: one test.
test_that() {
    what=$1
    shift
    if "$@"; then
        passed=$((passed + 1))
    else
        echo "FAILED: $what"
        failed=$((failed + 1))
    fi
}

# seen FILE: a line for each function that is looked at: how many products and divisions it has, calls of routines for them too, its name, and
# which words it begins, of 60 bytes at 48,406 or of an opening at 97,034, carried at 112,265.
seen() {
    objdump -dr --no-show-raw-insn "$1" | awk '
        /^[0-9a-f]+ <.*>:$/ { name = $0; sub(/^[0-9a-f]+ </, "", name); sub(/>:$/, "", name); products[name] += 0; next }
        !/^[ \t]/ { next }
        /__[a-z]*(mul|div|mod)/ { products[name]++; next }
        /R_X86_64/ { next }
        { instruction = $2 ~ /^([{].*|lock|rep.*|data16|[c-g]s|bnd|notrack)$/ ? $3 : $2 }
        instruction ~ /mul|div|madd|^v?dp[bp]|^vp4?dp|^tdp|^fprem|^vfn?m/ { products[name]++ }
        /[$-]0xfff[01]([^0-9a-f]|$)|ffff000f/ { words[name] = 1 }
        /[$]0xbd16([^0-9a-f]|$)/ { words[name] = 1; begins[name] = begins[name] " BYTES" }
        /[$ \t]0x(17b0a|1b689)([^0-9a-f]|$)/ { words[name] = 1; begins[name] = begins[name] " OPENING" }
        END { for (name in products) if (name in words || name ~ /^encoding::/) print products[name] " " name begins[name] }'
}

# has LINES PATTERN: a line matches. lacks LINES PATTERN: none does.
has() {
    echo "$1" | grep -Eq "$2"
}
lacks() {
    ! has "$1" "$2"
}

# The controls: every one by itself, and as many as the file has.
mkdir -p "$folder"
gcc -c -o "$folder/products.o" "$here/products.s"
controls=$(seen "$folder/products.o")
count=$(grep -c '^    control ' "$here/products.s")
test_that "the controls are $count" [ "$(echo "$controls" | grep -c ' control_')" = "$count" ]
for control in $(sed -n 's/^    control \([a-z0-9_]*\),.*/control_\1/p' "$here/products.s"); do
    expected=1
    [ "$control" != control_none ] || expected=0
    test_that "the control $control: $(echo "$controls" | grep " $control\$")" has "$controls" "^$expected $control\$"
done
gcc -O2 -c -x c -o "$folder/plain.o" - <<END
#include "$(cd "$here" && pwd)/plain.h"
uint32_t control_plain(const uint8_t *page) { return plain_word(page) + shifted_word(page); }
END
plain=$(seen "$folder/plain.o")
test_that "the word in C" has "$plain" "^[1-9][0-9]* plain_word\$"
test_that "the word in C by shifts" has "$plain" "^0 shifted_word\$"

# What is linked. The words must be worked out somewhere, or nothing was looked at; the functions for C need no opening's.
for file in "$@"; do
    lines=$(seen "$file")
    test_that "$file has no word of 60 bytes" has "$lines" " BYTES"
    case $file in
    *libdesk.a) ;;
    *) test_that "$file has no word of an opening" has "$lines" " OPENING" ;;
    esac
    for name in $(echo "$lines" | awk '{ print $2 }'); do
        test_that "$file: $name has a product or a division" has "$lines" "^0 $name( |\$)"
    done
    test_that "$file has a product or a division" lacks "$lines" "^[1-9]"
done
echo "$passed passed, $failed failed"
[ "$failed" = 0 ]
