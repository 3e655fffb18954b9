#!/bin/sh
# Types the conversation of docs/STORE.md, in which each line has a command, its reply and, after more spaces, words for the reader, and
# that of README.md, where a command, with such words, and its reply are a line each. Prints what differs, and 'N passed, M failed'.
# Usage: conversation.sh PROGRAM
set -u
program=$1
total=0

# held NAME: what the program says to build/NAME.typed is build/NAME.must, of more than 10 lines.
held() {
    "$program" <"build/$1.typed" >"build/$1.said"
    count=$(wc -l <"build/$1.must")
    if [ "$count" -le 10 ] || ! diff "build/$1.must" "build/$1.said"; then
        echo "0 passed, 1 failed"
        exit 1
    fi
    total=$((total + count))
}

sed -n '/^A conversation, with the replies/,$s/^    //p' docs/STORE.md >build/store.lines
sed 's/  .*//' build/store.lines >build/store.typed
sed 's/^[^ ]*\( [^ ]\{1,\}\)*   *//; s/  .*//' build/store.lines >build/store.must
held store

sed -n '/^## A first conversation/,/^(The words/s/^    //p' README.md | sed '1d; s/  .*//' >build/readme.lines
sed -n 'p;n' build/readme.lines >build/readme.typed
sed -n 'n;p' build/readme.lines >build/readme.must
held readme
echo "$total passed, 0 failed"
