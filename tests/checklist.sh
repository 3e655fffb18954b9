#!/bin/sh
# Runs the commands of docs/CHECKLIST.md and holds what they print to what stands there. In a block marked `console` a line that begins
# with `$ ` is a command, `> ` goes on with it, and the lines after it are what it must print.
# checklist.sh TOOL PROGRAM FOLDER
set -u
tool=$(dirname "$1")
program=$(dirname "$2")
list=$PWD/docs/CHECKLIST.md
PATH=$tool:$program:$PATH
mkdir -p "$3"
cd "$3" || exit 2
rm -f step.* all.sh

# Each command to a file of its own, with what it must print beside it.
awk '
    /^```console/ { inside = 1; next }
    /^```/        { inside = 0; next }
    !inside       { next }
    /^\$ /        { n++; print substr($0, 3) >("step." n); next }
    /^> /         { print substr($0, 3) >>("step." n); next }
                  { print >>("step." n ".must") }
' "$list"

passed=0
failed=0
n=1
while [ -f "step.$n" ]; do
    # A step that prints nothing says what later ones use.
    if [ -f "step.$n.must" ]; then
        cat all.sh "step.$n" 2>/dev/null >run.sh
        sh run.sh >"step.$n.out" 2>&1
        if cmp -s "step.$n.out" "step.$n.must"; then
            passed=$((passed + 1))
        else
            failed=$((failed + 1))
            echo "FAILED: step $n"
            cat "step.$n"
            diff "step.$n.must" "step.$n.out"
        fi
    else
        cat "step.$n" >>all.sh
    fi
    n=$((n + 1))
done
echo "checklist: $((n - 1)) steps"
[ "$passed" -gt 0 ] || failed=1
echo "$passed passed, $failed failed"
[ "$failed" -eq 0 ]
