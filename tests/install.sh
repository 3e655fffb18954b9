#!/bin/sh
# Installs into a folder, runs what was installed from there, and removes it again. Usage: install.sh FOLDER
# Prints a line for each test that fails, and 'N passed, M failed'.
set -u
root=$PWD/$1
there=$root/usr
passed=0
failed=0
rm -rf "$root"
mkdir -p "$root"

# same WHAT EXPECTED GOT
same() {
    if [ "$2" = "$3" ]; then
        passed=$((passed + 1))
    else
        printf 'FAILED: %s: %s\n' "$1" "$3"
        failed=$((failed + 1))
    fi
}

files() {
    (cd "$root" && find . -type f | sort)
}

make -s install DESTDIR="$root" PREFIX=/usr
same "the files" "./usr/bin/sheet
./usr/bin/sheet-console
./usr/include/desk.h
./usr/lib/libdesk.a
./usr/share/man/man1/sheet.1" "$(files)"

head -c 640 /dev/zero >"$root/new"
same "the tool" "$root/new: blank, 10 pages" "$("$there/bin/sheet" blank "$root/new")"
same "the program" "open 0 0 begin 1 commit 2" "$(printf 'open\nbegin\ncommit 1\n' | "$there/bin/sheet-console" | tr '\n' ' ' | sed 's/ $//')"

# a program of somebody else's, over the header and the library
cat >"$root/other.c" <<'END'
#include <desk.h>
#include <stdio.h>
int main(void) {
    static uint8_t sheet[DESK_PAGE], week[DESK_NEW_WEEK], dual[DESK_DUAL_WEEK];
    int lawful = (int)desk_inspect(sheet, sizeof sheet, 8), edition = (int)desk_week_test(week, sizeof week);
    int refusal = (int)desk_convert(week, sizeof week, 0x8000, dual, sizeof dual);
    int converted = (int)desk_convert(week, sizeof week, 0x8001, dual, sizeof dual);
    return printf("%d %d %d %d %d\n", lawful, edition, refusal, converted, (int)desk_week_test(dual, sizeof dual)) < 0;
}
END
gcc -Wall -Wextra -Werror -I"$there/include" -o "$root/other" "$root/other.c" -L"$there/lib" -ldesk
same "the header and the library" "0 2 29 0 3" "$("$root/other")"
same "the manual page" ".TH SHEET 1" "$(head -n 1 "$there/share/man/man1/sheet.1" | cut -c 1-11)"

rm -f "$root/new" "$root/other" "$root/other.c"
make -s uninstall DESTDIR="$root" PREFIX=/usr
same "nothing is left" "" "$(files)"
echo "$passed passed, $failed failed"
[ "$failed" = 0 ]
