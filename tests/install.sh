#!/usr/bin/env bash
# What `make install` puts in place serves: the files and their modes, the header's
# example with the flags of rbatl.pc, the desk and its man page; `make uninstall`
# takes it away again. And make builds what is older than its sources. The library
# and the desk must be there: nothing is built here. Last line: 'N passed, M failed'.
set -uo pipefail
cd "$(dirname "${BASH_SOURCE[0]}")/.." || exit 1

work=$(mktemp -d) || exit 1
trap 'rm -rf "$work"' EXIT
root=$work/root
prefix=/opt/rbatl
there=$root$prefix
passed=0
failed=0

# try NAME COMMAND..: counts whether the command succeeds.
try() {
    local name=$1
    shift
    if "$@"; then
        passed=$((passed + 1))
    else
        failed=$((failed + 1))
        printf 'FAILED: %s\n' "$name"
    fi
}

library=target/staticlib/librbatl.a
desk=target/desk/desk

# make, with nothing of a make that may run this.
plain_make() { env -u MAKEFLAGS -u MAKELEVEL make --no-print-directory "$@"; }
# With library and desk as they are, whatever is newer.
run_make() { plain_make -s -o "$library" -o "$desk" DESTDIR="$root" "$@"; }

# What is in place, with modes; and what should be.
found() { (cd "$there" && find . -mindepth 1 -printf '%m %P\n' | sort -k 2); }
due() {
    local file
    printf '755 %s\n' bin bin/desk include lib lib/pkgconfig share share/man share/man/man1
    printf '644 %s\n' lib/librbatl.a lib/pkgconfig/rbatl.pc share/man/man1/desk.1
    for file in include/*.h; do printf '644 %s\n' "$file"; done
}
in_place() { diff <(due | sort -k 2) <(found); }
same_files() {
    local file
    for file in include/*.h; do cmp "$file" "$there/$file" || return; done
    cmp "$library" "$there/lib/librbatl.a" && cmp "$desk" "$there/bin/desk" &&
        cmp desk/desk.1 "$there/share/man/man1/desk.1"
}

# The mode of a file does not depend on who installs.
install_it() (umask 077 && run_make PREFIX="$prefix" install)
try 'make install' install_it
try 'the files and their modes, and no other' in_place
try 'the files as they were' same_files

refuses() { ! run_make PREFIX="$1" install 2> "$work/err" && grep -q "$2" "$work/err"; }
try 'a prefix that is not absolute' refuses opt/rbatl 'PREFIX is not an absolute path'

# pc WORD: what pkg-config prints of rbatl; where there is none, what rbatl.pc says
# with its variables filled in, below the root.
pc_file=$there/lib/pkgconfig/rbatl.pc
if command -v pkg-config > /dev/null; then
    pc() { PKG_CONFIG_LIBDIR=${pc_file%/*} PKG_CONFIG_SYSROOT_DIR=$root pkg-config "$1" rbatl; }
else
    pc() {
        case $1 in
        --cflags) field Cflags ;;
        --libs) field Libs ;;
        --modversion) field Version ;;
        esac
    }
fi
field() {
    awk -v key="$1: " -v root="$root" '
        function filled(text, name) {
            for (name in value) gsub("[$][{]" name "[}]", value[name], text)
            return text
        }
        match($0, /^[a-z]+=/) { value[substr($0, 1, RLENGTH - 1)] = filled(substr($0, RLENGTH + 1)) }
        index($0, key) == 1 {
            text = filled(substr($0, length(key) + 1))
            gsub(/-[IL]/, "&" root, text)
            print text
        }' "$pc_file"
}

version() { sed -n 's/^#define RBATL_VERSION "\([^"]*\)".*/\1/p' "$there/include/rbatl.h"; }
same_version() { [[ -n $(version) && $(pc --modversion) == "$(version)" ]]; }
try 'the version of the header' same_version

# The indented lines of the opening comment, away from the sources.
sed -n '1,/^ \*\/$/s/^ \*     //p' "$there/include/rbatl.h" > "$work/example.c"
compiles() {
    local flags libs
    read -ra flags <<< "$(pc --cflags)"
    read -ra libs <<< "$(pc --libs)"
    (cd "$work" && gcc -std=c99 -Wall -Wextra -Werror "${flags[@]}" example.c "${libs[@]}" -o example)
}
says() { [[ $("$work/example") == 'row 2 is true in state 0' ]]; }
try 'the example with the flags of rbatl.pc' compiles
try 'the answer of the example' says

lists() { [[ $("$there/bin/desk" list < jobs/catch.job | sed -n '1p;$p') == $'list,6\nplan,5,2,0,0' ]]; }
try 'the desk on a job' lists

page=$there/share/man/man1/desk.1
table() { "$there/bin/desk" table 2 < jobs/first.job; }
sheet() { "$there/bin/desk" sheet 2 0:2 0:1 < jobs/first.job; }
needs() { "$there/bin/desk" needs 2 0 < jobs/first.job; }
rehearsal() { "$there/bin/desk" --job jobs/first.job rehearse 2 0 0; }
has_example() {
    [[ -n $(table) && -n $(sheet) && -n $(needs) && -n $(rehearsal) ]] &&
        ! grep -qvxF -f "$page" jobs/first.job <(table) <(sheet) <(needs) <(rehearsal)
}
try 'the example of the man page' has_example
if command -v groff > /dev/null; then
    no_warning() { [[ -z $(groff -man -ww -Tascii "$page" 2>&1 > /dev/null) ]]; }
    try 'the man page without warnings' no_warning
fi

# The entry of a refusal in the man page, and that the desk says so of a job with an
# edit: NUMBER EDIT WORDS.. Refusal 6 does not come from a text.
entry() {
    awk -v number="$1" '
        /^The refusals are/ { listed = 1 }
        /^[.]/ { here = listed && $0 == ".B " number; next }
        here { printf "%s%s", space, $0; space = " " }' "$page"
}
says_entry() {
    local number=$1 edit=$2 said
    shift 2
    said=$(sed "$edit" jobs/first.job | "$there/bin/desk" "$@" 2>&1)
    [[ -n $(entry "$number") && $said == *"refused, $number"* && $said == *"$(entry "$number")"* ]]
}
while read -r number edit words; do
    # shellcheck disable=SC2086 # the words of a command
    try "the man page on refusal $number" says_entry "$number" "$edit" $words
done << 'end'
1 s/^job.*/&&&&&&&&&&&&&&&&/;s/^job.*/&&&&&&&&&&&&&&&&/;s/^job.*/&&&&&&&&&&&&&&&&/ check
2 s/^job,1/job,9/ check
3 s/^state,0,0/state,0,9/ check
4 s/^go,0,0,0/go,0,0,9/ check
5 s/^until,1/until,0/ check
7 s/^not/nor/ check
8 s/^// table 0
9 s/^// move 2 9 0
10 s/^// move 2 0 1
11 s/^// reply 2 0 1 1
12 s/^// rehearse 2 0 1
13 s/^job,\(.*\)/job2,\1,max/;s/^\(acts,0.*,\)2$/\1-2/ check
end

gone() { [[ -d $root && -z $(find "$root" ! -type d) ]]; }
try 'make uninstall' run_make PREFIX="$prefix" uninstall
try 'nothing left' gone

# What make would do if a file were newer.
proves() { plain_make -n -W "$1" | grep -x 'tools/prove staticlib rbatl' > /dev/null; }
builds_desk() { [[ $(plain_make -n -o "$library" -W "$1") == desk/build ]]; }
try 'a newer crate is proved' proves crates/rbatl/src/lib.rt
try 'a newer list of crates is proved' proves crates.txt
try 'a newer header builds the desk alone' builds_desk include/rbatl.h
try 'a newer desk is built alone' builds_desk desk/main.c

printf '%d passed, %d failed\n' "$passed" "$failed"
((failed == 0))
