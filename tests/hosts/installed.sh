# A part of run.sh: make, and what it installs.
# shellcheck shell=sh disable=SC2154

# A copy in a folder with a blank in its name, where nothing can be proved: rt and cargo are none. It lies outside the checkout, in
# which rt ci takes one crates.txt alone.
room=$(mktemp -d)
trap 'rm -rf "$room"' EXIT
blank="$room/a blank"
second_program=$(case $SECOND in /*) echo "$SECOND" ;; *) echo "$top/$SECOND" ;; esac)
plain_make() { env -u LIB -u OUT -u SHELF -u SECOND -u MAKELEVEL make --no-print-directory CC="$CC" "$@" 2>&1; }
unproved() { plain_make -C "$blank" RT=no-rt CARGO=no-cargo "$@"; }
told() { # told NAME WORDS FILE: the file has a line with the words
    grep -q -e "$2" "$3"
    passed "$1" $? "$3"
}
mkdir -p "$blank/target/staticlib" "$blank/target/bin" "$blank/crates/bench"
cp -R Makefile crates.txt hosts include examples "$blank"
cp crates/bench/stdin "$blank/crates/bench"

# Help, and what is missing
unproved help >"$OUT/log"
sed -n 's/^# make \([a-z]*\) .*/\1/p' Makefile | while read -r target; do
    grep -q "^make $target " "$OUT/log" && grep -q "^$target:" Makefile || echo "$target"
done >"$OUT/lines"
[ "$(wc -l <"$OUT/log")" -ge 10 ] && [ ! -s "$OUT/lines" ]
passed 'make: help has every target that the Makefile tells of' $? "$OUT/lines"
unproved plan >"$OUT/log"
told 'make: a missing rt is told' '^make: no-rt is missing: it proves' "$OUT/log"
unproved second >"$OUT/log"
told 'make: a missing cargo is told' '^make: no-cargo is missing: it builds the second' "$OUT/log"

# A stand-in for rt shows what make says while it proves, and of a proof that fails
cat >"$OUT/stand-in" <<END
#!/bin/sh
echo noise
echo "rt: chose --jobs 2 for number"
echo "rt: running out/bench; to give it other input, run that file yourself"
[ -z "\${FAILS:-}" ] || exit 1
mkdir -p out
printf '#!/bin/sh\nexec "%s" bench\n' "$second_program" >out/bench
chmod +x out/bench
END
chmod +x "$OUT/stand-in"
FAILS=1 unproved RT="'$OUT/stand-in'" plan >"$OUT/log"
[ $? -ne 0 ] && grep -q '^noise$' "$OUT/log" && ! grep -q '^plan' "$OUT/log"
passed 'make: a proof that fails is shown whole' $? "$OUT/log"
if [ "$SECOND" != none ]; then
    make -C "$blank" --no-print-directory RT="'$OUT/stand-in'" plan >"$OUT/lines" 2>"$OUT/log"
    printf 'plan 7 300 4 9 | 0 0 1 1 | 0 1 2 3\n' | diff - "$OUT/lines" >>"$OUT/log"
    passed 'make: plan prints the plan and nothing else' $? "$OUT/log"
    printf 'Proving the bench program and the crates it uses: some minutes, the first time.\nproving number\n' \
        | diff - "$OUT/log" >"$OUT/lines"
    passed 'make: plan says what it does and how long it takes' $? "$OUT/lines"
    [ "$(unproved plan)" = 'plan 7 300 4 9 | 0 0 1 1 | 0 1 2 3' ]
    passed 'make: what is proved is not proved again' $?
    echo >>"$blank/crates/bench/stdin"
    unproved plan >"$OUT/log"
    told 'make: what has changed is proved again' '^make: no-rt is missing' "$OUT/log"
fi

# The shelf of these tests is the second program's.
printf '#!/bin/sh\nexec "%s" shelf\n' "$second_program" >"$OUT/shelf-program" && chmod +x "$OUT/shelf-program"

# The library is taken for one that was proved there
unproved -s target/desk_c.sum && cp "$LIB" "$blank/target/staticlib/libdesk.a"
unproved CC=no-cc tools >"$OUT/log"
told 'make: a missing C compiler is told' '^make: no-cc is missing: it builds the desk' "$OUT/log"
unproved tools >"$OUT/log"
passed 'make: the tools, in a folder with a blank in its name' $? "$OUT/log"
files_there() { find "$blank/target" -type f -exec ls -l --full-time {} +; }
files_there >"$OUT/lines"
unproved tools >"$OUT/log" && [ ! -s "$OUT/log" ] && files_there | diff "$OUT/lines" - >>"$OUT/log"
passed 'make: the tools that are built are not built again' $? "$OUT/log"
if [ "$SECOND" != none ]; then
    unproved -s target/shelf.sum && cp "$OUT/shelf-program" "$blank/target/bin/shelf"
    unproved hire 2>&1 | diff "$here/hire.txt" - >"$OUT/log" && unproved hire 2>&1 | diff "$here/hire.txt" - >>"$OUT/log"
    passed 'make: the hire, twice, and nothing built for it again' $? "$OUT/log"
fi

# As a stranger would: the programs, the library and the pages from where they are installed, with pkg-config alone
install_to() { plain_make -s -C "$blank/hosts" SHELF="$OUT/shelf-program" install "$@"; }
prefix=$(mktemp -d) # without a blank, wherever this is
trap 'rm -rf "$room" "$prefix"' EXIT
rm -rf "$OUT/pre fix" "$OUT/dest"
install_to PREFIX="$prefix" >"$OUT/log" && install_to PREFIX="$OUT/pre fix" >>"$OUT/log" \
    && install_to PREFIX=/usr DESTDIR="$OUT/dest" >>"$OUT/log"
passed 'install: to a prefix, to one with a blank, and below a folder' $? "$OUT/log"
(cd "$prefix" && find . -type f) | sort >"$OUT/lines"
for place in "$OUT/pre fix" "$OUT/dest/usr"; do (cd "$place" && find . -type f) | sort | diff "$OUT/lines" -; done >"$OUT/log" 2>&1
passed 'install: the same files' $? "$OUT/log"
for file in bin/desk bin/tenant bin/stream bin/shelf include/rippleplank.h lib/librippleplank.a lib/pkgconfig/rippleplank.pc \
    share/man/man1/desk.1 share/man/man1/tenant.1 share/man/man1/stream.1 share/man/man1/shelf.1 share/man/man3/rippleplank.3; do
    grep -q -x "./$file" "$OUT/lines" || echo "there is no $file"
done >"$OUT/log"
[ ! -s "$OUT/log" ]
passed 'install: every file' $? "$OUT/log"
nm -g --defined-only "$prefix/lib/librippleplank.a" 2>/dev/null | sed -n 's/.* T //p' | sort >"$OUT/log"
printf '%s\n' $exported rp_version | sort | cmp -s - "$OUT/log"
passed 'install: the library exports the functions and its version' $? "$OUT/log"
for name in $exported rp_version; do [ -e "$prefix/share/man/man3/$name.3" ] || echo "there is no page $name"; done >"$OUT/log"
[ ! -s "$OUT/log" ]
passed 'install: a page under the name of each function' $? "$OUT/log"
[ "$("$prefix/bin/desk" --version)" = "desk of Rippleplank $(sed -n 's/^#define RP_VERSION "\(.*\)"/\1/p' include/rippleplank.h), library $(
    sed -n 's/^Version: //p' "$prefix/lib/pkgconfig/rippleplank.pc")" ]
passed 'install: one version in program, header, library and pkg-config file' $?
if [ "$PKG_CONFIG" != none ] && [ "$SECOND" != none ]; then
    rm -rf "$OUT/stranger" && mkdir "$OUT/stranger" && cp examples/reel.c "$OUT/stranger"
    (cd "$OUT/stranger" && PATH="$prefix/bin:$PATH" && export PATH && PKG_CONFIG_PATH=$prefix/lib/pkgconfig && export PKG_CONFIG_PATH \
        && $CC $strict reel.c $($PKG_CONFIG --cflags --libs rippleplank) -o reel && ./reel ask | shelf | ./reel book) >"$OUT/lines" 2>"$OUT/log"
    diff "$here/reel.txt" "$OUT/lines" >>"$OUT/log"
    passed "install: examples/reel.c, with pkg-config alone" $? "$OUT/log"
    (cd "$OUT/stranger" && { ./reel ask | "$prefix/bin/shelf"; echo refused 16 13; echo refused 11 15; echo stopped 1; } \
        | ./reel book >"$OUT/lines" 2>"$OUT/log")
    [ $? -eq 1 ] && grep -q '^reel: the shelf: refused 16 (place 13): a disk' "$OUT/log" \
        && grep -q '^reel: the shelf: refused 11 (needs 15)' "$OUT/log" && grep -q '^reel: the shelf stopped' "$OUT/log" \
        && diff "$here/reel.txt" "$OUT/lines" >>"$OUT/log"
    passed "install: examples/reel.c tells what the shelf refused beside the plan" $? "$OUT/log"
    (cd "$OUT/stranger" && { ./reel ask | "$prefix/bin/shelf"; echo refused 16; printf 'refused 16 1'; } | ./reel book >"$OUT/lines" 2>"$OUT/log")
    [ $? -eq 1 ] && grep -q '^reel: the shelf: refused 16 (an older shelf: no place): a disk' "$OUT/log" \
        && grep -q '^reel: the last line is cut' "$OUT/log" && ! grep -q 'place 1' "$OUT/log" && diff "$here/reel.txt" "$OUT/lines" >>"$OUT/log"
    passed "install: examples/reel.c keeps a refusal without a place, and takes nothing from a line that is cut" $? "$OUT/log"
    (cd "$OUT/stranger" && PKG_CONFIG_PATH="$OUT/pre fix/lib/pkgconfig" && export PKG_CONFIG_PATH \
        && eval "$CC reel.c $($PKG_CONFIG --cflags --libs rippleplank) -o reel" && ./reel ask | "$OUT/pre fix/bin/shelf" | ./reel book) 2>"$OUT/log" \
        | diff "$here/reel.txt" - >>"$OUT/log"
    passed 'install: the same from a prefix with a blank' $? "$OUT/log"
fi
if command -v man >/dev/null; then
    (cd "$prefix/share/man" && for page in man?/*; do man -l --warnings "$page" 2>&1 >/dev/null | sed "s|^|$page: |"; done) >"$OUT/log"
    [ ! -s "$OUT/log" ]
    passed 'install: the manual pages, without a warning' $? "$OUT/log"
fi
for program in desk tenant stream; do # every option of a program's help is on its page
    "$prefix/bin/$program" --help | grep -o -e '--[a-z-]*' | sort -u | while read -r option; do
        sed 's/\\//g' hosts/man/$program.1 | grep -q -e "${option#-}" || echo "$program.1 has no $option"
    done
done >"$OUT/log"
[ ! -s "$OUT/log" ]
passed 'install: the pages have every option' $? "$OUT/log"

