#!/bin/sh
# What docs/PROMISES.md and docs/COVERAGE.md cite in backquotes is there:
#   CRATE/NAME      a wrong program or definition on file, in crates/CRATE/must-fail or crates/CRATE/wrong
#   a path          a file or folder, from the top or from crates/
#   CRATE::NAME     a function of that crate
#   words           each name with an underscore is a definition's, a theorem's, a crate's or one of the code, and none of a comment or
#                   an edit alone; every other word stands in crates/, hosts/, include/, tests/ or second/
# and docs/PROMISES.md has every public function.
cd "$(dirname "$0")/.." || exit 1
LC_ALL=C.UTF-8
export LC_ALL
room=$(mktemp -d) || exit 1
trap 'rm -rf "$room"' EXIT

# every word of the tree; and every name that a definition or proof gives, and every one that stands in code: in a line without its comment
find crates hosts include tests second/src Makefile crates.txt -type f ! -name papers.sh ! -path '*/target/*' ! -path '*/out/*' -exec \
    grep -hoaE "[A-Za-z][A-Za-z0-9_'-]*" {} + | sort -u >"$room/words"
{
    find crates -name '*.antt' ! -path '*/out/*' -exec grep -hoE "[A-Za-z][A-Za-z0-9_'-]* :" {} + | sed 's/ :$//'
    find crates hosts include tests second/src -type f ! -path '*/target/*' ! -path '*/out/*' \
        \( -name '*.rt' -o -name '*.rs' -o -name '*.c' -o -name '*.h' -o -name '*.cpp' \) -exec sed -E 's,//.*,,; /^ *\/?\*/d; s,/\*.*,,' {} + \
        | grep -oaE "[A-Za-z][A-Za-z0-9_]*"
    sed -nE 's/^([a-z][a-z0-9_]*).*:.*/\1/p' crates.txt
} | sort -u >"$room/defined"

for paper in docs/PROMISES.md docs/COVERAGE.md; do
    [ -f "$paper" ] || { echo "papers: no $paper" >&2; exit 1; }
    awk -v paper="$paper" '{ k = split($0, part, "`"); for (i = 2; i < k; i += 2) print paper ":" NR "\t" part[i] }' "$paper"
done >"$room/cited" || exit 1

while IFS="$(printf '\t')" read -r place cited; do
    case $cited in
    *::*)
        crate=${cited%%::*}
        name=${cited##*::}
        name=${name%%(*}
        if [ -d "crates/$crate" ]; then
            grep -rqE "fn $name\(" "crates/$crate/src" || echo "$place: no function $cited"
            continue
        fi ;;
    *" "*) ;;
    */*)
        set -- crates/*/"$cited"
        [ ! -e "$1" ] || continue
        crate=${cited%%/*}
        name=${cited#*/}
        [ -e "$cited" ] || [ -e "crates/$cited" ] || [ -e "crates/$crate/must-fail/$name.edit" ] \
            || [ -e "crates/$crate/wrong/$name.edit" ] || echo "$place: no $cited"
        continue ;;
    *.antt | *.rt | *.md | *.txt | *.sh)
        [ -n "$(find . -path ./target -prune -o -name "$cited" -print | head -n 1)" ] || echo "$place: no file $cited"
        continue ;;
    esac
    printf '%s\n' "$cited" | grep -oE "[A-Za-z][A-Za-z0-9_'-]*" | while IFS= read -r word; do
        case $word in
        ?) ;;
        *_*) grep -qxF -e "$word" "$room/defined" || echo "$place: nothing defines $word" ;;
        *) grep -qxF -e "$word" "$room/words" || echo "$place: no $word in the tree" ;;
        esac
    done
done <"$room/cited" >"$room/missing"

for file in crates/*/src/*.rt; do
    sed -nE 's/^ *pub (extern "C" )?fn ([a-z_0-9]+).*/\2/p' "$file" | while IFS= read -r name; do
        grep -qE "[\`:]$name[\`(]" docs/PROMISES.md || echo "docs/PROMISES.md: nothing about $name of $file"
    done
done >>"$room/missing"

[ ! -s "$room/missing" ] || { sort -u "$room/missing"; echo "papers: $(sort -u "$room/missing" | wc -l) names to mend"; exit 1; }
echo "papers: every name that is cited is there, and every public function is cited"
