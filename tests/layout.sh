#!/bin/sh
# What a reader of crates/ may rely on, held by a check that names file and line:
#   no line of code, definitions or proofs is longer than 140 characters;
#   a glossary at the head of a file (`--     name, name     words`) names what the file has.
cd "$(dirname "$0")/.." || exit 1
LC_ALL=C.UTF-8
export LC_ALL
found=$(mktemp) || exit 1
trap 'rm -f "$found"' EXIT

grep -rnE --include='*.rt' --include='*.antt' --exclude-dir=out '^.{141,}' crates | sed -E 's/^([^:]*:[0-9]+):.*/\1: longer than 140 characters/' >"$found"

find crates -name '*.antt' ! -path '*/out/*' | sort | while IFS= read -r file; do
    awk '
        BEGIN { head = 1 }
        head && /^--     [^ ]/ {
            words = $0
            sub(/^--     /, "", words)
            sub(/  .*/, "", words)
            count = split(words, names, /, */)
            for (i = 1; i <= count; i++) if (names[i] ~ /^[^ ]+$/ && names[i] != "..") at[names[i]] = FNR
            next
        }
        !/^--/ { head = 0 }
        !/^ *--/ { text = text "\n" $0 }
        END {
            for (name in at) {
                rest = text
                seen = 0
                while ((where = index(rest, name)) > 0) {
                    before = where > 1 ? substr(rest, where - 1, 1) : " "
                    after = substr(rest, where + length(name), 1)
                    if (before ~ /[ \n({,.]/ && (after == "" || after ~ /[ \n)},.:]/)) { seen = 1; break }
                    rest = substr(rest, where + length(name))
                }
                if (!seen) print FILENAME ":" at[name] ": the glossary has " name ", the file has not"
            }
        }' "$file"
done >>"$found"

[ ! -s "$found" ] || { sort "$found"; echo "layout: $(wc -l <"$found") lines to mend"; exit 1; }
echo "layout: no line above 140 characters, every glossary names what is there"
