#!/bin/sh
# Every edit on file that must be refused: those of crates/NAME/must-fail, which the gate tries, and those of crates/NAME/wrong,
# which it leaves out to stay short. With names, only those crates' edits.
#   tests/edits.sh [NAME...]
# It works on a copy outside the checkout, in which rt ci takes no second crates. What it printed is in target/edits.log; the last
# lines name what was refused by a limit or by a missing name alone, and what was not refused.
set -eu
top=$(cd "$(dirname "$0")/.." && pwd)
log=$top/target/edits.log
room=$(mktemp -d)
trap 'rm -rf "$room"' EXIT
mkdir -p "$top/target" "$room/crates"
cp "$top/crates.txt" "$room"
[ ! -f "$top/HANDLES" ] || cp "$top/HANDLES" "$room"
for crate in "$top"/crates/*; do
    to=$room/crates/$(basename "$crate")
    mkdir "$to"
    for part in "$crate"/*; do
        # what is proved already is not proved again: rt finds what checks kept in the checkout's folders out/
        [ "$(basename "$part")" = out ] || cp -R "$part" "$to"
    done
    [ -d "$to/wrong" ] || continue
    mkdir -p "$to/must-fail"
    for edit in "$to"/wrong/*.edit; do
        [ ! -e "$to/must-fail/$(basename "$edit")" ] || { echo "edits: $(basename "$crate") has two edits $(basename "$edit")" >&2; exit 1; }
        mv "$edit" "$to/must-fail"
    done
done
cd "$room"
status=0
{ rt must-fail "$@" 2>&1 || echo "edits: rt must-fail failed"; } | tee "$log"
tail -n 1 "$log" | grep -q '^edits: ' && status=1
tried=$(grep -c '^rt: must-fail ' "$log" || true)
grep '^rt: must-fail ' "$log" | grep -v ': refused, as it must be' >"$log.not" || true
grep 'as it must be (only b' "$log" || true
cat "$log.not"
[ "$tried" -gt 0 ] || { echo "edits: none was tried" >&2; exit 1; }
echo "edits: $((tried - $(wc -l <"$log.not"))) refused, $(wc -l <"$log.not") not"
exit $status
