#!/bin/sh
# Damaged inputs for the C programs, under the sanitizers where the compiler has them.
#   fuzz.sh COUNT SEED [INDEX]
#   LIB, OUT, CC, as for run.sh; FLAGS for the compiler (the sanitizers)
# What failed is left in OUT/fuzz-work.
set -eu
unset MAKEFLAGS MFLAGS
cd "$(dirname "$0")/../.."
LIB=${LIB:-target/staticlib/libdesk.a}
OUT=${OUT:-target/hosts-fuzz}
CC=${CC:-cc}
mkdir -p "$OUT"
if [ -z "${FLAGS+given}" ]; then
    FLAGS='-fsanitize=address,undefined -fno-sanitize-recover=all'
    echo 'int main(void) { return 0; }' >"$OUT/trial.c"
    # shellcheck disable=SC2086
    "$CC" $FLAGS "$OUT/trial.c" -o "$OUT/trial" 2>/dev/null && "$OUT/trial" || FLAGS=
fi
# make can not name a file with a blank in its path, so it is given relative ones
of_hosts() { case $1 in /*) printf '%s\n' "$1" ;; *) printf '../%s\n' "$1" ;; esac; }
make -s -C hosts LIB="$(of_hosts "$LIB")" OUT="$(of_hosts "$OUT")" CC="$CC" CFLAGS="-O1 -g -Werror $FLAGS"
# The programs' mains come in under other names; all other parts are linked as they are.
rm -rf "$OUT/fuzz-parts" "$OUT/fuzz-work"
mkdir -p "$OUT/fuzz-parts" "$OUT/fuzz-work"
cp "$OUT"/*.o "$OUT/fuzz-parts"
for program in desk tenant stream; do
    # shellcheck disable=SC2086
    "$CC" -std=c11 -O1 -g -Wall -Wextra -Werror $FLAGS -Iinclude -Ihosts -Dmain=${program}_main -c "hosts/$program.c" \
        -o "$OUT/fuzz-parts/$program.o"
done
# shellcheck disable=SC2086
"$CC" -std=c11 -O1 -g -Wall -Wextra -pedantic -Werror $FLAGS -Iinclude -Ihosts tests/hosts/fuzz.c "$OUT"/fuzz-parts/*.o "$LIB" \
    -o "$OUT/fuzz"
exec "$OUT/fuzz" "$OUT/fuzz-work" "$@"
