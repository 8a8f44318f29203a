#!/bin/sh
# The host tests: one line a test, a last line with the counts, status 1 if any failed.
#   LIB     the library to test               (target/staticlib/libdesk.a)
#   SHELF   the shelf program for the hire, with its arguments if it takes any  (target/bin/shelf)
#   SECOND  the second program                (target/second/release/second)
#   COUNT   how many lines to compare with it (6000)
#   INPUTS  how many damaged inputs to try    (1500)
#   OUT     the folder for what is built      (target/hosts-tests)
# Paths are relative to the top. A test whose program is not there is failed, not passed over; SHELF=none, SECOND=none or
# PKG_CONFIG=none leaves it out.
set -u
export LC_ALL=C
unset COLUMNS MAKEFLAGS MFLAGS
cd "$(dirname "$0")/../.." || exit 1
top=$PWD
here=$top/tests/hosts
LIB=${LIB:-target/staticlib/libdesk.a}
SHELF=${SHELF:-target/bin/shelf}
SECOND=${SECOND:-target/second/release/second}
COUNT=${COUNT:-6000}
INPUTS=${INPUTS:-1500}
OUT=${OUT:-target/hosts-tests}
CC=${CC:-cc}
CXX=${CXX:-c++}
PKG_CONFIG=${PKG_CONFIG:-pkg-config}
strict='-Wall -Wextra -pedantic -Werror'
# make can not name a file with a blank in its path, so it is given relative ones
of_hosts() { case $1 in /*) printf '%s\n' "$1" ;; *) printf '../%s\n' "$1" ;; esac; }
mkdir -p "$OUT" || exit 1
make_out=$(of_hosts "$OUT")
make_lib=$(of_hosts "$LIB")
OUT=$(cd "$OUT" && pwd)
work=$OUT/work
results=$OUT/results
: >"$results"

say() { printf '%s\n' "$1" | tee -a "$results"; }
# passed NAME STATUS [FILE]: a line for a test, and what it printed where it failed
passed() {
    if [ "$2" -eq 0 ]; then say "ok $1"; return; fi
    say "FAILED $1"
    [ $# -lt 3 ] || sed 's/^/    /' "$3"
}

# The sanitizers, where the compiler has them and they run here
sanitize='-fsanitize=address,undefined -fno-sanitize-recover=all'
# shellcheck disable=SC2086
if ! { echo 'int main(void) { return 0; }' | $CC -x c $sanitize - -o "$OUT/trial" && "$OUT/trial"; } 2>/dev/null; then
    sanitize=''
fi

# The programs, without a warning
make -s -C hosts OUT="$make_out" clean
rm -f "$OUT/exports" "$OUT/exports-plain" "$OUT/header" "$OUT/deskline"
make -C hosts LIB="$make_lib" OUT="$make_out" CC="$CC" CFLAGS="-O1 -g -Werror $sanitize" >"$OUT/log" 2>&1
passed 'build: desk, tenant and stream, without a warning' $? "$OUT/log"

parts='hosts/bytes.c hosts/hex.c hosts/input.c hosts/say.c hosts/version.c'
compile() { # compile PROGRAM FLAGS SOURCE..
    program=$1 flags=$2
    shift 2
    # shellcheck disable=SC2086
    $CC -std=c11 -O1 -g $strict $flags -Iinclude -Ihosts "$@" "$LIB" -o "$OUT/$program" >"$OUT/log" 2>&1
}

# The exported functions: a line for each test, and one for coming to the end
compile exports "$sanitize" "$here/exports.c"
passed 'build: the test of the exports' $? "$OUT/log"
"$OUT/exports" >"$OUT/lines" 2>"$OUT/log"
sed -nE 's/^(ok|FAILED) /\1 exports: /p' "$OUT/lines" | tee -a "$results"
[ "$(tail -n 1 "$OUT/lines")" = 'end of the tests' ]
passed 'exports: to the end' $? "$OUT/log"

compile exports-plain '' "$here/exports.c"
passed 'build: the test of the exports, plain' $? "$OUT/log"
if command -v valgrind >/dev/null; then
    valgrind -q --error-exitcode=9 --leak-check=full "$OUT/exports-plain" >"$OUT/lines" 2>"$OUT/log"
    passed 'exports: under valgrind' $? "$OUT/log"
else
    "$OUT/exports-plain" >"$OUT/log" 2>&1
    passed 'exports: without valgrind, which is not installed' $? "$OUT/log"
fi

nm -g --defined-only "$LIB" 2>/dev/null | sed -n 's/.* T //p' | sort >"$OUT/log"
exported='rp_read_plan rp_write_request rp_write_settings rp_write_settings_marked rp_write_settings_overlap'
printf '%s\n' $exported | cmp -s - "$OUT/log"
passed 'library: exports exactly the functions of the header' $? "$OUT/log"

$CXX -std=c++11 $strict -Iinclude "$here/header.cpp" "$OUT/librippleplank.a" $sanitize -o "$OUT/header" >"$OUT/log" 2>&1 \
    && "$OUT/header" >>"$OUT/log" 2>&1
passed 'header: from C++, without a warning' $? "$OUT/log"

# The tools: each case is a command in a folder of its own, and what it must give
hex() { od -An -v -tx1 | tr -d ' \n'; echo; }
transcript() { # transcript FILE: runs the command of a case and shows its status, output and errors
    rm -rf "$work" && mkdir -p "$work/here" && sed -n '1,/^--$/p' "$1" | sed '$d' >"$work/command"
    (cd "$work/here" && PATH="$OUT:$PATH" && export PATH && cp "$top/examples/disks.csv" "$top/examples/blocks.txt" . \
        && . "$work/command") >"$work/output" 2>"$work/errors" </dev/null
    echo "status $?"
    sed 's/^/| /' "$work/output"
    sed 's/^/! /' "$work/errors"
}
for file in "$here"/cases/*.case; do
    transcript "$file" >"$OUT/transcript"
    sed '1,/^--$/d' "$file" | diff - "$OUT/transcript" >"$OUT/log" 2>&1
    passed "case: $(basename "$file" .case)" $? "$OUT/log"
done

# The hire, from end to end, and its pictures
if [ "$SHELF" != none ]; then
    DESK=$OUT/desk TENANT=$OUT/tenant STREAM=$OUT/stream SHELF=$SHELF OUT=$OUT/hire \
        sh examples/hire.sh >"$OUT/hire.txt" 2>"$OUT/log"
    passed 'hire: from desk to tenant' $? "$OUT/log"
    diff "$here/hire.txt" "$OUT/hire.txt" >"$OUT/log" 2>&1
    passed 'hire: what it shows' $? "$OUT/log"
    diff examples/hire.svg "$OUT/hire/hire.svg" >"$OUT/log" 2>&1
    passed 'hire: the picture' $? "$OUT/log"
    diff examples/why.svg "$OUT/hire/why.svg" >"$OUT/log" 2>&1
    passed 'hire: the picture of a block' $? "$OUT/log"
fi

# What the tools read in a sheet that the shelf refused is refused so, at that place: settings and requests, of generated calls
if [ "$SHELF" != none ] && [ "$SECOND" != none ]; then
    refusals=0
    : >"$OUT/log"
    for index in $(seq 0 40); do
        "$SECOND" input shelf 7 "$index" >"$OUT/calls"
        $SHELF <"$OUT/calls" >"$OUT/answers"
        "$OUT/desk" show "$OUT/answers" --calls "$OUT/calls" 2>&1 >"$OUT/report" | grep -a 'other calls\|Sanitizer' >>"$OUT/log"
        # an older shelf's lines have no place: the calls give it
        sed 's/^\(refused [0-9]*\) .*/\1/' "$OUT/answers" >"$OUT/placeless"
        "$OUT/desk" show "$OUT/placeless" --calls "$OUT/calls" 2>&1 >"$OUT/lines" | grep -a 'other calls\|Sanitizer' >>"$OUT/log"
        grep '^refused' "$OUT/report" | sed '/^refused 11:/d' >"$OUT/expected"
        grep '^refused' "$OUT/lines" | sed '/^refused 11:/d' | diff "$OUT/expected" - >>"$OUT/log"
        refusals=$((refusals + $(grep -c '^refused' "$OUT/answers")))
    done
    [ ! -s "$OUT/log" ] && [ "$refusals" -ge 1000 ]
    passed "places: $refusals refusals of the shelf, each at the field that the tools find" $? "$OUT/log"
fi

# Every reason of the shelf is told, and none that can not be true: generated tables and lists, each copy and what is no copy
if [ "$SHELF" != none ]; then
    : >"$OUT/log"
    : >"$OUT/reasons"
    for seed in $(seq 1 24); do
        # of every third a disk is out; a block that only it holds is on the next one too
        out=$([ $((seed % 3)) -eq 1 ] && echo $((seed % 4)) || echo 9)
        awk -v seed="$seed" -v out="$out" 'BEGIN { srand(seed); print "cost,load,delay" (out < 9 ? ",out" : ""); for (d = 0; d < 4; d++)
            printf "%d,%d,%d%s\n", 1 + int(6 * rand()), int(4 * rand()), int(4 * rand()), out < 9 ? "," (d == out) : "" }' >"$OUT/table"
        awk -v seed="$seed" 'BEGIN { srand(seed); for (b = 0; b < 2 + seed % 6; b++) print int(4 * rand()), int(4 * rand()), int(4 * rand()) }' \
            | awk -v out="$out" '{ split("", on); line = ""; for (i = 1; i <= 3; i++) if (!on[$i]++) line = line " " $i
                print line == " " out ? line " " (out + 1) % 4 : line }' >"$OUT/list"
        # of some the loads are taken at an age, which may be above all of them, and of some the wait overlaps the queue
        age=$([ $((seed % 3)) -eq 0 ] || echo "--age $((seed % 5))")
        start=$([ $((seed % 2)) -eq 0 ] || echo '--start larger')
        # shellcheck disable=SC2086
        "$OUT/desk" settings 7 300 "$OUT/table" $start -o "$OUT/settings" && "$OUT/tenant" request 7 300 4 "$OUT/list" $age -o "$OUT/request" \
            && "$OUT/stream" -o "$OUT/calls" 7 rent 300 settings "$OUT/settings" request 2964 "$OUT/request" why each each "$OUT/request" \
                why 0 0 "$OUT/request" why 0 1 "$OUT/request" why 0 2 "$OUT/request" why 0 3 "$OUT/request" \
            && $SHELF <"$OUT/calls" >"$OUT/answers" && "$OUT/tenant" why 7 300 "$OUT/answers" --calls "$OUT/calls" --json >"$OUT/lines" \
            && "$OUT/tenant" plan 7 300 "$OUT/answers" --disks "$OUT/table" --request "$OUT/list" $start $age >/dev/null \
            || echo "seed $seed: status $?" >>"$OUT/log"
        tr '{' '\n' <"$OUT/lines" | sed -n 's/.*"reason":\([1-5]\).*/\1/p' >>"$OUT/reasons"
        # each copy in turn has the shelf's line; the four that follow are the first block's again
        grep '^reason' "$OUT/answers" | sed '$d' | sed '$d' | sed '$d' | sed '$d' >"$OUT/expected"
        grep -v '^reason 1 ' "$OUT/expected" >"$OUT/copies"
        tr '{' '\n' <"$OUT/lines" | sed -n 's/.*"reason":\([2-5]\),"time":\([0-9]*\).*/reason \1 \2/p; s/.*"reason":\([2-5]\),"chosen".*/reason \1 0/p' \
            | diff "$OUT/copies" - >>"$OUT/log"
    done 2>>"$OUT/log"
    counts=$(sort "$OUT/reasons" | uniq -c | awk '{ printf "%s%s of %s", (NR > 1 ? ", " : ""), $1, $2 }')
    [ ! -s "$OUT/log" ] && [ "$(sort -u "$OUT/reasons" | tr -d '\n')" = 12345 ]
    passed "why: a shelf's reasons, $counts" $? "$OUT/log"
fi

# Damaged inputs to the programs
CC=$CC LIB=$LIB OUT=${make_out#../} FLAGS=$sanitize sh tests/hosts/fuzz.sh "$INPUTS" 1 >"$OUT/log" 2>&1
passed "fuzz: $INPUTS damaged inputs" $? "$OUT/log"

. "$here/installed.sh"

# The exports against the second program
if [ "$SECOND" != none ]; then
    # shellcheck disable=SC2086
    compile deskline "" "$here/deskline.c" $parts
    passed 'build: deskline' $? "$OUT/log"
    "$SECOND" compare desk "$COUNT" 7 "$OUT/deskline" >"$OUT/log" 2>&1 \
        && awk -v count="$COUNT" '/^desk: [0-9]* inputs the same, [0-9]* of them systematic$/ && $2 - $6 == count { good = 1 }
            END { exit !good }' "$OUT/log"
    passed "second program: $COUNT lines, and all systematic ones" $? "$OUT/log"
fi

good=$(grep -c '^ok ' "$results")
bad=$(grep -c '^FAILED ' "$results")
echo "$good passed, $bad failed"
[ "$bad" -eq 0 ]
