#!/bin/sh
# No line is lost: the proved programs on outputs and inputs that fail. One line a test, a last line with the counts, status 1 if any failed.
#   SHELF, BENCH   the programs    (target/bin/shelf, target/bin/bench)
#   OUT            the folder for what is built (target/lines)
# Errors are injected where strace is there; else those tests are left out, and the last line says so.
set -u
export LC_ALL=C
here=$(cd "$(dirname "$0")" && pwd)
top=$(cd "$here/../.." && pwd)
SHELF=${SHELF:-$top/target/bin/shelf}
BENCH=${BENCH:-$top/target/bin/bench}
OUT=${OUT:-$top/target/lines}
CC=${CC:-cc}
mkdir -p "$OUT" || exit 1
cd "$OUT" || exit 1
input=$top/crates/shelf/stdin
lines=$top/crates/shelf/stdout
passed=0 failed=0
$CC -std=c11 -O1 -Wall -Wextra -pedantic -Werror "$here/nonblock.c" -o nonblock || exit 1

# test NAME: passed if the last command was true
test_that() { if [ "$2" -eq 0 ]; then passed=$((passed + 1)); echo "ok $1"; else failed=$((failed + 1)); echo "FAILED $1"; fi; }
# says TEXT: standard error is this one line
says() { [ "$(cat err)" = "$1" ]; }
# prefix: what was printed is the start of what should be printed, and not all of it
prefix() { [ "$(wc -c <out)" -lt "$(wc -c <"$lines")" ] && head -c "$(wc -c <out)" "$lines" | cmp -s - out; }

"$SHELF" <"$input" >out 2>err
{ cmp -s out "$lines" && says ''; }
test_that 'shelf: all lines, and nothing on standard error' $?

head -c 3000 "$input" >start
"$SHELF" <start >whole 2>err
dd if=start bs=1 2>dd.log | "$SHELF" >out 2>err
{ cmp -s out whole && says ''; }
test_that 'shelf: bytes that come one by one give the same lines' $?

"$SHELF" <"$input" >/dev/full 2>err
says 'standard output: No space left on device'
test_that 'shelf: a full disk' $?

# a Rattle program has SIGPIPE ignored, so a closed pipe is a write that fails
"$SHELF" <"$input" 2>err | head -n 1 >out
{ head -n 1 "$lines" | cmp -s - out && says 'standard output: Broken pipe'; }
test_that 'shelf: a closed pipe' $?

{ trap '' PIPE; "$SHELF" <"$input" 2>err; } | head -n 1 >out
says 'standard output: Broken pipe'
test_that 'shelf: a closed pipe, the signal ignored' $?

./nonblock 1 "$SHELF" <"$input" 2>err | { sleep 1; cat >out; }
{ prefix && says 'standard output: Resource temporarily unavailable'; }
test_that 'shelf: an output that does not wait, and a slow reader' $?

{ sleep 1; cat start; } | ./nonblock 0 "$SHELF" >out 2>err
{ cmp -s out whole && says ''; }
test_that 'shelf: an input that does not wait, and a slow writer' $?

"$SHELF" <. >out 2>err
{ [ ! -s out ] && says 'standard input: Is a directory'; }
test_that 'shelf: an input that cannot be read is no end of input' $?

"$BENCH" <"$top/crates/bench/stdin" >/dev/full 2>err
says 'standard output: No space left on device'
test_that 'bench: a full disk' $?

"$BENCH" <. >out 2>err
{ [ ! -s out ] && says 'standard input: Is a directory'; }
test_that 'bench: an input that cannot be read is no end of input' $?

{ sleep 1; cat "$top/crates/bench/stdin"; } | ./nonblock 0 "$BENCH" >out 2>err
{ cmp -s out "$top/crates/bench/stdout" && says ''; }
test_that 'bench: an input that does not wait, and a slow writer' $?

left=''
if command -v strace >strace.log 2>&1 && strace -o strace.log -e trace=write true 2>>strace.log; then
    # the second line is lost: the first alone stands, and nothing after it
    strace -o strace.log -e trace=write -e inject=write:error=EAGAIN:when=2 "$SHELF" <"$input" >out 2>err
    { head -n 1 "$lines" | cmp -s - out && says 'standard output: Resource temporarily unavailable'; }
    test_that 'shelf: one write that fails' $?
    # the reads of standard input are those of 16,384 bytes; each is interrupted once before it is made
    strace -o strace.log -P "$input" -e trace=read -e inject=read:error=EINTR:when=1+2 "$SHELF" <"$input" >out 2>err
    { cmp -s out "$lines" && says ''; }
    test_that 'shelf: every other read interrupted' $?
    strace -o strace.log -P "$input" -e trace=read -e inject=read:error=EIO:when=2 "$SHELF" <"$input" >out 2>err
    { prefix && says 'standard input: Input/output error'; }
    test_that 'shelf: one read that fails' $?
else
    left='; without strace, no errors injected'
fi
echo "lines: $passed passed, $failed failed$left"
[ "$failed" -eq 0 ]
