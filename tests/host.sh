#!/usr/bin/env bash
# Compiles the C host of examples/ with the core's static library and runs it: on the bench board, which is a static library too, and on
# a board on pins. Then again with the C code under UBSan and ASan, where the compiler has them.
#     tests/host.sh LIBRARY_FOLDER HEADER_FOLDER
# It needs a C compiler and cargo.
set -euo pipefail
library=$(realpath -- "$1") header=$(realpath -- "$2")
cd "$(dirname "$0")/.."
export CARGO_TARGET_DIR=${CARGO_TARGET_DIR:-$PWD/target/cargo}
out=$PWD/target/host
mkdir -p "$out/plain" "$out/sanitized"
# The loop that docs/EMBEDDING.md shows is the host's own.
sed -n '/^```c$/,/^```$/p' docs/EMBEDDING.md | grep -v '^```' | while read -r line; do
    grep -qF -- "$line" examples/host.c || { echo "docs/EMBEDDING.md has a line that examples/host.c hasn't: $line" >&2; exit 1; }
done
cargo build --quiet --offline --release --manifest-path tests/pins/Cargo.toml
warnings=(-Wall -Wextra -Wpedantic -Wconversion -Werror)
sanitizers=(-fsanitize=undefined,address -fno-sanitize-recover=all -g)

# compile BUILD FLAG..: the host on the bench board and on pins, in the build's folder.
compile() {
    local to=$out/$1
    shift
    local host=(cc -std=c99 -O2 "${warnings[@]}" "$@" -I "$header" examples/host.c)
    "${host[@]}" examples/bench_wire.c "$library/libcore_c.a" "$library/libbench_c.a" -o "$to/bench"
    "${host[@]}" examples/swd_pins.c "$CARGO_TARGET_DIR/release/libpins.a" "$library/libcore_c.a" -lpthread -ldl -lm -o "$to/pins"
}
# expect LINE NAME=VALUE.. -- WORDS..: what the host prints on the board that the environment says.
expect() {
    local line=$1 board=() got
    shift
    while [ "$1" != -- ]; do
        board+=("$1")
        shift
    done
    shift
    got=$(env "${board[@]}" "$out/$build/$wire" "$@" || true)
    if [ "$got" != "$line" ]; then
        echo "host $* on $wire ($build), ${board[*]}: '$got', not '$line'" >&2
        exit 1
    fi
    runs=$((runs + 1))
}
tools=tests/vectors/tools
one=$tools/part1-m1/srec_cat-64-crlf.hex two=$tools/part2-m1/intelhex-64-crlf.hex three=$tools/part3-m2/srec_cat-64-crlf.hex

on_bench() {
    wire=bench
    # Calm, it takes the plan; a WAIT is one transfer more, a poll that finds a call under way three (a poll reads SYSREQ twice).
    expect 'done 27279' BOARD='1 1 1' -- 1 1 "$one" kill
    expect 'done 27306' BOARD='1 1 1' WAITS=1000 -- 1 1 "$one" kill
    expect 'done 28836' BOARD='1 1 1' BUSY=1 -- 1 1 "$one" kill
    expect 'done 30423' BOARD='1 1 1' WAITS=1000 BUSY=3 -- 1 1 "$one" kill
    expect 'done 27315' BOARD='1 1 2' -- 1 1 "$one" kill
    expect 'done 47775' BOARD='2 1 2' -- 2 1 "$two" kill
    expect 'done 190741' BOARD='3 2 1' -- 3 2 "$three" kill
    expect 'done 203280' BOARD='3 2 1' WAITS=1000 BUSY=3 -- 3 2 "$three" kill
    # A call that never ends, one that fails, a line that is lost or noisy, WAITs without end, a board in KILL, another part.
    expect 'failed 18 step 1 transfers 30016' BOARD='1 1 1' BUSY=100000 -- 1 1 "$one" kill
    expect 'failed 19 step 5 transfers 225' BOARD='1 1 1' FAIL=9 -- 1 1 "$one" kill
    expect 'failed 29 step 5 transfers 5000' BOARD='1 1 1' SLIP=5000 -- 1 1 "$one" kill
    expect 'failed 33 step 5 transfers 5000' BOARD='1 1 1' NOISE=5000 -- 1 1 "$one" kill
    expect 'failed 26 step 1 transfers 30' BOARD='1 1 1' NOISE=1 -- 1 1 "$one" kill
    expect 'failed 26 step 1 transfers 30' BOARD='1 1 4' NOISE=1 -- 1 1 "$one" kill
    expect 'failed 26 step 1 transfers 30' BOARD='1 1 1' WAITS=1 -- 1 1 "$one" kill
    expect 'failed 26 step 1 transfers 30' BOARD='1 1 4' -- 1 1 "$one" kill
    expect 'failed 20 step 2 transfers 38' BOARD='3 1 1' -- 1 1 "$one" kill
}
on_pins() {
    wire=pins
    # A board that hears at once takes the plan; one that starts up for longer, an attempt more each 187 us.
    expect 'done 27279' BOOT_US=0 -- 1 1 "$one" kill
    expect 'done 27295' BOOT_US=3000 -- 1 1 "$one" kill
    expect 'done 27305' BOOT_US=4990 -- 1 1 "$one" kill
    expect 'failed 26 step 1 transfers 30' BOOT_US=9000 -- 1 1 "$one" kill
    expect 'done 47775' BOOT_US=0 BOARD='2 1 2' -- 2 1 "$two" kill
    # Not under ASan: the board on pins is copied at each write, which takes ten seconds there.
    [ "$build" = sanitized ] || expect 'done 190741' BOOT_US=0 BOARD='3 2 1' -- 3 2 "$three" kill
    # The line: a WAIT is one transfer more, a clip that slips is silence, a bad cable noise.
    expect 'done 27280' BOOT_US=0 WAIT=5000 -- 1 1 "$one" kill
    expect 'failed 29 step 5 transfers 5001' BOOT_US=0 SLIP=5000 -- 1 1 "$one" kill
    expect 'failed 33 step 5 transfers 5001' BOOT_US=0 NOISE=5000 -- 1 1 "$one" kill
    expect 'failed 26 step 1 transfers 30' BOOT_US=0 NOISE=0 -- 1 1 "$one" kill
    # Another part on the clip, a text that can't be used, KILL without leave.
    expect 'failed 20 step 2 transfers 38' BOOT_US=0 BOARD='3 1 1' -- 1 1 "$one" kill
    expect 'refused 3' BOOT_US=0 -- 1 1 "$tools/part1-m1/objcopy-start.hex" kill
    expect 'refused 15' BOOT_US=0 -- 2 1 "$tools/part2-m1/srec_cat-64-crlf.hex"
    expect 'refused 11' BOOT_US=0 -- 4 1 "$one"
    expect 'refused 11' BOOT_US=0 -- 1 257 "$one"
}
# all_runs BUILD: counted in `runs`.
all_runs() {
    build=$1 runs=0
    on_bench
    on_pins
}

compile plain
all_runs plain
plain=$runs

echo 'int main(void) { return 0; }' > "$out/probe.c"
if cc "${sanitizers[@]}" "$out/probe.c" -o "$out/probe" 2> /dev/null && "$out/probe"; then
    compile sanitized "${sanitizers[@]}"
    all_runs sanitized
    echo "C host: $plain runs as said, and $runs under UBSan and ASan"
else
    echo "C host: $plain runs as said, 0 under UBSan and ASan, which cc hasn't here"
fi
