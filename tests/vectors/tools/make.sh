#!/bin/sh
# Makes the texts of this directory with Debian 12's srecord 1.64-3, binutils 2.40-2 and
# python3-intelhex 2.3.0-2, from the images that `vectors images` writes. CI never runs this.
set -eu
here=$(cd "$(dirname "$0")" && pwd)
tests=$here/../..
(cd "$tests" && cargo build -j1 --release --offline --bin vectors)
work=$(mktemp -d)
trap 'rm -rf "$work"' EXIT
"$tests/target/release/vectors" images "$work"
for size in part1-m1 part2-m1 part3-m1 part3-m2; do
    cd "$work/$size"
    mkdir -p "$here/$size"
    # srec_cat: as the writer is to write, then its defaults.
    set -- flash.bin -binary sum.bin -binary -offset 0x90300000 \
        protection.bin -binary -offset 0x90400000 metadata.bin -binary -offset 0x90500000 \
        level.bin -binary -offset 0x90600000
    srec_cat "$@" -o "$here/$size/srec_cat-64-crlf.hex" -intel \
        -output_block_size 64 -line_termination crlf
    srec_cat "$@" -o srec_cat-default.hex -intel
    # An execution start address makes srec_cat add a record of type 5.
    srec_cat "$@" -o srec_cat-start.hex -intel -execution-start-address 0x101
    # python3-intelhex: the same two.
    /usr/bin/python3 - "$here/$size/intelhex-64-crlf.hex" <<'PY'
import sys
from intelhex import IntelHex
text = IntelHex()
for name, address in [('flash', 0), ('sum', 0x90300000), ('protection', 0x90400000),
                      ('metadata', 0x90500000), ('level', 0x90600000)]:
    text.frombytes(open(name + '.bin', 'rb').read(), offset=address)
text.write_hex_file(sys.argv[1], eolstyle='CRLF', byte_count=64)
text.write_hex_file('intelhex-default.hex')
text.start_addr = {'EIP': 0x101}
text.write_hex_file('intelhex-start.hex')
PY
    # objcopy: an ELF file with the five sections, then its only way to write Intel hex.
    flags=alloc,load,readonly,data,contents
    objcopy -I binary -O elf32-little --rename-section .data=.flash,$flags \
        --add-section .sum=sum.bin --set-section-flags .sum=$flags \
        --change-section-address .sum=0x90300000 \
        --add-section .protection=protection.bin --set-section-flags .protection=$flags \
        --change-section-address .protection=0x90400000 \
        --add-section .metadata=metadata.bin --set-section-flags .metadata=$flags \
        --change-section-address .metadata=0x90500000 \
        --add-section .level=level.bin --set-section-flags .level=$flags \
        --change-section-address .level=0x90600000 \
        flash.bin all.elf
    objcopy -O ihex all.elf objcopy-default.hex
    objcopy -O ihex --set-start 0x101 all.elf objcopy-start.hex
    # The other texts are kept for part 1, objcopy's also where it writes type 2 (past 64 KiB).
    case $size in
    part1-m1) cp ./*-default.hex ./*-start.hex "$here/$size/" ;;
    part3-m2) cp objcopy-default.hex "$here/$size/" ;;
    esac
done
cd "$here"
sha256sum */*.hex > SHA256SUMS
