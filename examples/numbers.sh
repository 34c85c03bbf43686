# Numbers as bytes, little-endian, and a row of evidence: for examples/make, examples/pipe-write, examples/pipe-find, examples/pipe-salvage, examples/pipe-ways and examples/pipe-time, which source it.
# shellcheck shell=sh

# shellcheck disable=SC2059
byte() { for n in "$@"; do printf "\\$(printf %03o "$n")"; done; }
u16() { for n in "$@"; do byte $((n % 256)) $((n / 256)); done; }
u32() { for n in "$@"; do u16 $((n % 65536)) $((n / 65536)); done; }

# row BLOCK..: a set of blocks. The seven slots that follow the number hold them; free slots are 65,535.
row() {
    u16 $#
    while [ $# -lt 7 ]; do set -- "$@" 65535; done
    u16 "$@"
}
