# shellcheck shell=sh disable=SC2034
# Where the kit is, and what of it the scripts use. The other scripts read this file; it runs nothing.
# Rattle programs are x86-64, and so is the kit.
command -v rt >/dev/null 2>&1 || { echo "$0: no rt on the PATH: install the Rattle kit" >&2; exit 2; }
rt=$(readlink -f "$(command -v rt)")
kit=${RATTLE_HOME:-${rt%/*/*}}
toolchain=$kit/toolchain
link=$kit/bin/rattle-link
target=x86_64-unknown-linux-gnu
loader=$toolchain/lib/ld-linux-x86-64.so.2
