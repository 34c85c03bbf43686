# shellcheck shell=sh
# What scripts/bounds and scripts/bounds0 do with the case file on standard input: they print what the program of their name prints.
# They end with 0 after a listing and with 1 after a refusal. They end with 2, and a sentence on standard error, where they cannot read or write, or where they have no proved program.
# The program is proved and built first where that has not been done, or where its sources have changed since: that takes some minutes.
# shellcheck source-path=SCRIPTDIR source=kit.sh
. "$(dirname "$0")/kit.sh"
here=$(dirname "$0")
tree=$here/..
name=$(basename "$0")
program=$tree/target/bin/$name

fail() { # SENTENCE
    echo "$name: $1" >&2
    exit 2
}

# What was proved: the kit, the sources and the program that came of them.
now() { (cd "$tree" && find "$kit/KIT-ID" crates.txt crates "target/bin/$name" -name out -prune -o -type f -exec sha256sum {} + | sort) 2>/dev/null; }

# Two calls of rt at once get in each other's way, so rt is called only where something changed, and one call waits for the other, whichever program it is for, where the machine has flock.
prove() {
    echo "$name: the program is proved and built first, which may take some minutes" >&2
    lock=$(command -v flock)
    said=$(cd "$tree" && mkdir -p target && ${lock:+"$lock" target/listing.lock} scripts/build "$name" 2>&1 </dev/null) || {
        printf '%s\n' "$said" >&2
        fail 'the program is not proved as its sources are now'
    }
    now >"$tree/target/$name.$$" && mv "$tree/target/$name.$$" "$tree/target/$name.proved"
}

# A file that is closed cannot be handed on as it is: what is opened next gets its number.
{ true 3<&0; } 2>/dev/null || fail 'standard input is closed'
{ true 3>&1; } 2>/dev/null || fail 'standard output is closed'
now | cmp -s - "$tree/target/$name.proved" || prove
listing=$("$here/run" "$program") || fail "the program ended with status $?"
[ -n "$listing" ] || exit 2 # The program has said why.
trap '' PIPE
printf '%s\n' "$listing" 2>/dev/null || fail 'the output cannot be written'
case $listing in
refused*) exit 1 ;;
esac
