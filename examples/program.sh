#!/usr/bin/env bash
# Runs `emu` on the words it is given, in which names of texts are absolute: the proved program where it is
# built and no file of the crates is newer, else the same code unproved. Standard output is the program's
# alone; which of the two ran, and all that the kit says, goes to standard error.
set -euo pipefail
crates=$(cd "$(dirname "$0")/../crates" && pwd)
proved=$crates/emu/out/emu

is_newer() {
    [ -n "$(find "$crates" -path '*/out' -prune -o -type f -newer "$proved" -print -quit)" ]
}

if [ -x "$proved" ] && ! is_newer; then
    echo "emu: the proved program, $proved" >&2
    exec "$proved" "$@"
fi

cat >&2 <<END
emu: the proved program is not built, or is older than the code; this runs the same code UNPROVED, which takes
emu: about a minute where nothing is kept. To prove and build it, run this, some forty processor minutes where
emu: nothing is kept:   cd $crates/emu && rt run
END
command -v rt >/dev/null || {
    echo 'emu: there is no command `rt` on the path; README.md names the kit that has it' >&2
    exit 127
}
cd "$crates/emu"
exec rt try -- "$@"
