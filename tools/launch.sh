# shellcheck shell=bash
# What ./weekplan and ./weekdesk share. A command sets its name and sources this, which leaves it at the top of the tree; prove_once then
# has its program proved and built, unless a proof of what stands there is at hand. What fails here ends the command with the exit status 2
# and a word on standard error, since 0 and 1 are answers.
set -E
trap 'exit 2' ERR
cd "$(dirname "${BASH_SOURCE[0]}")/.." || exit 2

# shellcheck disable=SC2154 # the command's
program=crates/$name/out/$name
proof=target/$name.proved
log=target/$name.log

say() {
    echo "$name: $1" >&2
}

fail() {
    say "$1"
    exit 2
}

# A proof is of the kit, the sources, and the program that was built of them, each told by what it holds and not by its date. Without the
# kit it is taken for the one that proved, since the program runs without it.
kit() {
    rt version 2>/dev/null || head -n 1 "$proof"
}

# A crate's out/ has what rt made of the rest.
sources() {
    find -L crates crates.txt -regex 'crates/[^/]*/out' -prune -o -type f -print0 | LC_ALL=C sort -z | xargs -0 sha256sum | sha256sum
}

built() {
    sha256sum "$program"
}

is_proved() {
    [ -e "$proof" ] && [ -x "$program" ] && [ "$(kit && sources && built)" = "$(<"$proof")" ]
}

# Where all is proved and built, rt runs the program, and then ends with the status of that: this line tells.
is_running() {
    grep -q "^rt: running out/$name;" "$log"
}

prove() {
    local of
    command -v rt >/dev/null || fail "the Rattle kit's command rt is not on the PATH"
    say "proving and building, once"
    mkdir -p target
    of=$(kit && sources)
    (cd "crates/$name" && rt run) </dev/null >/dev/null 2>"$log" || is_running ||
        { tail -n 20 "$log" >&2 && fail "not proved; $PWD/$log has the whole of it"; }
    { echo "$of" && built; } >"$proof"
}

# Of calls at once one proves, and the others wait for it, to take what it proved: rt has them wait too, but then each asks it anew. The
# lock is on the folder of the tree, which is there before target/ and stays when that is removed.
prove_once() {
    is_proved && return
    (
        flock -n 9 || { say "waiting for another call, which proves" && flock 9; }
        is_proved || prove
    ) 9<.
}
