# Sourced by ./run, ./tray and ./powerup. They set `called` to their own name and `name` to the name of the program.
root=$(cd "$(dirname "${BASH_SOURCE[0]}")" && pwd) || exit 2
crate=$root/crates/$name
command -v rt >/dev/null || { echo "$called: the Rattle kit's 'rt' is not on the path" >&2; exit 2; }

# Builds the program if needed. `rt run` builds it and starts it, here with the arguments of its run in the gate and an empty input, on which it
# ends with 0. On a terminal this names each crate as it is proved. Otherwise it is silent unless the build fails.
build() {
    [ -f "$crate/out/$name" ] || echo "$called: building the program; the first time takes some minutes" >&2
    local log status words=()
    [ ! -f "$crate/args" ] || mapfile -t words <"$crate/args"
    log=$(mktemp) || exit 2
    (cd "$crate" && rt run -- "${words[@]}" </dev/null 2>&1) | tee "$log" |
        if [ -t 2 ]; then sed -un "/^crate /h; /^logic=proved /{g; s/^crate \([a-z_]*\):.*/$called: \1 proved/p}" >&2; else cat >/dev/null; fi
    status=${PIPESTATUS[0]}
    [ "$status" = 0 ] || cat "$log" >&2
    rm -f "$log"
    [ "$status" = 0 ] || exit 1
}

# Goes on as the program: its status is the script's.
program() {
    exec "$crate/out/$name" "$@"
}
