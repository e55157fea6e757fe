# What ./fwupdemu, ./fwupdemu-view and ./fwupdemu-prove share: where the two programs lie, whether one is older than its
# sources, and how a call waits for another. It is sourced, with the repository's folder in `top` and the caller's name in `name`.
# shellcheck shell=bash
# shellcheck disable=SC2154 # `top` and `name` are the caller's

# The crate of the program: the viewer's, or fwupdemu's.
crate_name=fwupdemu
[ "$name" != fwupdemu-view ] || crate_name=fwupdemu_view
crate="$top/crates/$crate_name"
# What `rt` leaves once every crate is proved, and the copy of what `rt try` builds without any proof.
# shellcheck disable=SC2034 # used by the callers
proved="$crate/out/$crate_name" unproved="$crate/out/$crate_name-unproved"

say() {
    printf '%s: %s\n' "$name" "$1" >&2
}

# Names the crates that a crate stands on, and last the crate itself, each after those that it uses.
crates_below() {
    awk -v wanted="$1" '
        function visit(crate, words, count, i) {
            if (!(crate in uses) || crate in seen)
                return
            seen[crate] = 1
            count = split(uses[crate], words, " ")
            for (i = 1; i <= count; i++)
                visit(words[i])
            print crate
        }
        { sub(/#.*/, "") }
        index($0, ":") {
            split($0, head, /[ :]+/)
            uses[head[1]] = substr($0, index($0, ":") + 1)
        }
        END { visit(wanted) }
    ' "$top/crates.txt"
}

# Whether the file is older than crates.txt or than a text of these crates. Crates that the program doesn't stand on,
# as those of tests, don't count.
is_older_than() {
    local file=$1 texts=() below folder newer
    shift
    for below in "$@"; do
        for folder in "$top/crates/$below/"{src,specs,proofs}; do
            [ -d "$folder" ] && texts+=("$folder")
        done
    done
    newer=$(find "$top/crates.txt" "${texts[@]}" -type f -newer "$file" -print -quit)
    [ -n "$newer" ]
}

# Keeps other calls of the same script out until this process ends, and has a later one say so and wait. Where there is
# no `flock`, or the file system has no locks, two calls only do the same work twice.
hold_turn() {
    command -v flock >/dev/null || return 0
    exec 9<"$top/$name" || return 0
    if ! flock -n 9; then
        say "$1"
        flock 9
    fi
}

# Sets `time` to the time since then, or since the call began, as minutes and seconds. (While a trap is set no `$( )`
# stands inside quotes here or in the scripts: bash 5.2 loses a signal that comes while it reads one.)
# shellcheck disable=SC2034,SC2120 # used, and called with a time, by the callers
elapsed() {
    local seconds=$((SECONDS - ${1:-0}))
    printf -v time '%d:%02d' $((seconds / 60)) $((seconds % 60))
}

# Rewrites the line that a terminal shows.
show() {
    [ -t 2 ] || return 0
    local width
    width=$(stty size <&2 2>/dev/null)
    width=${width#* }
    [ "${width:-0}" -gt 20 ] || width=80
    local line="$name: $1"
    printf '\r%s\033[K' "${line:0:width - 1}" >&2
}

# Takes that line away.
unshow() {
    [ -t 2 ] && printf '\r\033[K' >&2
    return 0
}

# Whether the disk where the folder lies is full: as the log tells, or as there is next to nothing left; then the log may
# lack just that.
is_full() {
    local left
    ! grep -q -e 'No space left on device' -e '^rt: the disk is full' "$2" 2>/dev/null || return 0
    left=$(df -Pk "$1" | awk 'END { print $4 }')
    [ "${left:-20000}" -lt 20000 ]
}

# What to say where there is no `rt`.
# shellcheck disable=SC2034 # used by the callers
no_rt="there is no command \`rt\` on the path (PATH): install the Rattle toolchain, and put the folder with its \`rt\` on the path"
