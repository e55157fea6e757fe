# How many checks `rt ci` runs side by side, for .ci/run and ./fwupdemu-prove, which source it.
# shellcheck shell=bash

# Sets `jobs` to a check for each processor and one more, for one of them mostly waits, as far as there are 4 GB of
# memory for each, also under a container's limit. By default `rt ci` runs fewer, since it counts on more memory than a
# check takes.
count_jobs() {
    local free left limit=max held=0
    free=$(awk '/^MemAvailable:/ { print $2 }' /proc/meminfo)
    {
        read -r limit </sys/fs/cgroup/memory.max
        held=$(awk '$1 == "anon" { print $2 }' /sys/fs/cgroup/memory.stat)
    } 2>/dev/null
    if [ "$limit" != max ]; then
        left=$(((limit - held) / 1024))
        [ "$free" -le "$left" ] || free=$left
    fi
    jobs=$(($(nproc) + 1))
    [ "$jobs" -le $((free / 4000000)) ] || jobs=$((free / 4000000))
    [ "$jobs" -ge 1 ] || jobs=1
}
