# Makes Debian's form of CHANGELOG.md: an entry for each release, its items wrapped and without their marks. What isn't
# released yet is left out. The variable `maintainer` says who signs.

# Prints the item that was read, in lines of up to 78 columns.
function end_item(    words, count, line, i) {
    if (item == "")
        return
    count = split(item, words, " ")
    line = first
    for (i = 1; i <= count; i++) {
        if (length(line) + length(words[i]) + 1 > 78) {
            print line
            line = "   "
        }
        line = line " " words[i]
    }
    print line
    item = ""
}

function end_release() {
    end_item()
    if (released != "")
        printf "\n -- %s  %s\n\n", maintainer, released
    released = ""
}

{ gsub(/`/, "") }

/^## / {
    end_release()
    if ($2 !~ /^\[[0-9]/)
        next
    gsub(/[][]/, "", $2)
    command = "date -R -d " $4
    command | getline released
    close(command)
    printf "fwupdemu (%s) unstable; urgency=medium\n\n", $2
    next
}

released == "" || /^#/ { next }
/^$/ { end_item(); next }
/^- / { end_item(); first = "  *"; sub(/^- /, ""); item = $0; next }
item == "" { first = "  *" }
{ sub(/^ +/, ""); item = item " " $0 }

END { end_release() }
