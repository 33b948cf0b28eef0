# Whether a report begins the whole report of its session: `awk -v status=STATUS -f begins_plain.awk WHOLE REPORT`. It says
# what is wrong, and ends with status 1 where something is. STATUS is that of the program which printed the report. With
# `-v is_run=1` it is the report of a run on threads: no channel stands open, and one may have been refused. With
# `-v fails=" C .. "` channels of these numbers were told to fail or to be aborted, and there was memory: these have failed,
# and the others are drained.

function is_wrong(what) {
    print what
    wrong = 1
    exit 1
}

FNR == 1 { file++; left = 0 }

# The lines of a tail, and those of writes.
left > 0 { left--; line[file, channel, part, ++at] = $0; next }

$1 == "channel" {
    channel = $2
    channels[file]++
    stands[file, channel] = substr($0, length("channel " channel " ") + 1)
    next
}

$1 == "tail" || $1 == "writes" { part = $1; left = $2; at = 0; size[file, channel, part] = $2; next }

$1 == "bytes" { size[file, channel, "bytes"] = $2; hex[file, channel] = $3 == "-" ? "" : $3; next }

{ is_wrong("a line that no report has: " $0) }

END {
    if (wrong) exit 1
    if (channels[2] != channels[1]) is_wrong("another number of channels")
    all_drained = 1
    for (c = 0; c < channels[1]; c++) {
        allowed = is_run ? "^(drained|failed (Memory|Transport|Aborted|Refused))$" : "^(drained|open|failed (Memory|Transport|Aborted))$"
        if (fails != "") allowed = index(fails, " " c " ") ? "^failed (Transport|Aborted|Refused)$" : "^drained$"
        if (stands[2, c] !~ allowed) is_wrong("channel " c " stands " stands[2, c])
        if (size[2, c, "tail"] > size[1, c, "tail"]) is_wrong("the tail of channel " c " is too long")
        for (i = 1; i <= size[2, c, "tail"]; i++)
            if (line[2, c, "tail", i] != line[1, c, "tail", i]) is_wrong("event " i - 1 " of channel " c)
        if (length(hex[2, c]) != 2 * size[2, c, "bytes"]) is_wrong("the number of bytes of channel " c)
        if (substr(hex[1, c], 1, length(hex[2, c])) != hex[2, c]) is_wrong("the bytes of channel " c)
        if (size[2, c, "writes"] > size[1, c, "writes"]) is_wrong("too many writes of channel " c)
        for (i = 1; i <= size[2, c, "writes"]; i++)
            if (line[2, c, "writes", i] !~ "^" i - 1 " (Success|Closed|Fault|Unsupported|Open)$") is_wrong("write " i - 1 " of channel " c)
        if (stands[2, c] != "drained") { all_drained = 0; continue }
        if (size[2, c, "tail"] != size[1, c, "tail"] || hex[2, c] != hex[1, c] || size[2, c, "writes"] != size[1, c, "writes"])
            is_wrong("channel " c " is drained, and not whole")
        for (i = 1; i <= size[1, c, "writes"]; i++)
            if (line[2, c, "writes", i] != line[1, c, "writes", i]) is_wrong("write " i - 1 " of drained channel " c)
    }
    if (status != (all_drained ? 0 : 1)) is_wrong("status " status)
}
