# Returns the time in a line of a trace or of a log, or in a field of journalctl's export form, in microseconds of the boot, or
# nothing. A trace has it before the first colon that a space follows.
function stamp_of(line,   words, count, stamp) {
    if (line ~ /^_SOURCE_MONOTONIC_TIMESTAMP=[0-9]+$/) return substr(line, index(line, "=") + 1)
    count = split(substr(line, 1, index(line, ": ") - 1), words, " ")
    if (!count || words[count] !~ /^[0-9]+\.[0-9][0-9][0-9][0-9][0-9][0-9]$/) return ""
    stamp = words[count]
    sub(/\./, "", stamp)
    sub(/^0+/, "", stamp)
    return stamp == "" ? "0" : stamp
}
