# Adds what rasd.service wrote to systemd's journal to the log that write-metrics keeps.
#
# usage: awk -v now=SECOND -v boot=NUMBER -v most=LINES -f watch-log.awk LOG LINES
#
# It prints the new LOG: `cursor CURSOR`, where in the journal it ends; `out REASON COUNT SECOND`, what wasn't counted; and
# `hour SECOND LABEL CORRECTED UNCORRECTED`, the errors of an hour, at most `most` of these lines.
FILENAME == ARGV[1] && $1 == "cursor" { cursor = $0; next }
FILENAME == ARGV[1] && $1 == "out" && NF == 4 { count[$2] = $3; last[$2] = $4; next }
FILENAME == ARGV[1] && $1 == "hour" && NF == 5 { add($2 " " $3, $4, $5); next }
FILENAME == ARGV[1] { next }
/^-- cursor: / { cursor = "cursor " $3; next }
/^log / { take_error(); next }
# Errors of a retired boot come again at each start; one of this boot is lost.
/^stale (bank|block)=[0-9]+\// {
    split($2, of, /[=\/]/)
    if (boot != "" && of[2] + 0 >= boot + 0) leave_out("stale", word("for"))
    next
}
# Linux makes it up of a report of the firmware, which counts (arch/x86/kernel/cpu/mce/apei.c line 48 of linux-source-6.1 6.1.192-3).
/^[a-z-]+: left out: # vendor=[0-9]+ cpu=[0-9]+ bank=255( |$)/ { next }
/^[a-z-]+: left out: # / { leave_out(reason_of(substr($0, index($0, "# ") + 2))); next }
/^[a-z-]+: left out / { leave_out("unread") }

# A comment's first words, in one: of `# vendor=2 cpu=3 bank=4` vendor, of `# left out 12` left-out.
function reason_of(text) {
    sub(/[^a-z ].*/, "", text)
    sub(/ cpu$| source$| +$/, "", text)
    gsub(/ +/, "-", text)
    return text
}
# `firmware` is such a machine check of an Intel processor; a torn report counts without its page,
# or from the trace; an event of eMCA comes as a machine check too.
function leave_out(reason, times) {
    if (reason ~ /^(firmware|torn|no-error|extlog|)$/) return
    count[reason] += times ? times : 1
    last[reason] = now
}
function word(name,   i) {
    for (i = 3; i <= NF; i++) if (index($i, name "=") == 1) return substr($i, length(name) + 2)
    return ""
}
# A line with `for=` stands for several corrected errors, and has the sum of their weights (service/quiet.pl).
function take_error(   second, weight, is_bad) {
    second = word("t")
    weight = word(word("for") ? "corrected" : "weight")
    if (second !~ /^[0-9]+$/ || weight !~ /^[0-9]+$/ || word("label") == "") return
    is_bad = word("class") ~ /^(UCNA|SRAO|SRAR|UC|recoverable|fatal)$/
    add(second - second % 3600 " " word("label"), is_bad ? 0 : weight, is_bad ? weight : 0)
}
function add(key, corrected, bad) {
    if (!(key in good)) order[++hours] = key
    good[key] += corrected
    lost[key] += bad
}
END {
    if (cursor != "") print cursor
    for (reason in count) print "out " reason " " count[reason] " " last[reason]
    for (i = hours > most ? hours - most + 1 : 1; i <= hours; i++) print "hour " order[i] " " good[order[i]] " " lost[order[i]]
}
