# Prints when sums of the account grew last, as metrics, and writes the state that the next call compares with.
#
# usage: awk -v now=SECOND -v state=FILE -f changes.awk BEFORE METRICS
#
# BEFORE is the state of the last call, or metrics that an earlier version wrote. A sum that BEFORE lacks has grown now. A
# machine that was off, or a Prometheus that was, changes nothing about these times: so an alert over them holds over gaps.
function value_of(name,   found) {
    found = $0
    return sub(".*[{,]" name "=\"", "", found) ? substr(found, 1, index(found, "\"") - 1) : ""
}
# The sums that a sample is a part of. A label is as printed, with its escapes.
function take(sums,   label, class) {
    if ($0 ~ /^rasd_errors_total[{]label="/) {
        label = $0
        sub(/^[^"]*"/, "", label)
        sub(/",class=.*/, "", label)
        class = value_of("class")
        if (class ~ /^(UCNA|SRAO|SRAR|UC|recoverable|fatal)$/) sums["uncorrected " label] += $NF
        if (label == "-") sums["unlabelled -"] += $NF
    } else if ($0 ~ /^rasd_pages[{]state="(soft|hard)"/) sums["ordered -"] += $NF
}
FILENAME == ARGV[1] && $1 == "grew" && NF == 5 { before[$2 " " $3] = $4 + 0; since[$2 " " $3] = $5 + 0; next }
FILENAME == ARGV[1] { take(before); next }
{ take(sums) }
function print_family(kind, name, help,   key, of) {
    print "# HELP " name " " help
    print "# TYPE " name " gauge"
    for (key in sums) {
        split(key, of, " ")
        if (of[1] == kind && sums[key]) print name (kind == "uncorrected" ? "{label=\"" of[2] "\"} " : " ") since[key] + 0
    }
}
END {
    for (key in sums) {
        if (sums[key] > before[key] + 0) since[key] = now
        print "grew " key " " sums[key] " " since[key] + 0 > state
    }
    print "" > state
    print_family("uncorrected", "rasd_last_uncorrected_seconds", "When the uncorrected errors of a module grew last.")
    print_family("unlabelled", "rasd_last_unlabelled_seconds", "When the errors without a module grew last.")
    print_family("ordered", "rasd_last_page_order_seconds", "When the pages that are ordered out of use grew last.")
    print "# HELP rasd_written_seconds When this file was written."
    print "# TYPE rasd_written_seconds gauge"
    print "rasd_written_seconds " now
}
