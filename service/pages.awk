# The table of service/pages, which says what it prints. The first field of each line is the source that it comes from.

# Returns the address of a page whose number is this, in hexadecimal behind 0x.
function page_of(number) {
    sub(/^0x/, "", number)
    sub(/:$/, "", number)
    return substr("0000000000000", 1, 13 - length(number)) number "000"
}
# Notes what became of a page. What comes later counts, but a page that is out stays out.
function note(page, answer, whom, words) {
    known[page]
    if (out[page] == "yes") return
    out[page] = answer
    by[page] = whom
    gsub(/ /, "-", words)
    why[page] = words
}
# Notes the kernel's words of a memory failure: "recovery action for dirty LRU page: Recovered".
function recover(page, words,   type, result) {
    match(words, /: [A-Z][a-z]+$/)
    result = substr(words, RSTART + 2)
    type = substr(words, 1, RSTART - 1)
    note(page, result == "Recovered" ? "yes" : result == "Delayed" ? "later" : "no", "memory-failure", result ": " type)
}
# What stands behind a text in a line.
function behind(text) { return substr($0, index($0, text) + length(text)) }

$1 == "account" && $2 ~ /^page=/ && $3 ~ /^state=(soft|hard)$/ {
    page = substr($2, 6)
    known[page]
    order[page] = substr($3, 7)
}
# rasd-offline's lines are SECOND ORDER PAGE ANSWER.
$1 == "offline" && $5 == "out" { note($4, "yes", "rasd-offline", "") }
$1 == "offline" && $5 == "EHWPOISON" { note($4, "yes", "memory-failure", "") }
$1 == "offline" && $5 == "begun" { note($4, "unknown", "rasd-offline", "no answer yet") }
$1 == "offline" && $5 ~ /^E[A-Z0-9]+$/ && $5 != "EHWPOISON" { note($4, "no", "rasd-offline", $5) }
# A tracer's clock stands before the event's name.
$1 == "trace" && / [0-9]+\.[0-9]+: (ras:)?memory_failure_event: pfn 0x[0-9a-f]+: recovery action for / {
    words = behind("memory_failure_event: pfn ")
    recover(page_of(substr(words, 1, index(words, ":") - 1)), behind(": recovery action for "))
}
$1 == "log" && /kernel: Memory failure: 0x/ {
    words = behind("kernel: Memory failure: ")
    recover(page_of(substr(words, 1, index(words, ":") - 1)), behind(": recovery action for "))
}
# The collector asks for the page, and the kernel says nothing more if it could be taken out.
$1 == "log" && /kernel: RAS: Soft-offlining pfn: 0x/ { note(page_of($NF), "yes", "cec", "") }
$1 == "log" && /kernel: soft offline: 0x[0-9a-f]+: .* failed/ {
    words = behind("kernel: soft offline: ")
    page = page_of(substr(words, 1, index(words, ":") - 1))
    if (by[page] != "cec") next
    out[page] = "no"
    why[page] = substr(words, index(words, ": ") + 2)
    gsub(/ /, "-", why[page])
}
$1 == "memory" && $2 == "HardwareCorrupted:" { size = $3 $4 }
END {
    for (page in known) {
        ordered += page in order
        taken += out[page] == "yes"
        print "page=" page " order=" (page in order ? order[page] : "-") " out=" (out[page] ? out[page] : "unknown") \
            " by=" (by[page] ? by[page] : "-") (why[page] ? " why=" why[page] : "") | "sort"
    }
    if (close("sort")) exit 1
    print "end ordered=" ordered + 0 " out=" taken + 0 " kernel=" (size ? size : "-")
}
