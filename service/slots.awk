# Prints a picture of memory slots from lines `# dimm`, then lines of `rasd report counts` and `rasd report modules`.
function word(name,   i) {
    for (i = 2; i <= NF; i++) if (index($i, name "=") == 1) return substr($i, length(name) + 2)
    return ""
}
/^# dimm\t/ {
    split($0, of, "\t")
    dimm[++dimms] = of[2]
    name[of[2]] = of[3]
    said[of[2]] = (of[4] == "-" ? "" : "serial " of[4]) (of[5] == "-" ? "" : ", " (of[5] % 1024 ? of[5] " MB" : of[5] / 1024 " GB"))
    if (of[6] != "-") said[of[2]] = said[of[2]] ", part " of[6]
    sub(/^, /, "", said[of[2]])
    place[of[2]] = of[7]
    next
}
$1 == "counts" {
    label = word("label")
    order[++labels] = label
    good[label] = word("CE") + word("corrected")
    bad[label] = word("UCNA") + word("SRAO") + word("SRAR") + word("UC") + word("recoverable") + word("fatal")
}
$1 == "module" && word("state") == "replace" { replace[word("label")] }

function errors(label) {
    return (good[label] ? good[label] " corrected" : "") (good[label] && bad[label] ? ", " : "") \
        (bad[label] ? bad[label] " uncorrected" : "")
}
# The DIMMs of a label in words: A1 (serial 1A0C, 32 GB), or for several: A1 or A7.
function in_words(label,   count, of, i, text) {
    if (label in name) return name[label] (said[label] == "" ? "" : " (" said[label] ")")
    sub(/~.*/, "", label)
    count = split(label, of, "/")
    for (i = 1; i <= count; i++) {
        sub(/#.*/, "", of[i])
        text = text (i > 1 ? " or " : "") of[i]
    }
    return text
}
function sign(label) { return label in replace ? "#" : bad[label] ? "!" : good[label] ? "." : " " }
# A slot's own errors, or else those of several slots that it is one of.
function mark(label,   it) {
    it = sign(label)
    if (it != " ") return "[" it (it == "." ? " " : it) "]"
    return name[label] in maybe ? "[" maybe[name[label]] "?]" : "[  ]"
}
# Notes for each slot of a label of several the worst that it may have.
function take_several(label,   count, of, i) {
    sub(/~.*/, "", label)
    count = split(label, of, "/")
    for (i = 1; i <= count; i++) {
        sub(/#.*/, "", of[i])
        if (index(" .!#", sign(whole)) > index(" .!#", maybe[of[i]])) maybe[of[i]] = sign(whole)
    }
}
function is_several(label) { return !(label in name) && label ~ /[\/~]/ }

END {
    for (i = 1; i <= labels; i++) if (is_several(whole = order[i]) && errors(whole)) take_several(whole)
    for (i = 1; i <= labels; i++) if (order[i] in replace)
        print "REPLACE " in_words(order[i]) ": " errors(order[i]) (is_several(order[i]) ? ": the kernel didn't say which" : "")
    for (i = 1; i <= dimms; i++) {
        if (place[dimm[i]] == "-" && !errors(dimm[i])) { quiet++; continue }
        at = place[dimm[i]]
        sub(/[.].*/, "", at)
        if (at != "-" && at != last) print (at ~ /^S/ ? "socket " : "controller ") substr(at, 2)
        last = at
        printf "  %s %-20s %-16s %s\n", mark(dimm[i]), name[dimm[i]], place[dimm[i]] == name[dimm[i]] ? "" : place[dimm[i]], errors(dimm[i])
    }
    if (quiet) print "  " quiet " DIMMs that only SMBIOS names had no error"
    for (i = 1; i <= labels; i++) if (!(order[i] in name) && errors(order[i]) && !(order[i] in replace)) {
        if (order[i] == "-") print "  of no known DIMM: " errors("-")
        else print "  " in_words(order[i]) ": " errors(order[i]) (is_several(order[i]) ? ": the kernel didn't say which" : "")
    }
    if (!dimms) print "no DIMM is known: rasd-doctor says what is missing"
    print "[##] replace  [!!] uncorrected errors  [. ] corrected errors  [.?] it, or another slot"
}
