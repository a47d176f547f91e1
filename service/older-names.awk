# Passes on lines for rasd, without errors that have no counter of their own, and says which: usage: awk -v boot=N -f older-names.awk
$1 == "bank" && length($6) > 18 {
    print "earlier-lines: an older version read boot " boot ", so left out: " $0 > "/dev/stderr"
    next
}
{ print }
