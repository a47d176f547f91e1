# Prints the rows `# slot NAME LABEL` of files that describe the machine, without those whose NAME has no row `module`, and none
# if a row is a range: rasd rejects a range of another label, or over another range, and the service would end.
# usage: awk -f slot-rows.awk FILE..
/^module / { is_module[$2] }
/^range / { has_range = 1 }
/^# slot [^ ]+ / { slot[++slots] = $0; name[slots] = $3 }
END {
    if (has_range && slots) print "feed: the rows have ranges, so no error gets the DIMM that the kernel names for it" > "/dev/stderr"
    for (i = 1; i <= slots && !has_range; i++)
        if (name[i] in is_module) print slot[i]
        else print "feed: no row has the label " name[i] ", so no error gets it: " substr(slot[i], 1, 300) > "/dev/stderr"
}
