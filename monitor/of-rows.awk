# Prints metrics of labels that the machine description has, and what is known of these modules.
#
# usage: awk [-v all=1] -f of-rows.awk ROWS MODULES METRICS
#
# ROWS are the lines that describe the machine, MODULES what `rasd report modules` prints, METRICS what `rasd report metrics`
# prints. Samples of labels that ROWS lack are left out, unless `all` is 1. Labels are compared as they are printed, with a
# backslash before each backslash and each quotation mark. Each module with errors gets a sample of rasd_module_info: its slot,
# and where SMBIOS has them its serial number, size and part number, and since when it has the errors for which it is to be
# replaced.
function printed(text) {
    gsub(/[\\"]/, "\\\\&", text)
    return text
}
function known(text) { return text == "-" ? "" : text }
function part_of(list, text, seen) { return text == "" || (text in seen) ? list : list (list == "" ? "" : " or ") text }

FILENAME == ARGV[1] {
    if (split($0, of, "\t") == 7 && of[1] == "# dimm") {
        slot[of[2]] = of[3]; serial[of[2]] = known(of[4]); part[of[2]] = known(of[6])
        size[of[2]] = of[5] ~ /^[0-9]+$/ ? of[5] % 1024 ? of[5] " MB" : of[5] / 1024 " GB" : ""
    } else if (split($0, of, " ") > 1 && of[1] == "module") here[printed(of[2])] = of[2]
    next
}
FILENAME == ARGV[2] {
    if ($1 == "module" && $3 == "state=replace") since[printed(substr($2, 7))] = substr($NF, 7)
    next
}
/^# / { print; next }
match($0, /[{]label="([^\\"]|\\.)*"/) {
    label = substr($0, RSTART + 8, RLENGTH - 9)
    if (!all && label != "-" && !(label in here)) next
    if (label != "-") modules[label]
}
{ print }
# A label of several DIMMs has theirs with a slash between.
function print_info(label,   plain, count, of, i, it, slots, serials, sizes, parts, seen_slot, seen_serial, seen_size, seen_part) {
    plain = label in here ? here[label] : label
    count = plain in slot ? 1 : split(plain, of, "/")
    if (plain in slot) of[1] = plain
    for (i = 1; i <= count; i++) {
        it = of[i]
        if (!(it in slot)) { slots = plain; sub(/[#~].*/, "", slots); serials = sizes = parts = ""; break }
        slots = part_of(slots, slot[it], seen_slot); seen_slot[slot[it]]
        serials = part_of(serials, serial[it], seen_serial); seen_serial[serial[it]]
        sizes = part_of(sizes, size[it], seen_size); seen_size[size[it]]
        parts = part_of(parts, part[it], seen_part); seen_part[part[it]]
    }
    printf "rasd_module_info{label=\"%s\",slot=\"%s\",serial=\"%s\",size=\"%s\",part=\"%s\",since=\"%s\"} 1\n",
        label, printed(slots), printed(serials), sizes, printed(parts), when(label)
}
# A second since 1970 as a date and a time, UTC. mawk 1.3.4 and gawk have strftime; its third word is UTC.
function when(label) {
    return label in since && since[label] ~ /^[0-9]+$/ ? strftime("%Y-%m-%d %H:%M UTC", since[label], 1) : ""
}
END {
    print "# HELP rasd_module_info What is known of a module that had errors."
    print "# TYPE rasd_module_info gauge"
    for (label in modules) print_info(label)
}
