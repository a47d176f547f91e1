# Prints what is kept of errors; service/evidence calls it.
#
# usage: awk -v module=LABEL -f evidence.awk NAMES TRACED KEPT..
#
# NAMES are wanted, TRACED has ` CPU: N PPIN: NUMBER` for what the kernel's traces say, KEPT are the files of evidence: the
# lines that rasd read before the lines that rasd printed. With a LABEL, those of the names that have it in a line `log`. Status
# 1 if something of a name isn't kept.
function plain(number) {
    sub(/^0+/, "", number)
    return number == "" ? "0" : number
}
function padded(number) {
    while (length(number) < 16) number = "0" number
    return tolower(number)
}
# mawk 1.3.4 and gawk have strftime; its third word is UTC.
function when(second) { return length(second) > 11 ? "second " second : strftime("%Y-%m-%d %H:%M:%S UTC", second, 1) }
function row(heading, text) { return sprintf("  %-16s %s\n", heading, text) }
# Takes a machine check, from its word `boot` on. The first line of a name is the one that counted.
function take_bank(at,   name, cpu, bank, socket) {
    cpu = plain($(at + 2)); bank = plain($(at + 3))
    name = "bank=" plain($at) "/" cpu "/" bank "/" plain($(at + 4))
    if (!(name in wanted) || name in given) return
    socket = cpu in sockets ? sockets[cpu] : ""
    read_at[name] = NR
    given[name] = row("time", when($(at + 1))) \
        row("place", "boot " plain($at) ", CPU " cpu (socket == "" ? "" : ", socket " socket) ", bank " bank ", time stamp counter " plain($(at + 4))) \
        row("processor", socket in ppins ? "PPIN " ppins[socket] : cpu in traced ? "PPIN " traced[cpu] ", by traces" : "PPIN unknown") \
        row("IA32_MCG_CAP", padded($(at + 5))) row("IA32_MCG_STATUS", padded($(at + 6))) \
        row("IA32_MC" bank "_STATUS", padded($(at + 7))) row("IA32_MC" bank "_ADDR", padded($(at + 8))) \
        row("IA32_MC" bank "_MISC", padded($(at + 9)))
}
function take_other(name, second) {
    if (!(name in wanted) || name in given) return
    read_at[name] = NR
    given[name] = (second == "" ? "" : row("time", when(second))) row("read", $0)
}
# What SMBIOS said of a DIMM when the line was read, and otherwise what its label says.
function dimm_of(label, line,   n, of) {
    for (n = dimms[label]; n > 0 && dimm_at[label, n] > line; n--) continue
    if (n < 1) return (split(label, of, "#") > 1) ? of[1] " (serial number " of[2] ")" : label
    split(dimm[label, n], of, "\t")
    return of[3] " (" (of[4] == "-" ? "serial number unknown" : "serial number " of[4]) \
        (of[5] == "-" ? "" : ", " (of[5] % 1024 ? of[5] " MB" : of[5] / 1024 " GB")) (of[6] == "-" ? "" : ", part " of[6]) ")"
}
function modules_of(label, line,   of, count, n, text) {
    if (label == "-") return "no module is known"
    if (label in dimms) return dimm_of(label, line)
    count = split(label, of, "/")
    for (n = 1; n <= count; n++) text = text (n > 1 ? " or " : "") dimm_of(of[n], line)
    return text (count > 1 ? ": the kernel didn't say which" : "")
}
function print_name(name,   lines, count, n, line, label) {
    print name
    printf "%s", given[name]
    count = split(logged[name], lines, "\n")
    for (n = 1; n < count; n++) {
        line = lines[n]
        label = match(line, / label=[^ ]+/) ? substr(line, RSTART + 7, RLENGTH - 7) : "-"
        printf "%s%s", row("module", modules_of(label, read_at[name])), row("rasd", line)
    }
}

FILENAME == ARGV[1] { if (NF && !($1 in wanted)) { wanted[$1]; order[++names] = $1 } next }
# A CPU with two numbers had its processor replaced, and an earlier error may be of either.
FILENAME == ARGV[2] {
    if (NF != 4 || $4 ~ /^0*$/ || seen[$2, $4]++) next
    others = $2 in traced ? traced[$2] " or " : ""
    traced[$2] = others $4
    next
}
$1 == "bank" { take_bank(2); next }
$1 == "panic" { take_bank(3); next }
$1 == "ghes" { take_other("block=" plain($2) "/" plain($4) "/" plain($5), $3); next }
$1 == "bert" { take_other("bert=" plain($2), $3); next }
$1 == "put" { take_other("record=" padded($2), ""); next }
$1 == "cpu" { sockets[plain($2)] = plain($3); next }
/^# ppin / { ppins[$3] = $4; next }
/^# dimm\t/ { split($0, part, "\t"); dimm[part[2], ++dimms[part[2]]] = $0; dimm_at[part[2], dimms[part[2]]] = NR; next }
$1 == "log" && $2 in wanted { logged[$2] = logged[$2] $0 "\n" }
END {
    for (n = 1; n <= names; n++) {
        name = order[n]
        if (module != "" && !(name in logged)) { unknown++; continue }
        if (module != "" && !index(logged[name], " label=" module " ")) continue
        if (name in given || name in logged) { print_name(name); printed++ }
        if (name in given) continue
        print "evidence: " name ": no line of its report was kept" > "/dev/stderr"
        status = 1
    }
    if (module != "" && !printed) { print "evidence: no error of " module " is kept" > "/dev/stderr"; status = 1 }
    if (unknown) { print "evidence: of " unknown " names no line of rasd is kept, so they may be the module\047s too" > "/dev/stderr"; status = 1 }
    exit status + 0
}
