# Of service/setup: what `dmidecode -t 17` says of the machine's memory devices. Numbers of devices begin at 1.

# A size as dmidecode prints it, in MB: 0 for a slot without a DIMM or a size that isn't known.
function megabytes(text,   of) {
    split(text, of, " ")
    if (of[1] !~ /^[0-9]+$/) return 0
    return of[2] == "TB" ? of[1] * 1048576 : of[2] == "GB" ? of[1] * 1024 : of[2] == "MB" ? of[1] + 0 : 0
}

# A serial number, or nothing where the firmware has only a word or a filler for it: its last 8 characters.
function serial_of(text) {
    if (text !~ /^[0-9A-Za-z]+$/ || text !~ /[0-9]/ || text ~ /^(0x)?(0+|[Ff]+)$/) return ""
    return length(text) > 8 ? substr(text, length(text) - 7) : text
}

# The place that a Bank Locator says, or nothing. P0_Node1_Channel2_Dimm0 has socket, controller, channel and slot; so has
# NODE 1 CHANNEL 2 DIMM 0, of machines with one controller a socket.
function place_said(text,   of) {
    if (text ~ /^P[0-9]+_Node[0-9]+_Channel[0-9]+_Dimm[0-9]+$/) split(substr(text, 2), of, /_[A-Za-z]+/)
    else if (text ~ /^NODE [0-9]+ CHANNEL [0-9]+ DIMM [0-9]+$/) {
        split(text, of, " ")
        of[1] = of[2]; of[2] = 0; of[3] = of[4]; of[4] = of[6]
    } else return ""
    return place_of(of[1] + 0, of[2] + 0, of[3] + 0, of[4] + 0)
}

function take_memory(text,   at, name, value, of) {
    if (text ~ /^Handle /) {
        in_device = text ~ /DMI type 17,/
        if (in_device) {
            split(text, of, /[ ,]+/)
            handle[++devices] = of[2]
        }
        return
    }
    sub(/^[ \t]+/, "", text)
    at = index(text, ":")
    if (!in_device || !at) return
    name = substr(text, 1, at - 1)
    value = trimmed(substr(text, at + 1))
    if (name == "Bank Locator") bank_text[devices] = value
    if (value ~ /^(Not Specified|Unknown|None|N\/A|NO DIMM)$/ && name != "Size") value = ""
    if (name == "Size") {
        device_size[devices] = megabytes(value)
        device_here[devices] = value !~ /^(No Module Installed|Not Installed|None)?$/
    } else if (name == "Locator") locator[devices] = value
    else if (name == "Bank Locator") bank_locator[devices] = value
    else if (name == "Serial Number") device_serial[devices] = serial_of(value)
    else if (name == "Part Number") device_part[devices] = value
}

# Finds which device is at which place, by the Bank Locators: all DIMMs or none, since one that contradicts shows that the
# numbers mean something else.
function find_devices(   i, place, why, said) {
    for (i = 1; i <= devices && why == ""; i++) {
        if (!device_here[i]) continue
        place = place_said(bank_locator[i])
        if (place == "") { unsaid++; continue }
        if (place in device_at) why = "two DIMMs are at " place
        else if (places && !(place in is_place)) why = "EDAC has no DIMM at " place " (" locator[i] ")"
        else if (places && contradict(size[place], device_size[i])) why = "EDAC has another size at " place
        device_at[place] = i
        said++
    }
    if (why == "" && said && unsaid) why = unsaid " DIMMs have a Bank Locator of another form"
    if (why == "" && said && places && said != places) why = "EDAC has " places " DIMMs and SMBIOS " said
    if (why == "") return
    warn("SMBIOS' Bank Locators are left out: " why)
    for (place in device_at) delete device_at[place]
}

function contradict(one, other) { return one && other && one != other }

# Finds the device of a DIMM by its name, where the Bank Locators say nothing: the one device with this Locator.
function device_named(place, name,   i, found) {
    for (i = 1; i <= devices; i++) {
        if (!device_here[i] || words(locator[i]) != name) continue
        if (found) return 0
        found = i
    }
    if (found && contradict(size[place], device_size[found])) {
        warn("SMBIOS has another size for " name " than EDAC for " place ", so its serial number is left out")
        return 0
    }
    return found
}
