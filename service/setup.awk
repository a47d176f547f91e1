# The program of service/setup, which says what it does. It prints
#   cpu, module, place                lines for rasd
#   # dimm LABEL NAME SERIAL SIZE PART PLACE   with tabs between: what is known of a DIMM, `-` for nothing; SIZE in MB
#   # slot LABEL TEXT                 the label of the DIMM that the kernel calls TEXT: EDAC's label; what the firmware's reports
#                                     have after `DIMM location: `; or `DMI handle: 0x1107`. The filters of log and trace read them
BEGIN {
    FS = "\t"
    for (code = 33; code < 127; code++) VISIBLE = VISIBLE sprintf("%c", code)
}
function warn(text) { print "setup: " text > "/dev/stderr" }
function is_label(text) { return text ~ /^[!-~]+$/ && length(text) <= 32 && text != "-" }
function trimmed(text) { gsub(/^[ \t]+|[ \t]+$/, "", text); return text }
function words(text) { gsub(/[ \t]+/, "_", text); return text }
function place_of(s, m, c, d) { return "S" s ".M" m ".C" c ".D" d }
function row(text) { lines[++rows] = text }
# Returns the number after the words of a pattern, or nothing.
function number_behind(text, pattern) {
    if (!match(text, pattern "[0-9]+")) return ""
    text = substr(text, RSTART, RLENGTH)
    sub(/.*[^0-9]/, "", text)
    return text + 0
}

{ text = substr($0, length($1) + 2) }
$1 == "slots" { take_slot(text) }
$1 == "cpus" { take_cpu(text) }
$1 == "table" { take_rule(text) }
$1 == "edac" { take_dimm($2, $3, $4, $5 + 0, $6, $7) }
$1 == "memory" { take_memory(text) }
$1 == "board" { take_board($2, $3) }
$1 == "file" { take_file($2, $3) }
$1 == "labels" { take_label(text) }

function take_slot(text,   of, count) {
    sub(/\r$/, "", text)
    count = split(trimmed(text), of, /[ \t]+/)
    if (count == 0 || of[1] ~ /^#/) return
    if (count != 2 || !is_label(of[2])) warn("not two labels: " text)
    else if (of[1] in slot) warn(of[1] " is named twice: " of[2] " is left out")
    else slot[of[1]] = of[2]
}
function take_cpu(text,   of, s) {
    split(text, of, ",")
    # A machine that names no socket has one.
    s = of[2] ~ /^[0-9]+$/ ? of[2] + 0 : 0
    if (s > 255) { if (!strange++) warn("CPU " of[1] " is in socket " s ": rasd knows sockets up to 255"); return }
    row("cpu " of[1] " " s)
    if (!(s in seen)) {
        seen[s]
        sockets[++count] = s
    }
}
function take_rule(text,   of, first, last) {
    split(text, of, " ")
    first = of[2] == "*" ? 0 : of[2]
    last = of[2] == "*" ? banks - 1 : of[2]
    for (; first <= last; first++) {
        rule_bank[++rules] = first + 0
        rule_controller[rules] = of[3]
        rule_channel[rules] = of[4]
    }
}
# Takes a DIMM of EDAC. The label has the socket's number, mc_name the node's (skx_common.c:490 of linux-source-6.1), so the
# label's counts.
function take_dimm(number, name, location, megabytes, mode, text,   of, s, m, place) {
    text = trimmed(text)
    if (drivers && take_rank(number, location, megabytes, text)) return
    if (drivers && name != "ghes_edac")
        warn("EDAC's location of " text " can't be read, so its errors have no label: mc" number " " trimmed(location))
    if (text in edac_twice) edac_twice[text]++; else edac_twice[text] = 1
    if (split(trimmed(location), of, " ") == 4 && of[1] == "channel" && of[3] == "slot" && text !~ /_HBMC#/) {
        s = number_behind(text, "^CPU_SrcID#")
        m = number_behind(text, "^CPU_SrcID#[0-9]+_(MC|Ha)#")
        if (s == "" || m == "") {
            s = number_behind(name, "(Socket|SrcID)#")
            m = number_behind(name, "(IMC|Ha)#")
        }
        if (s == "" && count == 1) s = sockets[1]
        if (m == "" && s != "" && rules == 0) m = number + 0
    }
    if (s != "" && m != "" && (s in seen)) {
        place = place_of(s, m, of[2] + 0, of[4] + 0)
        if (place in is_place) return warn("EDAC has two DIMMs at " place ": " text " is left out")
        add_place(place, s, m, of[2] + 0, of[4] + 0)
        size[place] = megabytes
        edac_label[place] = text
        edac_number[place] = number + 0
        edac_location[place] = trimmed(location)
        if (mode == "S8ECD8ED") lockstep[s "," m]
    } else {
        other_label[++others] = text
        other_location[others] = "mc" number " " trimmed(location)
        other_channel[others] = number_behind(location, "channel ")
        other_socket[others] = number_behind(name, "(Socket|SrcID)#")
        if (other_socket[others] == "" && count == 1) other_socket[others] = sockets[1]
    }
}
function add_place(place, s, m, c, d,   i) {
    is_place[place]
    socket[place] = s
    controller[place] = m
    channel[place] = c
    slot_of[place] = d
    rank[place] = ((s * 256 + m) * 256 + c) * 256 + d
    for (i = ++places; i > 1 && rank[place_at[i - 1]] > rank[place]; i--) place_at[i] = place_at[i - 1]
    place_at[i] = place
}
# Without EDAC's DIMMs, places are those that SMBIOS' Bank Locators say, and those in the table of slots.
function find_places(   place, of) {
    leave_different()
    if (!drivers) find_locators()
    if (places) return
    for (place in device_at) add_said(place)
    if (!places) for (place in slot) if (place ~ /^S[0-9]+[.]M[0-9]+[.]C[0-9]+[.]D[0-9]+$/) add_said(place)
    if (places) warn("EDAC names no DIMM: is its driver loaded? " places " places are those of " \
        (locators ? "SMBIOS" : "/etc/rasd/slots"))
    else if (!others) warn("EDAC names no DIMM: is its driver loaded?")
}
function add_said(place,   of) {
    split(place, of, /[SMCD.]+/)
    if (of[2] in seen) add_place(place, of[2] + 0, of[3] + 0, of[4] + 0, of[5] + 0)
    else warn(place ": there is no socket " of[2])
}

# The DIMMs that an error of the table's row i on this channel may mean, each after a blank. In lockstep the other channel of
# the pair too (get_memory_error_data_from_mce in sb_edac.c of linux-source-6.1).
function reach(i, s, c,   k, place, set) {
    if (rule_channel[i] != "c") c = rule_channel[i] + 0
    for (k = 1; k <= places; k++) {
        place = place_at[k]
        if (socket[place] != s || rule_controller[i] != "*" && controller[place] != rule_controller[i]) continue
        if (channel[place] == c || (s "," controller[place]) in lockstep && channel[place] == (c + 1) % 4) set = set " " place
    }
    return set
}

# Rows of the banks in the table. A channel on which nobody knows a DIMM has a label too: its place.
function add_known_banks(   s, i, c, m, set, key, text) {
    for (s = 1; s <= count; s++) for (i = 1; i <= rules; i++) for (c = 0; c < 4; c++) {
        set = reach(i, sockets[s], c)
        key = "S" sockets[s] ".B" rule_bank[i] ".C" c
        m = rule_controller[i] == "*" ? "" : ".M" rule_controller[i]
        text = "S" sockets[s] m ".C" (rule_channel[i] == "c" ? c : rule_channel[i])
        if (set != "") text = label_of_set(set)
        if (key in slot && !(key in used)) { text = slot[key]; used[key] }
        row("module " text " " sockets[s] " " rule_bank[i] " " c)
    }
}
# Rows of each bank and channel, where nobody knows which controller a bank serves. A channel has a DIMM's label if it is the
# only DIMM of that channel in its socket.
function add_unknown_banks(   channels, room, s, b, c, i, key, text, only, many) {
    for (i = 1; i <= places; i++) {
        key = socket[place_at[i]] "," channel[place_at[i]]
        if (key in only) many[key]
        only[key] = label[place_at[i]]
    }
    for (i = 1; i <= others; i++) {
        key = other_socket[i] "," other_channel[i]
        if (key in only) many[key]
        only[key] = other_name[i]
    }
    for (key in many) delete only[key]
    # A run accepts at most 4,096 of these lines, and lines `range` for DIMMs that the kernel names have to have room too.
    room = saids ? 2500 : 4000
    for (channels = 15; channels > 1 && rows + count * banks * channels > room; channels--) continue
    if (channels < 15) warn("rows for 15 channels are too many: there are some for " channels)
    for (s = 1; s <= count; s++) for (b = 0; b < banks; b++) for (c = 0; c < channels; c++) {
        key = "S" sockets[s] ".B" b ".C" c
        if (key in slot) { used[key]; text = slot[key] }
        else text = (sockets[s] "," c) in only ? only[sockets[s] "," c] : key
        row("module " text " " sockets[s] " " b " " c)
    }
}

# DIMMs of EDAC without a place: of a driver with other layers, or of ghes_edac, whose labels are SMBIOS' Bank Locator and
# Locator (ghes_edac.c:110).
function name_others(   i, k) {
    for (i = 1; i <= others; i++) {
        if (other_label[i] == "") other_label[i] = other_location[i]
        other_name[i] = words(other_label[i])
        for (k = 1; k <= devices; k++)
            if (device_here[k] && !(k in is_placed) && words(said_of(k)) == words(other_label[i])) {
                is_other[k] = i
                other_name[i] = with_serial(device_name(k), device_serial[k])
                break
            }
        if (!is_label(other_name[i])) {
            warn("no label: " other_label[i] ": errors of this DIMM have none")
            other_name[i] = ""
        } else if (edac_twice[other_label[i]] > 1) {
            warn("EDAC has " edac_twice[other_label[i]] " DIMMs that it calls " other_label[i] ": they have one label")
            edac_twice[other_label[i]] = 1
        }
    }
}
# What the kernel calls a device of SMBIOS: its Bank Locator and its Locator.
function said_of(k) { return trimmed(bank_locator[k] " " locator[k]) }
# A device's name: its Locator, with the Bank Locator if another device has this Locator too.
function device_name(k,   i, is_twice) {
    for (i = 1; i <= devices; i++) if (i != k && locator[i] == locator[k]) is_twice = 1
    return words(is_twice ? said_of(k) : locator[k])
}

# Gives a label the row by which lines `range` and `place` may name it. The channel means nothing: errors of bank 255, which
# Linux makes of the firmware's reports, have no channel.
function add_own(text, s,   n) {
    if (text == "" || text in has_own) return
    has_own[text]
    n = own[s]++ % 15
    row("module " text " " s " 255 " n)
}
function known(text) { return text == "" || text == 0 ? "-" : text }
function add_dimm(text, name, k, place, megabytes) {
    if (text == "" || text in is_told) return
    is_told[text]
    comments[++told] = "# dimm\t" text "\t" name "\t" known(k ? device_serial[k] : "") "\t" \
        known(megabytes ? megabytes : k ? device_size[k] : 0) "\t" known(k ? device_part[k] : "") "\t" known(place)
}
# What the kernel calls a DIMM leads to one label, or to none.
function add_slot(text, said) {
    if (text == "" || said !~ /^[ -~]+$/) return
    if (said in leads && leads[said] != text) { if (leads[said] != "") warn("the kernel calls two DIMMs " said); leads[said] = "" }
    else if (!(said in leads)) { leads[said] = text; order[++saids] = said }
}
function add_modules(   i, k, place, text) {
    for (i = 1; i <= places; i++) {
        place = place_at[i]
        k = place in device_at ? device_at[place] : 0
        add_own(label[place], socket[place])
        add_dimm(label[place], name[place], k, place, size[place])
        add_slot(label[place], edac_label[place])
        if (k) add_device(k, label[place])
    }
    for (i = 1; i <= others; i++) {
        add_own(other_name[i], 255)
        for (k = devices; k > 0 && !(k in is_other && is_other[k] == i); k--) continue
        add_dimm(other_name[i], k ? device_name(k) : other_name[i], k, "", 0)
        add_slot(other_name[i], other_label[i])
        if (k) add_device(k, other_name[i])
    }
    # DIMMs that only SMBIOS knows: the firmware's reports name them.
    for (k = 1; k <= devices; k++) {
        if (!device_here[k] || k in is_placed || k in is_other) continue
        if (locator[k] == "") { warn("SMBIOS' device " handle[k] " has no Locator, so nothing names it"); continue }
        text = with_serial(device_name(k), device_serial[k])
        if (!is_label(text)) { warn("no label: " locator[k] ": the firmware's errors of this DIMM have none"); continue }
        add_own(text, 255)
        add_dimm(text, device_name(k), k, "", 0)
        add_device(k, text)
    }
}
function add_device(k, text) {
    add_slot(text, said_of(k))
    add_slot(text, trimmed(bank_text[k] " " locator[k]))
    add_slot(text, locator[k])
    add_slot(text, "DMI handle: " tolower(handle[k]))
}
function print_slots(   i, shown) {
    for (i = 1; i <= saids; i++) {
        if (leads[order[i]] == "") continue
        # The filter takes at most 1,024.
        if (++shown > 1024) return warn("the kernel has more than 1,024 names of DIMMs: the rest are left out")
        print "# slot " leads[order[i]] " " order[i]
    }
}
END {
    find_places()
    find_board_labels()
    name_places()
    name_others()
    add_modules()
    if (rules) add_known_banks(); else if (banks) add_unknown_banks()
    add_ranks()
    for (key in slot) if (!(key in used)) warn(key " is in the table of slots, but there is no such row or place")
    for (i = 1; i <= rows; i++) print lines[i]
    for (i = 1; i <= told; i++) print comments[i]
    print_slots()
}
