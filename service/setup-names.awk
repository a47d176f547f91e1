# Of service/setup: the names of DIMMs. A DIMM is a place, or where EDAC says no place (another driver, or the firmware's
# ghes_edac) its number among those.

# What a driver calls a DIMM if nobody registered a label: skx_common.c:404, sb_edac.c:1677, pnd2_edac.c:1239 and 1305,
# igen6_edac.c:849 and edac_mc.c:288 of drivers/edac in linux-source-6.1.
function is_registered(label) {
    return label != "" && label !~ /^(CPU_SrcID#|Slice#|Chan#|MC#|mc#)/
}

# Whether each DIMM has a name of the source, and each another one; else says why the source is left out.
function is_whole(what, of,   i, place, seen, why) {
    for (i = 1; i <= places && why == ""; i++) {
        place = place_at[i]
        if (!(place in of) || of[place] == "") why = "they have none for " place
        else if (!is_label(of[place])) why = "no label: " of[place]
        else if (of[place] in seen) why = of[place] " is at " seen[of[place]] " and at " place
        else seen[of[place]] = place
    }
    if (why != "") warn(what " are left out: " why)
    return why == ""
}

function find_board_labels(   i, place) {
    if (labels_from == "" || !places) return
    for (i = 1; i <= places; i++) {
        place = place_at[i]
        by_board[place] = drivers ? label_of_ranks(place) : board_label(edac_number[place], edac_location[place])
    }
    board_known = is_whole("labels of " labels_from, by_board)
}

function find_locators(   place) {
    find_devices()
    for (place in device_at) {
        by_locator[place] = words(locator[device_at[place]])
        locators++
    }
    locators_known = locators && is_whole("SMBIOS' Locators", by_locator)
    if (locators && !locators_known) for (place in device_at) delete device_at[place]
}

# Where an old key names the bank and channel of a place's only DIMM, the key names this DIMM.
function old_name(place,   i, key) {
    for (i = 1; i <= rules; i++) {
        key = "S" socket[place] ".B" rule_bank[i] ".C" channel[place]
        if (key in slot && reach(i, socket[place], channel[place]) == " " place) {
            used[key]
            return slot[key]
        }
    }
    return ""
}

function name_of(place,   old) {
    if (place in slot) { used[place]; how["/etc/rasd/slots"]++; return slot[place] }
    old = old_name(place)
    if (old != "") { how["/etc/rasd/slots"]++; return old }
    if (is_registered(edac_label[place])) {
        if (is_label(words(edac_label[place]))) {
            how["the labels registered with EDAC"]++
            return words(edac_label[place])
        }
        warn("the label that EDAC has for " place " isn't 1 to 32 visible characters, so it is left out: " edac_label[place])
    }
    if (board_known) { how[labels_from]++; return by_board[place] }
    if (locators_known) { how["SMBIOS"]++; return by_locator[place] }
    if (!unnamed++) first_unnamed = place
    return place
}

# Gives each DIMM its name; two DIMMs with one name get their places.
function name_places(   i, place, it, at) {
    for (i = 1; i <= places; i++) name[place_at[i]] = name_of(place_at[i])
    for (i = 1; i <= places; i++) {
        place = place_at[i]
        if (name[place] in at) {
            warn(name[place] " would be the name of " at[name[place]] " and of " place ": both have their places as names")
            twice[at[name[place]]]
            twice[place]
        } else at[name[place]] = place
    }
    for (place in twice) name[place] = place
    for (i = 1; i <= places; i++) {
        place = place_at[i]
        if (!(place in device_at)) {
            it = device_named(place, name[place])
            if (it) device_at[place] = it
        }
        if (place in device_at) is_placed[device_at[place]]
        label[place] = with_serial(name[place], place in device_at ? device_serial[device_at[place]] : "")
    }
    for (it in how) warn(how[it] " DIMMs are named by " it)
    if (unnamed) warn(unnamed " DIMMs have no name but their places: write lines `" first_unnamed " NAME` into /etc/rasd/slots")
}

# A label with the DIMM's serial number, so that a replaced DIMM gets another one.
function with_serial(text, serial) {
    if (serials == "no" || serial == "" || length(text) + 1 + length(serial) > 32) return text
    return text "#" serial
}

# Four digits for a text, to tell replaced DIMMs where their serial numbers have no room.
function digest(text,   i, sum) {
    sum = 5381
    for (i = 1; i <= length(text); i++) sum = (sum * 33 + index(VISIBLE, substr(text, i, 1))) % 65521
    return sprintf("%04x", sum)
}

# The label of all DIMMs that may be meant: their labels, or if these take more than 32 bytes their names or places.
function label_of_set(set,   of, count, i, all, names, sums) {
    count = split(set, of, " ")
    if (count == 1) return label[of[1]]
    for (i = 1; i <= count; i++) {
        all = all (i > 1 ? "/" : "") label[of[i]]
        names = names (i > 1 ? "/" : "") name[of[i]]
        if (label[of[i]] != name[of[i]]) sums = sums label[of[i]]
    }
    if (is_label(all)) return all
    if (sums != "") sums = "~" digest(sums)
    return is_label(names sums) ? names sums : places_of_set(of, count) sums
}

# The places of some DIMMs in one word, such as S0.M0/1.C2.D0/1.
function places_of_set(of, count,   text) {
    text = "S" each(of, count, socket) ".M" each(of, count, controller) ".C" each(of, count, channel) ".D" each(of, count, slot_of)
    return length(text) <= 27 ? text : "S" each(of, count, socket)
}

# The numbers that some DIMMs have, each once, in order.
function each(of, count, number,   i, n, here, text) {
    for (i = 1; i <= count; i++) here[number[of[i]]]
    for (n = 0; n < 256; n++) if (n in here) text = text (text == "" ? "" : "/") n
    return text
}
