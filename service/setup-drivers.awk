# Of service/setup: the DIMMs of a machine on which each event of EDAC's drivers is an error (service/processor.bash).
#
# The event has the number of a controller and those of dimm_location, ` (mc:0 location:2:1:-1 `: include/ras/ras_event.h lines
# 147 to 157 and drivers/edac/edac_mc.c lines 929 to 934 of linux-source-6.1 6.1.192-3. rasd takes the first three for node, card
# and module, so a line `place` leads an error to its DIMM.
#
# amd64_edac says csrow, which is a chip select, and channel, and has a folder for each (amd64_edac.c lines 3606 to 3613 and 4143
# to 4154). The chip selects 0 and 1 of a channel are one DIMM, 2 and 3 another (lines 1401 to 1411).

# Takes what EDAC has a folder for. Returns whether its location can be read.
function take_rank(number, location, capacity, text,   of, d, c, place, row_text) {
    if (location !~ /^(csrow [0-9]+ channel [0-9]+|channel [0-9]+ slot [0-9]+) *$/ || number !~ /^[0-9]+$/) return 0
    split(location, of, " ")
    if (number > 255 || of[2] > 127 || of[4] > 127) return 0
    c = of[1] == "csrow" ? of[4] : of[2]
    d = of[1] == "csrow" ? int(of[2] / 2) : of[4]
    place = "M" number + 0 ".C" c + 0 ".D" d + 0
    row_text = number + 0 " " of[2] + 0 " " of[4] + 0
    if (row_text in is_rank) { warn("EDAC has two folders for " place ": " text " is left out"); return 1 }
    is_rank[row_text]
    if (!(place in is_place)) add_place(place, 255, number + 0, c + 0, d + 0)
    size[place] += capacity
    if (is_registered(text)) {
        if (!(place in edac_label)) edac_label[place] = text
        else if (edac_label[place] != text) edac_differs[place] = edac_differs[place] " " text
    }
    rank_place[++ranks] = place
    rank_number[ranks] = number + 0
    rank_location[ranks] = of[1] " " of[2] + 0 " " of[3] " " of[4] + 0
    rank_row[ranks] = row_text
    rank_label[ranks] = text
    return 1
}

# The ranks of a DIMM have one label, or none counts.
function leave_different(   place) {
    for (place in edac_differs) {
        warn("EDAC has several labels for " place ", so they are left out: " edac_label[place] edac_differs[place])
        delete edac_label[place]
    }
}

# The label that a file has for a DIMM: a file may name each of its ranks, or one. Two labels are none.
function label_of_ranks(place,   i, it, found) {
    for (i = 1; i <= ranks; i++) {
        if (rank_place[i] != place) continue
        it = board_label(rank_number[i], rank_location[i])
        if (it == "" || it == found) continue
        if (found != "") { warn("two labels of " labels_from " are for " place ": " found " and " it); return "" }
        found = it
    }
    return found
}

# A run takes at most 4,096 lines that describe the machine, and the owner may have some.
function add_ranks(   i, left) {
    for (i = 1; i <= ranks; i++) {
        add_slot(label[rank_place[i]], rank_label[i])
        if (rows < 4000) row("place " label[rank_place[i]] " " rank_row[i])
        else left++
    }
    if (left) warn("rows are too many: " left " of " ranks " ranks have none, so their errors have no label")
}
