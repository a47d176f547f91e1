# Of service/setup: labels of DIMMs by mainboard, from files of rasdaemon (/etc/ras/dimm_labels.d) and edac-utils
# (/etc/edac/labels.db). As ras-mc-ctl and edac-ctl read them: a line `Vendor: V`, then `Model: M, ..` or (rasdaemon's)
# `Product: P, ..`, then lines of `LABEL: <mc>.<layer>.<layer>, ..; ..`. The layers are those of dimm_location in rasdaemon's
# files; in edac-utils' they are csrow and channel, and a driver of channels and slots has the slot as csrow
# (edac_mc_alloc_dimms in drivers/edac/edac_mc.c of linux-source-6.1).

function take_board(name, text) { board[name] = tolower(trimmed(text)) }
function take_file(form, name) { file_form = form; file_name = name; file_vendor = ""; is_ours = 0 }

# Whether a list of names, with commas or semicolons between, has this one.
function has_name(list, name,   of, i, count) {
    if (name == "") return 0
    count = split(tolower(list), of, /[,;]/)
    for (i = 1; i <= count; i++) if (trimmed(of[i]) == name) return 1
    return 0
}

function take_label(text,   lower, of, i, count) {
    text = trimmed(text)
    lower = tolower(text)
    if (text == "" || text ~ /^#/) return
    if (match(lower, /^vendor[ \t]*:/)) {
        file_vendor = trimmed(substr(lower, RLENGTH + 1))
        is_ours = 0
    } else if (match(lower, /^(model|board)[ \t]*:/))
        is_ours = file_vendor == board["board_vendor"] && has_name(substr(text, RLENGTH + 1), board["board_name"])
    else if (file_form == "ras" && match(lower, /^product[ \t]*:/))
        is_ours = file_vendor == board["board_vendor"] && has_name(substr(text, RLENGTH + 1), board["product_name"])
    else if (is_ours) {
        count = split(text, of, /;/)
        for (i = 1; i <= count; i++) if (trimmed(of[i]) != "") take_targets(trimmed(of[i]))
    }
}

# Takes `LABEL: 0.1.0, 0.1.1`. The first file that names this board counts.
function take_targets(text,   at, label, of, i, count) {
    for (at = length(text); at && substr(text, at, 1) != ":"; at--) continue
    label = words(trimmed(substr(text, 1, at - 1)))
    count = split(trimmed(substr(text, at + 1)), of, /[, ]+/)
    if (!at || label == "" || of[1] !~ /^[0-9]+([.:][0-9]+)+$/) return warn(file_name ": not LABEL: NUMBERS: " text)
    if (labels_from == "") labels_from = file_name
    if (labels_from != file_name) return
    labels_form = file_form
    for (i = 1; i <= count; i++) label_at[of[i]] = label
}

# The label of the DIMM at a location of EDAC (`channel 2 slot 1`) of a controller, or nothing.
function board_label(number, location,   of, key) {
    if (split(location, of, " ") != 4) return ""
    key = labels_form == "edac" && of[1] == "channel" ? of[4] "." of[2] : of[2] "." of[4]
    key = number "." key
    return key in label_at ? label_at[key] : ""
}
