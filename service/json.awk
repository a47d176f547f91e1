# The program of service/json, which says what it does.
function quoted(text,   i, sign, result) {
    for (i = 1; i <= length(text); i++) {
        sign = substr(text, i, 1)
        result = result (sign == "\\" || sign == "\"" ? "\\" : "") sign
    }
    return "\"" result "\""
}
function is_number(text) { return text ~ /^(0|[1-9][0-9]*)$/ }
function json(key, text) {
    if (text == "-") return "null"
    return is_number(text) && key !~ /^(record|label|page|mask|apic|tsc|number|name|id)$/ ? text : quoted(text)
}
function add(key, text) {
    members = members separator quoted(key) ":" text
    separator = ","
}
# Returns the date of a second since 1970, by the days since 1 March of the year 0; null after the year 9999.
function time_of(seconds,   days, era, day, year, month, left) {
    if (length(seconds) > 12 || seconds + 0 > 253402300799) return "null"
    days = int(seconds / 86400) + 719468
    left = seconds % 86400
    era = int(days / 146097)
    day = days % 146097
    year = int((day - int(day / 1460) + int(day / 36524) - int(day / 146096)) / 365)
    day -= 365 * year + int(year / 4) - int(year / 100)
    month = int((5 * day + 2) / 153)
    day -= int((153 * month + 2) / 5) - 1
    month += month < 10 ? 3 : -9
    return sprintf("\"%04d-%02d-%02dT%02d:%02d:%02dZ\"", year + 400 * era + (month <= 2), month, day,
        left / 3600, left % 3600 / 60, left % 60)
}
function add_name(kind, text,   keys, parts, count, i) {
    add("name", quoted(kind "=" text))
    count = split(part_keys[kind], keys, " ")
    split(text, parts, "/")
    for (i = 1; i <= count; i++) add(keys[i], json(keys[i], parts[i]))
}
# Adds a word `key=value`. A bank that is only a number isn't a name.
function take(key, text) {
    if (key in part_keys && (key != "bank" || text ~ /\//)) {
        add_name(key, text)
    } else {
        add(key, json(key, text))
        if (key == "t") add("time", time_of(text))
        if (key == "stamp") add("since", time_of(text))
    }
}
BEGIN {
    part_keys["bank"] = "boot cpu bank tsc"
    part_keys["record"] = "record"
    part_keys["block"] = "boot source number"
    part_keys["bert"] = "boot"
    # Words without `=` after the first one.
    word_keys["done"] = "line"
    word_keys["order"] = "order"
}
{
    members = closing = ""
    separator = ","
    at = index($1, "=")
    type = at ? substr($1, 1, at - 1) : $1
    if (at && type in part_keys) type = "name"
    for (i = at ? 1 : 2; i <= NF; i++) {
        at = index($i, "=")
        # What service/quiet.pl adds isn't a part of the section.
        if ($i ~ /^for=/ && closing) { members = members closing; closing = "" }
        if (at) take(substr($i, 1, at - 1), substr($i, at + 1))
        else if (i == 2 && type in word_keys) add(word_keys[type], json("", $i))
        else if (type == "stop") add(is_number($i) ? "status" : "reason", json("", $i))
        else if ($i ~ /^(memory|processor|x64)$/) {
            add($i, "{")
            separator = ""
            closing = "}"
        } else add($i, "true")
    }
    print "{\"type\":" quoted(type) members closing "}"
    fflush()
}
