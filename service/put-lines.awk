# The program of service/put-lines, which says what it does.

BEGIN {
    # The types of the sections that are the kernel's own (drivers/acpi/apei/erst.c), as their bytes stand in a record.
    machine_check = "beff08fee495e74bbc734096044a38fc"
    # A piece of its log is compressed or not.
    is_piece_of_log["0787114fdd045540b5dd956d34ddfac6"]
    is_piece_of_log["4ee097c145d5704a9c17a5549419eb12"]
    # `rasd lines mce` reads no more of a section.
    most = 129
}
# Returns the little-endian number of some bytes at this offset of the record, in hexadecimal.
function number_at(place, bytes,   result) {
    while (bytes-- > 0) result = result substr(hex, 2 * (place + bytes) + 1, 2)
    return result
}
function number_of(text,   result, i) {
    for (i = 1; i <= length(text); i++) result = result * 16 + index("123456789abcdef", substr(text, i, 1))
    return result
}
function tell(what) {
    print "put-lines: " what > "/dev/stderr"
    status = 1
}
# Returns the type of the section of a record that has one section, which is within it.
function type_of(bytes,   place) {
    if (bytes < 200 || number_at(10, 2) != "0001") return ""
    place = number_of(number_at(128, 4))
    return place + number_of(number_at(132, 4)) <= bytes ? substr(hex, 289, 32) : ""
}
# Prints the line that the program makes of the section, whose bytes it gets from printf.
function print_bank(id,   place, last, command, line) {
    place = number_of(number_at(128, 4))
    last = place + number_of(number_at(132, 4))
    if (last > place + most) last = place + most
    while (place < last) command = command sprintf("\\%03o", number_of(number_at(place++, 1)))
    command = "printf '" command "' | \"$program\" lines mce " boot
    line = "the boot's number is missing"
    if (boot != "" && (command | getline line) < 1) line = "the program printed nothing"
    close(command)
    if (line ~ /^bank /) print line
    else tell(sprintf("left out the machine check of record %s: %s", id, line))
}
# Cuts whole records off the front, so that the rest stays short.
function take(   id, bytes, type) {
    while (length(hex) >= 256 && substr(hex, 1, 8) == "43504552") {
        bytes = number_of(number_at(20, 4))
        if (bytes < 128 || (bytes >= 200 && length(hex) < 400)) return
        id = number_at(96, 8)
        type = type_of(bytes)
        if (type in is_piece_of_log) {
            print "# kernel log record=" id
            pieces++
            passing = 2 * bytes
        } else if (id ~ /^(0+|f+)$/ || bytes > 16384) {
            tell(sprintf("left out the record at byte %.0f: identifier %s, %.0f bytes", at, id, bytes))
            passing = 2 * bytes
        } else if (length(hex) < 2 * bytes) {
            return
        } else if (type == machine_check) {
            print_bank(id)
        } else {
            print "put", id, substr(hex, 1, 2 * bytes)
        }
        at += bytes
        hex = passing ? pass(hex) : substr(hex, 2 * bytes + 1)
    }
}
# Returns the text after the record that is skipped.
function pass(text,   cut) {
    cut = passing < length(text) ? passing : length(text)
    passing -= cut
    return substr(text, cut + 1)
}
{ hex = hex pass($0); take() }
END {
    if (passing) tell("the last record is cut")
    if (hex != "") tell(sprintf("no record at byte %.0f", at))
    if (pieces) print "put-lines: left out pieces of the kernel's own log: " pieces > "/dev/stderr"
    exit status
}
