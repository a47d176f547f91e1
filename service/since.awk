# Prints two times of the boot, in microseconds, for service/sources.bash: that from which a trace has machine checks, and that
# from which it has the firmware's memory errors, - if it never has them. service/keep-trace writes a line that names the
# events, and the next time stamp tells since when they are on. usage: awk -f stamp.awk -f since.awk TRACE
function is_mark(line) { return line ~ /: tracing_mark_write: rasd-trace begins$/ }
/^# events: .* mc_event .*ghes_edac/ { has_memory = 1 }
# Versions before this one asked for mc_event only to count the firmware's memory errors from it.
/^# mce_record .*mc_event/ { has_memory = 1 }
# Behind a later line of names, events may be from before it.
checks == "" || (has_memory && reports == "" && is_mark($0)) {
    stamp = stamp_of($0)
    if (has_memory) reports = stamp
    if (checks == "") checks = stamp
}
END { print checks == "" ? "-" : checks, reports == "" ? "-" : reports }
