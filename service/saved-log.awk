# Prints the lines of a log that a dying kernel saved, for service/earlier-lines. All lines of one message have its time stamp,
# and a device may have line feeds in its name. So error lines are left out if the first line with their time stamp isn't one.
{
    stamp = match($0, /\[ *[0-9]+\.[0-9]+\]/) ? substr($0, RSTART, RLENGTH) : ""
    is_error = /^(<[0-9]+>)?\[ *[0-9]+\.[0-9]+\](\[ *[A-Z][0-9]+\])? (mce: |\{[0-9]+\})\[Hardware Error\]: /
    if (stamp == "" || stamp != last) is_others = !is_error
    last = stamp
    if (!is_error || !is_others) print
    else print "earlier-lines: left out, since it may be a device's: " substr($0, 1, 300) > "/dev/stderr"
}
