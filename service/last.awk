# Prints the last time in a trace, or in journalctl's export form: 0 without one. usage: awk -f stamp.awk -f last.awk
(stamp = stamp_of($0)) != "" { last = stamp }
END { print last == "" ? 0 : last }
