# Prints the time of the first report that has `most` reports before it, if there is one. Reads a trace, or journalctl's export
# form. usage: awk -v most=N -f stamp.awk -f many.awk
n <= most && (stamp = stamp_of($0)) != "" && ++n > most { print stamp }
