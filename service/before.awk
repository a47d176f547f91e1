# Passes on the lines of a trace up to the first one at or after a time. It reads all, since a command that writes into a closed
# pipe ends like one that was killed. usage: awk -v until=MICROSECONDS -f stamp.awk -f before.awk
!is_past { stamp = stamp_of($0); is_past = stamp != "" && stamp + 0 >= until }
!is_past
