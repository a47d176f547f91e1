# Passes on at most BYTES bytes of the errors of earlier boots, and says once that there are more.
# usage: awk -v most=BYTES -f room.awk
{
    size += length($0) + 1
    if (size <= most) print
    else if (!told++)
        print "feed: left out errors of earlier boots from here on, since there is no more room: " substr($0, 1, 300) > "/dev/stderr"
}
