# Passes on the rows that service/setup made, without those for which the owner's file has rows: a CPU, a bank's channel, a place.
# usage: awk -f made-rows.awk OWNERS MADE
FILENAME == ARGV[1] {
    if ($1 == "cpu") has["cpu " $2 + 0]
    if ($1 == "module") has["bank " $3 + 0 " " $4 + 0 " " $5 + 0]
    if ($1 == "place") has["place " $3 + 0 " " $4 + 0 " " $5 + 0]
    next
}
$1 == "cpu" && ("cpu " $2 + 0) in has { left++; next }
$1 == "module" && $4 != 255 && ("bank " $3 + 0 " " $4 + 0 " " $5 + 0) in has { left++; next }
$1 == "place" && ("place " $3 + 0 " " $4 + 0 " " $5 + 0) in has { left++; next }
{ print }
END { if (left) print "prepare: " ARGV[1] " has its own lines for " left " of the lines made: those count" > "/dev/stderr" }
