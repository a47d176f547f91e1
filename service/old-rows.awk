# Prints a file of rows without the lines `cpu` and `module` that an earlier version's setup wrote into it. Status 1 if it has
# none, or a module's label isn't one that setup made of the numbers (S0.B7.C1): then somebody wrote the lines.
$1 == "module" && $2 == "S" $3 ".B" $4 ".C" $5 { made++; next }
$1 == "module" { owners++ }
$1 == "cpu" { next }
{ print }
END { exit !made || owners }
