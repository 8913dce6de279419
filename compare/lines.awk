# Looks at the lines of scripts, one script after the other, by docs/FORMAT.md and neither implementation: w and E since the last accepted format, the
# bound that they keep, and the sum of the erase counts. Fails where a line breaks it, or where a case never came about.
function came_about(what) { seen[what]++ }
function say(what) {
    print "scripts: " what > "/dev/stderr"
    failed = 1
    exit 1
}
function anew(l) { logical = l; w = E = 0 }

BEGIN {
    anew(70)
    split("L 0 1,L 1 0,L 104 0,L 105 1,L 4294967295 1,last number,one too many,kept,present L,restarted after an erasure,erased after a format", wanted, ",")
}
$1 == "L" {
    came_about("L " $2 " " $3)
    if ($3 == 0 && E > 0) came_about("restarted after an erasure")
    if ($3 == 0 && $2 == logical) came_about("present L")
    if ($3 == 0) { anew($2); formatted = 1 }
    refused = $3
    next
}
$1 == "W" && $3 == 0 { w++; E += $5 }
$1 == "W" && formatted && $2 == logical - 1 && $3 == 0 { came_about("last number") }
$1 == "W" && formatted && $2 == logical && $3 == 3 { came_about("one too many") }
$1 == "R" && refused && $3 == 0 { came_about("kept") }
$5 > 0 && $1 == "W" {
    if (formatted) came_about("erased after a format")
    if (105 + int((105 - logical + 6) / 7) * (E - 1) + 1 > w) say(E " erasures after " w " writes with L " logical)
}
{ refused = 0 }
$1 == "T" {
    if ($5 != E) say("the erase counts add up to " $5 " after " E " erasures")
    anew(70)
    formatted = 0
}
END {
    if (failed) exit 1
    for (i in wanted)
        if (!seen[wanted[i]]) say("never came about: " wanted[i])
}
