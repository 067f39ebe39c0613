# The library's disassembly, each instruction with the times that it ran in a and in finish-a: from count's profiles, then the disassembly.

$1 == "at" {
    times[$2, $3] = $4
    next
}

$1 == "count" { next }

/^ +[0-9a-f]+:\t/ {
    here = substr($1, 1, length($1) - 1)
    printf "%6s %6s %s\n", times["a", here], times["finish-a", here], $0
    next
}

{ printf "%14s%s\n", "", $0 }
