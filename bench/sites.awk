# Where the library calls memcpy and memset: from count's profiles of a and finish-a, then the library's disassembly.
# A call stands in a loop where a later instruction jumps back to before it.

function hex(text,    i, x) {
    for (i = 1; i <= length(text); i++)
        x = 16 * x + index("0123456789abcdef", substr(text, i, 1)) - 1
    return x
}

$1 == "at" { times[$2, hex($3)] = $4 }

/^[0-9a-f]+ <.*>:$/ {
    of = $0
    sub(/^[0-9a-f]+ </, "", of)
    sub(/>:$/, "", of)
    instructions[of] = 0
    order[++functions] = of
}

/^ +[0-9a-f]+:\t/ {
    here = hex(substr($1, 1, length($1) - 1))
    instructions[of]++
    if ($2 == "mov" && $3 ~ /^\$0x[0-9a-f]+,%edx$/) {
        bytes = $3
        gsub(/^\$0x|,%edx$/, "", bytes)
        bytes = hex(bytes)
    }
    if ($2 ~ /^j/ && $3 ~ /^[0-9a-f]+$/ && hex($3) <= here) {
        from[++jumps] = hex($3)
        to[jumps] = here
    }
}

/R_X86_64_(PLT|PC)32\tmem/ {
    site[++sites] = here
    within[sites] = of
    called[sites] = $NF
    sub(/-0x4$/, "", called[sites])
    length_of[sites] = bytes
}

END {
    print "\n### Calls of memcpy and memset in the library's code\n"
    printf "From the disassembly, with the times that each ran in a (68 table records, 320 steps followed) and in finish-a (the same table, "
    print "320 steps written). A loop is a jump back around the call.\n"
    print "| Function | Instructions | Call | Bytes | In a loop | Ran in a | Ran in finish-a |"
    print "|---|---|---|---|---|---|---|"
    for (f = 1; f <= functions; f++) {
        none = 1
        for (s = 1; s <= sites; s++)
            if (within[s] == order[f]) {
                looped = "no"
                for (j = 1; j <= jumps; j++)
                    if (from[j] <= site[s] && site[s] <= to[j])
                        looped = "yes"
                printf "| `%s` | %d | %s at %x | %d | %s | %d | %d |\n", order[f], instructions[order[f]], called[s], site[s], \
                    length_of[s], looped, times["a", site[s]], times["finish-a", site[s]]
                none = 0
            }
        if (none)
            printf "| `%s` | %d | none | | | | |\n", order[f], instructions[order[f]]
    }
}
