# The report's tables, from the lines of bench and count.

function median(list, n,    i, j, x) {
    for (i = 2; i <= n; i++) {
        x = list[i]
        for (j = i - 1; j >= 1 && list[j] > x; j--)
            list[j + 1] = list[j]
        list[j + 1] = x
    }
    least = list[1]
    most = list[n]
    return n % 2 ? list[(n + 1) / 2] : (list[n / 2] + list[n / 2 + 1]) / 2
}

function typical(w, by,    i, list) {
    for (i = 1; i <= layouts; i++)
        list[i] = ns[layout[i], w, by]
    return median(list, layouts)
}

function ratio(w, by,    i, list) {
    for (i = 1; i <= layouts; i++)
        list[i] = ns[layout[i], w, "ambercell"] / ns[layout[i], w, by]
    return median(list, layouts)
}

function spread() { return sprintf("%.2f to %.2f", least, most) }

function ratios(w,    g, c, gs, cs, tg, tc) {
    g = ratio(w, "gcc")
    gs = spread()
    c = ratio(w, "clang")
    cs = spread()
    tg = typical(w, "gcc")
    tc = typical(w, "clang")
    printf "| %s | %.0f | %.0f | %.0f | %.2f (%s) | %.2f (%s) | **%.2f** |\n", \
        says[w], typical(w, "ambercell"), tg, tc, g, gs, c, cs, (tg < tc ? g : c)
}

# Field f of workload v cut after n steps, less that of w after m.
function less(v, n, w, m, by, f) { return cut[v, n, by, f] - cut[w, m, by, f] }

function added(v, n, w, m, by) { return less(v, n, w, m, by, "own") + less(v, n, w, m, by, "libc") }

function cost(text, v, n, w, m, parts,    i) {
    printf "| %s |", text
    for (i = 1; i <= 3; i++)
        printf " %s |", plain(added(v, n, w, m, who[i]) / parts)
    printf " %s | %s |\n", plain(less(v, n, w, m, "ambercell", "memcpys") / parts), \
        plain(less(v, n, w, m, "ambercell", "memcpy_bytes") / parts)
}

function plain(x) { return x == int(x) ? x "" : sprintf("%.1f", x) }

BEGIN {
    split("ambercell gcc clang", who, " ")
    checks = split("a b c1 c2 c3 d d64 empty", check, " ")
    finishes = split("finish-a finish-half finish-b finish-c1 finish-c2 finish-d finish-d64", finish, " ")
    grown = split("40 80 160 320", growth, " ")
    fills = split("1 4 8 15", fill, " ")
    says["a"] = "a: 64 locked exchange-and-adds, 320 steps"
    says["b"] = "b: SB, 6 steps"
    says["c1"] = "c1: 16 stores a processor, then drains, 128 steps"
    says["c2"] = "c2: 12 stores and 4 loads a processor, then drains, 112 steps"
    says["c3"] = "c3: 16 exchanges a processor, then drains, 192 steps"
    says["d"] = "d: refused first step, SB's table"
    says["d64"] = "d64: refused first step, a's table"
    says["empty"] = "empty table, empty trace"
    says["finish-a"] = "a's table from nothing, 320 steps written"
    says["finish-half"] = "a's table from 160 steps, 160 written"
    says["finish-b"] = "SB from nothing, 6 written"
    says["finish-c1"] = "c1's table from nothing, 128 written"
    says["finish-c2"] = "c2's table from nothing, 112 written"
    says["finish-d"] = "refused first step, SB's table"
    says["finish-d64"] = "refused first step, a's table"
}

$1 == "agree" {
    for (i = 2; i <= NF; i++)
        calls += $i
    fewest = $2
    for (i = 3; i <= NF; i++)
        fewest = $i < fewest ? $i : fewest
}

$1 == "time" {
    if (!($2 in seen)) {
        seen[$2] = 1
        layout[++layouts] = $2
    }
    ns[$2, $3, $4] = $5
}

$1 == "count" {
    cut[$2, $3, $4, "own"] = $5
    cut[$2, $3, $4, "libc"] = $6
    cut[$2, $3, $4, "memcpys"] = $7
    cut[$2, $3, $4, "memcpy_bytes"] = $8
    cut[$2, $3, $4, "memsets"] = $9
    cut[$2, $3, $4, "memset_bytes"] = $10
    if (!($2 in whole))
        whole[$2] = $3
}

function all(w, by) { return cut[w, whole[w], by, "own"] + cut[w, whole[w], by, "libc"] }

function counted(w,    i, n, more) {
    n = whole[w]
    printf "| %s |", says[w]
    for (i = 1; i <= 3; i++) {
        more = cut[w, n, who[i], "libc"]
        printf " %d%s |", cut[w, n, who[i], "own"], (more > 0 ? " + " more : "")
    }
    printf " %.2f | %d, %d bytes | %d, %d bytes |\n", all(w, "ambercell") / fewer(all(w, "gcc"), all(w, "clang")), \
        cut[w, n, "ambercell", "memcpys"], cut[w, n, "ambercell", "memcpy_bytes"], \
        cut[w, n, "ambercell", "memsets"], cut[w, n, "ambercell", "memset_bytes"]
}

function fewer(x, y) { return x < y ? x : y }

# Lookups. Instructions of one read while n writes wait: the second of 4 processors', after 4 * n writes.
function read_ran(what, n, by) { return added(what "-" n, 4 * n + 2, what "-" n, 4 * n + 1, by) }

# Nanoseconds of it, as the mean of the call's 4 * (16 - n) reads.
function read_took(what, n, by,    i, list) {
    for (i = 1; i <= layouts; i++)
        list[i] = (ns[layout[i], what "-" n, by] - ns[layout[i], "before-" n, by]) / (4 * (16 - n))
    return median(list, layouts)
}

function lookup(what, n, looked,    i) {
    printf "| %d | %s | %d |", n, what, looked
    for (i = 1; i <= 3; i++)
        printf " %s |", plain(read_ran(what, n, who[i]))
    for (i = 1; i <= 3; i++)
        printf " %.1f |", read_took(what, n, who[i])
    print ""
}

# One position more, between the newest and the oldest of n.
function position(n,    i) {
    printf "| %d | one more, newest to oldest | |", n
    for (i = 1; i <= 3; i++)
        printf " %s |", plain((read_ran("oldest", n, who[i]) - read_ran("newest", n, who[i])) / (n - 1))
    for (i = 1; i <= 3; i++)
        printf " %.2f |", (read_took("oldest", n, who[i]) - read_took("newest", n, who[i])) / (n - 1)
    print ""
}

END {
    printf "- Agreement: %d calls, the same number, place and room from all three; each of the numbers that are given at least %d times\n", \
        calls, fewest

    printf "\n### Time\n\nCPU time of one call in nanoseconds, and ambercell's over plain C's: medians of %d layouts, with the range. ", layouts
    print "The last column is the ratio to the faster compiler.\n"
    print "| `ambercell_check` | ambercell | gcc | clang | / gcc -O2 | / clang -O2 | / faster |"
    print "|---|---|---|---|---|---|---|"
    for (k = 1; k <= checks; k++)
        ratios(check[k])
    print ""
    print "| `ambercell_finish` | ambercell | gcc | clang | / gcc -O2 | / clang -O2 | / faster |"
    print "|---|---|---|---|---|---|---|"
    for (k = 1; k <= finishes; k++)
        ratios(finish[k])

    print "\n### Growth\n"
    print "Workload a with 8, 16, 32 and 64 exchange-and-adds: nanoseconds of a call, of a step, and of a step more than in the row above.\n"
    print "| Steps | ambercell | a step | a step more | gcc | a step | a step more | clang | a step | a step more |"
    print "|---|---|---|---|---|---|---|---|---|---|"
    for (k = 1; k <= grown; k++) {
        printf "| %d |", growth[k]
        for (i = 1; i <= 3; i++) {
            t = typical("a" growth[k], who[i])
            printf " %.0f | %.1f | %s |", t, t / growth[k], k == 1 ? "" : sprintf("%.1f", (t - last[i]) / (growth[k] - growth[k - 1]))
            last[i] = t
        }
        print ""
    }

    print "\n### Instructions\n"
    print "Executed in one call; after a plus sign, those inside memcpy and memset. The calls and bytes are ambercell's.\n"
    print "| Call | ambercell | gcc | clang | / fewer | memcpy calls | memset calls |"
    print "|---|---|---|---|---|---|---|"
    for (k = 1; k <= checks; k++)
        counted(check[k])
    for (k = 1; k <= finishes; k++) {
        says[finish[k]] = "finish: " says[finish[k]]
        counted(finish[k])
    }

    print "\nWhat one more of a thing costs, inside memcpy too: from calls that differ by it.\n"
    print "| One more | ambercell | gcc | clang | memcpy calls | bytes |"
    print "|---|---|---|---|---|---|"
    cost("table record (an exchange-and-add)", "a80", 0, "a40", 0, 8)
    cost("step of a, mean of the five", "a", 165, "a", 160, 5)
    cost("lock", "a", 161, "a", 160, 1)
    cost("read, nothing waits", "a", 162, "a", 161, 1)
    cost("write of an exchange-and-add", "a", 163, "a", 162, 1)
    cost("drain", "a", 164, "a", 163, 1)
    cost("unlock", "a", 165, "a", 164, 1)
    cost("write of a store", "c1", 32, "c1", 31, 1)
    cost("drain of a store", "c1", 96, "c1", 95, 1)
    cost("read, newest of 12 found", "c2", 49, "c2", 48, 1)
    cost("read, oldest of 12 found", "c2", 50, "c2", 49, 1)
    cost("read, none of 12 found", "c2", 51, "c2", 50, 1)

    print "\n### Lookups\n"
    print "One read while so many own writes wait, from calls that differ by reads alone: instructions, and nanoseconds. It looks at so many of them, the newest first.\n"
    print "| Waiting | Read of | Looked at | ambercell | gcc | clang | ambercell: ns | gcc: ns | clang: ns |"
    print "|---|---|---|---|---|---|---|---|---|"
    for (k = 1; k <= fills; k++) {
        lookup("newest", fill[k], 1)
        lookup("oldest", fill[k], fill[k])
        lookup("absent", fill[k], fill[k])
    }
    for (k = 2; k <= fills; k++)
        position(fill[k])
}
