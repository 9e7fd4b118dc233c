# Makes a table of the driver's times: `time|CASE|UNIT|SIDE|NANOSECONDS`.

BEGIN { FS = "|" }

{
    if (!($2 in unit)) { order[++cases] = $2; unit[$2] = $3 }
    time[$2, $4] = $5
}

END {
    print "| operation | unit | Rattle, ns | Rust, ns | ratio |"
    print "|---|---|---|---|---|"
    for (i = 1; i <= cases; i++) {
        name = order[i]
        printf "| %s | %s | %.2f | %.2f | %.2f |\n", name, unit[name], time[name, "rattle"], time[name, "rust"], time[name, "rattle"] / time[name, "rust"]
    }
}
