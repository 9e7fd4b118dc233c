# Makes a table of what the driver and the meter said, `run|CASE|UNIT|WISH|SIDE|UNITS` and then `instructions N`: with
# table=lists the one of the receiver over a list, otherwise the one of every operation.

# A number with commas between its groups of three.
function grouped(number,    left) {
    left = ""
    while (length(number) > 3) {
        left = "," substr(number, length(number) - 2) left
        number = substr(number, 1, length(number) - 3)
    }
    return number left
}

# The instructions that one unit more costs.
function cost(name, side) {
    return (count[name, side, 2] - count[name, side, 1]) / (units[name, 2] - units[name, 1])
}

function each(name, side, size) {
    return count[name, side, size] / units[name, size]
}

BEGIN { FS = "|" }

/^run\|/ {
    name = $2; side = $5
    if (!(name in unit)) { order[++cases] = name; unit[name] = $3; wish[name] = $4 }
    size = ++runs[name, side]
    units[name, size] = $6
    next
}

/^instructions / {
    split($0, word, " ")
    count[name, side, size] = word[2]
    next
}

{ print "unexpected: " $0 > "/dev/stderr"; exit 1 }

END {
    if (table == "lists") {
        print "| operation | Rattle, cost | Rust over a list, cost | ratio |"
        print "|---|---|---|---|"
    } else {
        print "| operation | unit | sizes | Rattle, smaller | Rattle, greater | Rattle, cost | Rust, cost | ratio | wish |"
        print "|---|---|---|---|---|---|---|---|---|"
    }
    for (i = 1; i <= cases; i++) {
        name = order[i]
        rattle = cost(name, "rattle")
        if (table != "lists")
            printf "| %s | %s | %s and %s | %.2f | %.2f | %.2f | %.2f | %.2f | %s |\n", name, unit[name], grouped(units[name, 1]), grouped(units[name, 2]),
                each(name, "rattle", 1), each(name, "rattle", 2), rattle, cost(name, "rust"), rattle / cost(name, "rust"), wish[name]
        else if ((name, "list") in runs)
            printf "| %s | %.2f | %.2f | %.2f |\n", name, rattle, cost(name, "list"), rattle / cost(name, "list")
    }
}
