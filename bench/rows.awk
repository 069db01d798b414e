# Makes one table of the rows of benches, each with the name of its bench in front: rows of one measure become one row, with their sizes and
# figures side by side. bench/all runs it.

# What follows the number at the head of a text, or all of it where there is none.
function unit(text) {
    return match(text, /^[0-9]+(\.[0-9]+)?( |$)/) ? substr(text, RLENGTH + 1) : text
}

# Puts one more text of a unit behind some others: the unit stands once, at their end.
function joined(others, its_unit, text) {
    if (others == "") return text
    if (its_unit == text || unit(text) != its_unit) return others "; " text
    return substr(others, 1, length(others) - (its_unit == "" ? 0 : length(its_unit) + 1)) ", " text
}

{
    row = $1 " | " $2 " | " unit($3) " | " unit($4) " | " $5
    if (!(row in sizes)) {
        order[++rows] = row
        bench[row] = $1; measure[row] = $2; limit[row] = $5
    }
    sizes[row] = joined(sizes[row], unit($3), $3)
    figures[row] = joined(figures[row], unit($4), $4)
}

END {
    print "| bench | what is measured | sizes | figures | limit |"
    print "|---|---|---|---|---|"
    for (at = 1; at <= rows; at++) {
        row = order[at]
        printf "| `%s` | %s | %s | %s | %s |\n", bench[row], measure[row], sizes[row], figures[row], limit[row]
    }
}
