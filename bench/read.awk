# Reads what bench/run printed: the names of its lines, in order, and the counts of each. A size is what a check and an opening
# with a phrase were both counted at, in rows and bytes.
NF >= 6 && $(NF - 4) $(NF - 3) $(NF - 1) ~ /^[0-9]+$/ {
    name = $1
    for (i = 2; i <= NF - 5; i++) name = name " " $i
    names[++lines] = name
    ours[name] = $(NF - 4)
    plain[name] = $(NF - 3)
    tuned[name] = $(NF - 1)
    if (sub(/^opening with a phrase, /, "", name) && "catalogue check, " name in ours) {
        sizes[++size_count] = name
        split(name, word, " ")
        rows[name] = number(word[1])
        bytes[name] = number(word[3])
    }
}

function number(text) {
    gsub(/,/, "", text)
    return text + 0
}

function thousands(n, text, said) {
    for (text = sprintf("%d", n); length(text) > 3; text = substr(text, 1, length(text) - 3))
        said = "," substr(text, length(text) - 2) said
    return text said
}

function ratio(a, b) {
    return sprintf("%.2f", a / b)
}
