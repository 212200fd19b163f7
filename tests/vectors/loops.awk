# Reads `objdump -d --no-show-raw-insn -M intel` and prints a line for each loop that makes a mask of 16 bytes: its function,
# and how many of its instructions are masks, 16-byte compares, loads and stores, and accesses to single bytes.
function number(hex,   i, n) {
    for (i = 1; i <= length(hex); i++) n = n * 16 + index("0123456789abcdef", substr(hex, i, 1)) - 1
    return n
}

# The jump that ends the shortest way back over instruction i; 0 where there is none.
function around(i,   j, t, best) {
    best = 0
    for (j = i; j <= count; j++) {
        t = back[j]
        if (t && t <= i && (!best || j - t < best - back[best])) best = j
    }
    return best
}

function told(last,   i, masks, compares, loads, stores, bytes) {
    for (i = back[last]; i <= last; i++) {
        if (text[i] ~ /^pmovmskb/) masks++
        if (text[i] ~ /^pcmpeqb/) compares++
        if (text[i] ~ /^movdq[ua] +xmm[0-9]+,XMMWORD PTR/) loads++
        if (text[i] ~ /^movdq[ua] +XMMWORD PTR/) stores++
        if (text[i] ~ /BYTE PTR/) bytes++
    }
    printf "%s: masks %d, compares %d, loads %d, stores %d, bytes %d\n", name, masks, compares, loads, stores, bytes
}

function finish(   i, j, to, word) {
    for (i = 1; i <= count; i++)
        if (text[i] ~ /^j[a-z]+ +[0-9a-f]+ /) {
            split(text[i], word, " +")
            to = place[number(word[2])]
            if (to && to <= i) back[i] = to
        }
    for (i = 1; i <= count; i++)
        if (text[i] ~ /^pmovmskb/ && (j = around(i)) && !(j in seen)) {
            seen[j] = 1
            told(j)
        }
    count = 0
    split("", place); split("", back); split("", seen)
}

/^[0-9a-f]+ <.*>:$/ { finish(); name = $2; gsub(/[<>]|:$/, "", name); next }
/^ +[0-9a-f]+:\t/ {
    split($0, part, /:\t/)
    gsub(/ /, "", part[1])
    text[++count] = part[2]
    place[number(part[1])] = count
}
END { finish() }
