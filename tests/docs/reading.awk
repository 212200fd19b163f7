# docs/READING.md, after the lengths of all files and the text of the files of specs/: its numbers of lines and their sums, its quotations, its chapters.
function must(ok, what) { n++; if (!ok) print "docs: docs/READING.md:" place ": " what }
function told(n) { return n < 1000 ? n + 0 : int(n / 1000) "," sprintf("%03d", n % 1000) }
FNR == NR { lines[$2] = $1; next }
FILENAME != "docs/READING.md" { text[FILENAME] = (FNR == 1 ? "\n" : text[FILENAME]) $0 "\n"; next }
open && /^ *(```|~~~)[`~]* *$/ {
    found = 0
    for (f in text) if (index(text[f], block)) found = 1
    if (quoted) must(found && block ~ /[^\n ]/, "the block that begins here stands so in no file of specs/")
    open = 0
    next
}
open { block = block $0 "\n"; next }
{ place = FNR }
/^ *(```|~~~)/ { open = 1; quoted = /^ *[`~]+ *antt/; block = "\n"; next }
{
    row = $0
    sub(/^ *\|/, "", row)
    split(row "||", cell, "|")
    path = cell[1]
    gsub(/^ *`|` *$/, "", path)
    gsub(/[ ,]/, "", cell[2])
    if (cell[1] ~ /^ *`[^`]+\.(antt|h|rt|md)` *$/ && cell[2] ~ /^[0-9]+$/) {
        must(path in lines && lines[path] == cell[2], "`" path "` has " (path in lines ? lines[path] : "no") " lines, not " cell[2])
        must(!(path in counted), "`" path "` has a second row")
        counted[path]
        sum[to_skip + 0] += cell[2]
    }
    if (/^## /) to_skip = /skipped/
    if (/^To believe: /) said = $0
    k = split($0, piece, "`")
    for (i = 2; i < k; i += 2) {
        named[piece[i]]
        if (piece[i] ~ /^[^ *]+\/[^ *]+\.(antt|h|rt|md)$/) must(piece[i] in lines, "`" piece[i] "`: no such file")
    }
}
END {
    if (open) must(0, "the block that begins here is not closed")
    place = "all"
    must(said ~ ("^To believe: " told(sum[0]) " lines in the six tables above the last, .* To skip: " told(sum[1]) "[.]$"), "the tables have " told(sum[0]) " lines to believe and " told(sum[1]) " to skip")
    for (f in text) {
        short = f
        gsub(/^crates\/|\.antt$/, "", short)
        if (f !~ /\/Lib\.antt$/) must(f in named || short in named, "`" f "` is not named")
    }
    print "looked up " n
}
