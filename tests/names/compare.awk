# The file of shared names, then the index: LANGUAGE, FILE, OWNER, NAME. Two declarations are one fault where they are spelt alike in two
# files, or differently in two crates or programs; a file of proofs/ may have the name of the file of specs/ beside it,
# and a definition or a law that of a function of its crate.
function key(name) { name = tolower(name); gsub(/[-_]/, "", name); return name }
function add(group,    k) { k = group "/" key($4); n[k]++; file[k, n[k]] = $2; owner[k, n[k]] = $3; name[k, n[k]] = $4 }
function clash(k, i, j) {
    if (file[k, i] == file[k, j]) return 0
    # a function and the definition, or the law, that is named after it in its own crate
    if ((file[k, i] ~ /\.rt$/) != (file[k, j] ~ /\.rt$/) && owner[k, i] == owner[k, j]) return 0
    if (name[k, i] != name[k, j]) return owner[k, i] != owner[k, j]
    return k !~ /^file\// || owner[k, i] != owner[k, j]
}
BEGIN { FS = "\t" }
FILENAME == ARGV[1] { if ($0 !~ /^#/ && $0 != "") { k = $0; sub(/:.*/, "", k); meaning[k]; if ($0 !~ /: ./) print "names: " FILENAME ": " k " has no meaning" } next }
{ names++; add($1) }
# a type is spelt with a capital in Rattle and Rust; in C it is a struct, an enum or a union
($1 == "Rattle" || $1 == "Rust") && $4 ~ /^[A-Z]/ && $4 !~ /^[A-Z0-9_]+$/ || $1 == "C" && $5 == "type" { if (!(($1, key($4)) in typed)) add("types"); typed[$1, key($4)] }
END {
    for (k in n) {
        bad = 0
        for (i = 1; i <= n[k] && !bad; i++) for (j = i + 1; j <= n[k] && !bad; j++) if (k ~ /^types\// ? 1 : clash(k, i, j)) bad = 1
        if (!bad) continue
        if (k in meaning) { used[k]; continue }
        line = "names: " k ":"
        for (i = 1; i <= n[k]; i++) line = line " " name[k, i] " (" file[k, i] ")"
        print line
    }
    for (k in meaning) if (!(k in used)) print "names: tests/names/shared: " k " is not shared"
    print names + 0 " names in one place each, " length(used) " shared in one meaning"
    print "1 passed, 0 failed"
}
