# Every name in backticks of docs/TRACE.md must be in the tree, as what the words before it say it is: a word of 'means' holds up to the
# next ';' of its table cell. A name that no word says more of must be defined somewhere; right after a path or a type, there.
function must(ok, name, why) { n++; if (!ok) print "docs: docs/TRACE.md:" FNR ": `" name "`: " why }
function leads(name, to) { if (to ~ /\.antt$/ || !(name in file)) file[name] = to; if (sub(/\.antt$/, "", name)) leads(name, to) }
BEGIN {
    FS = "\t"
    split("must-fail edit law law laws law theorem law theorems law field field fields field group group tool: tool contract plain contracts plain", w, " ")
    for (i = 1; i in w; i += 2) means[w[i]] = w[i + 1]
}
# a path counts from the root, from crates/, from a crate or from its specs/
FNR == NR && $1 == "file" {
    leads($2, $2)
    p = base = $2
    sub(/.*\//, "", base)
    if (sub(/^crates\//, "", p)) leads(p, $2)
    if (p != $2 && sub(/^[^\/]*\//, "", p)) leads(p, $2)
    if (p != $2 && sub(/^specs\//, "", p)) leads(p, $2)
    if ($2 ~ /^(tests\/compare|tests\/fuzz|bench)\/src\/bin\/[a-z0-9_]*\.rs$/) { sub(/\.rs$/, "", base); known[base]; program[base] = $2 }
    if ($2 ~ /^crates\/[^\/]*\/must-fail\/[^\/]*\.edit$/) { split($2, part, "/"); sub(/\.edit$/, "", base); edit[part[2] "/" base]; edit[part[2] "/*"]; edit["/" base] }
    next
}
FNR == NR {
    is[$1, $3]
    if ($1 ~ /^(def|field|case|mod|code|name|crate|group)$/) known[$3]
    if ($1 ~ /^(def|field|case)$/) within[$2, $3]
    if ($1 == "def" && $2 ~ /^crates\/[^\/]*\/specs\// || $1 == "field" && $2 ~ /\/specs\/Theorems\.antt$/ && $4 == "Theorems") law[$3]
    if ($1 == "field") field[$4, $3]
    if ($1 == "group") group[$2, $3]
    if ($1 == "code" || $1 == "path") path[$4 "::" $3]
    if ($1 == "check") checks = checks "\n" $3
    next
}
# whether some file has a name or a path like this, '*' standing for anything in a name
function exists(name,    f) {
    gsub(/\./, "\\.", name)
    gsub(/\*/, "[^/]*", name)
    for (f in file) if (f ~ ("^(.*/)?" name "$")) return 1
    return 0
}
# a must-fail edit: of the crates named after it, else of the last crate named, else of any
function wrong(name, after,    c, i) {
    if (name ~ /\// || ("crate", name) in is) {
        crate = name
        sub(/\/.*/, "", crate)
        must((name ~ /\// ? name : name "/*") in edit, name, "no such must-fail edit")
    } else if (match(after, /^ in [a-z0-9_]+((, | and )[a-z0-9_]+)*/) && split(substr(after, 5, RLENGTH - 4), c, /, | and /) && ("crate", c[1]) in is)
        for (i = 1; i in c; i++) must((c[i] "/" name) in edit, name, "no such must-fail edit in " c[i])
    else must((crate "/" name) in edit, name, "no such must-fail edit" (crate == "" ? "" : " in " crate))
}
function look(name, after,    i, ok, folder) {
    if (mode == "edit") return wrong(name, after)
    if (!(name in known) && name !~ /^(make|enum) /) sub(/ .*/, "", name)
    if (name ~ /::/) { near = name; return must(name in path, name, "no such function or type") }
    if (name ~ /^[a-z0-9_]+\/\*$/) return must(name in edit, name, "no must-fail edit")
    if (name ~ /\*/ || name ~ /^[^\/]+\.[a-z0-9]+$/) return must(exists(name), name, "no such file")
    if (name ~ /\//) {
        folder = sub(/\/$/, "", name) || name !~ /specs\/./
        near = name in file ? file[name] : ""
        return must(folder ? near != "" : near ~ /\.antt$/, name, "no such file")
    }
    if (mode == "group") return must((program[using], name) in group, name, "no group of " (using == "" ? "a program named before" : using))
    if (mode == "tool") return must(("helper", name) in is, name, "no function of tests/tool")
    if (mode == "law" && !(("crate", name) in is)) return must(name in law, name, "stands in no specs/, neither as a definition nor as a field of Theorems")
    if (mode == "field") { for (i = 2; i in piece; i += 2) if ((piece[i], name) in field) ok = 1; return must(ok, name, "no field of a record named beside it") }
    if (name in program) using = name
    must(home == "" ? name in known : (home, name) in within || (home "::" name) in path, name, "not defined" (home == "" ? "" : " in " home))
}
# a stretch of a cell, up to a ';': text and names in turn
function stretch(s,    i, j, k, word, after) {
    mode = "plain"
    crate = near = home = ""
    k = split(s, piece, "`")
    for (i = 1; i < k; i += 2) {
        split(tolower(piece[i]), word, /[^a-z:-]+/)
        for (j = 1; j in word; j++) {
            if (word[j] != "tool:") sub(/:$/, "", word[j])
            if (word[j] in means) mode = means[word[j]]; else if (word[j] == "of" && mode == "field") mode = "plain"
        }
        if (near ~ /\.antt$|::[A-Z]/ && piece[i] == " ") home = near; else if (piece[i] != ", ") home = ""
        near = after = ""
        for (j = i + 2; j <= k; j++) after = after piece[j]
        look(piece[i + 1], after)
    }
}
function cell(c,    i, k, part, s, quoted) {
    s = c
    if (match(s, /tool:/)) for (s = substr(s, RSTART); match(s, /"[^"]*"/); s = substr(s, RSTART + RLENGTH)) {
        quoted = substr(s, RSTART, RLENGTH)
        gsub(/^"|(,? *\.\.)?"$/, "", quoted)
        must(quoted != "" && index(checks, "check \"" quoted), quoted, "no check of tests/tool begins so")
    }
    gsub(/"[^"`]*"/, "", c)
    if (gsub(/`/, "`", c) % 2) must(0, c, "a backtick is not closed")
    k = split(c, part, ";")
    for (i = 1; i <= k; i++) stretch(part[i])
}
{ using = ""; k = split($0, cells, "|"); for (c = 1; c <= k; c++) cell(cells[c]) }
END { if (n == 0) must(0, "", "no name in it"); print "looked up " n }
