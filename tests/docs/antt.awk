# What .antt files define: 'def' (a record or a data type too), 'field' of a record, 'case' of a data type; names of a 'where' do not count.
# 'mod': a file of specs/. 'called': the definition after a comment of proofs/ with THE LAW or THE CLAIM in it.
function called(name) { if (call != "") print "called", call, name; call = "" }
BEGIN { OFS = "\t" }
FNR == 1 { called("nothing"); hidden = -1; owner = ""; name = FILENAME; gsub(/.*\/|\.antt/, "", name); if (FILENAME ~ /\/specs\//) print "mod", FILENAME, name }
/--.*THE (LAW|CLAIM)/ && FILENAME ~ /\/proofs\// { call = FILENAME ":" FNR }
/^ *(--.*)?$/ { next }
{
    line = $0
    match(line, /^ */)
    n = RLENGTH
    if (n <= hidden) hidden = -1
    if (owner != "" && n <= depth) owner = ""
    if (hidden < 0 && line ~ /^ *where$/) hidden = n
    sub(/^ */, "", line)
    while (sub(/^(pub|abbrev|unfoldable) /, "", line)) { }
    split(line, word, " ")
    type = line ~ /^(record|data) [^{]/
    if (!type && line !~ /^[^ (){};=]+ :( |$)/) next
    name = word[type ? 2 : 1]
    called(name)
    if (hidden >= 0) next
    if (owner == "" || type) print "def", FILENAME, name; else print kind, FILENAME, name, owner
    if (type) { owner = name; kind = word[1] == "record" ? "field" : "case"; depth = n }
}
END { called("nothing") }
