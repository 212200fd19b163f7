# The value 'theorems' of a proofs file gives exactly the fields of the record Theorems in the file 'record'.
function fault(what) { print "docs: " FILENAME ": " what; faults++ }
function given(piece) { if (match(piece, /^ *[^ ]+ = /)) { gsub(/^ *| = .*/, "", piece); has[piece] } }
FNR == NR { split($0, at, "\t"); if (at[1] == "field" && at[2] == record && at[4] == "Theorems") { field[at[3]]; n++ } next }
/^ *(--.*)?$/ { next }
{ sub(/ +-- .*/, "") }
state == 2 && (/^[^ ]/ || /^ *where$/) { state = 3 }
state == 2 { value = value " " $0 }
state == 1 && /^theorems =/ { state = 2; value = substr($0, 11) " " }
state == 1 && !/^unfolding / { state = 0 }
$0 == "pub theorems : Theorems" { state = 1 }
END {
    if (state < 2) fault("no 'pub theorems : Theorems' with its definition")
    else if (!sub(/^ *record \{/, "", value)) fault("the value is no 'record { .. }'")
    for (depth = i = 1; i <= length(value) && depth > 0; i++) {
        c = substr(value, i, 1)
        depth += c ~ /[({]/ ? 1 : c ~ /[)}]/ ? -1 : 0
        if (depth == 0 || depth == 1 && c == ";") { given(piece); piece = "" } else piece = piece c
    }
    if (substr(value, i) !~ /^ *$/) fault("the value does not end with its record")
    if (n == 0) fault("no field in " record)
    if (faults) exit
    for (f in field) if (!(f in has)) fault("no value for `" f "`, a field of " record)
    for (f in has) if (!(f in field)) fault("a value for `" f "`, no field of " record)
    print "looked up " n
}
