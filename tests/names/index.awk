# What a tree declares, a line each: LANGUAGE, FILE, OWNER (crate or program), NAME, 'type' (tabs between). Of Rattle the files of specs/ and
# proofs/, and the functions and types of src/ (a method under its type); of C functions, structs and enums; of Rust types and constants.
function say(language, name, what) { if (name != "") print language, FILENAME, owner, name, what }
BEGIN { OFS = "\t" }
FNR == 1 {
    parts = split(FILENAME, part, "/")
    owner = part[1] == "crates" ? part[2] : part[1] == "tests" ? "tests/" part[2] : part[1]
    type = ""
    file = part[parts]
    if (sub(/\.antt$/, "", file) && file !~ /^(Lib|Inner|Theorems)$/ && FILENAME !~ /\/proofs\/.+\/(Answers|Invariants|Proof)\.antt$/) say("file", file)
}
/^ *(\/\/|\/\*|\*)/ { next }
FILENAME ~ /\.rt$/ {
    line = $0
    if (/^}/) type = ""
    if (/^impl /) type = $2 "::"
    sub(/^ *(pub(\(crate\))? )?(extern "C" )?/, "", line)
    if (line ~ /^(fn|struct|enum|const) /) { sub(/^[a-z]+ /, "", line); sub(/[^A-Za-z0-9_].*/, "", line); say("Rattle", type line) }
}
FILENAME ~ /\.rs$/ {
    line = $0
    sub(/^pub(\([a-z]+\))? /, "", line)
    if (line ~ /^(struct|enum|union|type|trait|const|static) /) { sub(/^[a-z]+ (mut )?/, "", line); sub(/[^A-Za-z0-9_].*/, "", line); say("Rust", line) }
}
FILENAME ~ /\.[ch]$/ {
    line = $0
    if (line ~ /^(static |typedef )?(const )?(struct|enum|union) [a-z_0-9]+ \{/) { sub(/ \{.*/, "", line); sub(/.* /, "", line); say("C", line, "type") }
    else if (FILENAME ~ /\.c$/ && line ~ /^[a-z][a-z_0-9 *]*[ *][a-z_0-9]+\([^;]*$/) { sub(/\(.*/, "", line); sub(/.*[ *]/, "", line); say("C", line) }
}
