# What .rt files define: fn, struct and enum ('code', under their crate; 'path', under their module and type), fields and cases ('name'), the
# words of a contract; the functions of .rs files ('path'); the constants, enums and functions of a C header.
function head(s) { sub(/[^A-Za-z0-9_].*/, "", s); return s }
function give(name) {
    print rt ? "code" : "path", FILENAME, name, crate
    print "path", FILENAME, name, crate "::" module
    if (rt && type != "") { print "path", FILENAME, name, type; print "path", FILENAME, name, crate "::" type }
}
BEGIN { OFS = "\t" }
FNR == 1 {
    rt = FILENAME ~ /\.rt$/
    type = block = ""
    crate = module = FILENAME
    gsub(/^crates\/|^tests\/|\/src\/.*/, "", crate)
    gsub(/.*\/src\/|[.\/].*/, "", module)
}
/^ *(\/\/|\/\*|\*)/ { next }
FILENAME ~ /\.h$/ { if (/^#define [A-Z]/) print "name", FILENAME, head($2); if (/^enum [a-z_]+ \{/) print "name", FILENAME, "enum " $2; if (/^[a-z].*[ *][a-z0-9_]+\(/) { sub(/\(.*/, ""); sub(/.*[ *]/, ""); print "name", FILENAME, $0 } next }
/^}/ { type = block = "" }
/^impl / { type = $2 }
rt && block != "" { name = $0; sub(/^ *(pub )?/, "", name); if (head(name) != "") print "name", FILENAME, head(name) }
rt && /^ *(requires|ensures) \{/ { print "name", FILENAME, $1 }
/^ *(pub )?(extern "C" )?fn / { name = $0; sub(/^ *(pub )?(extern "C" )?fn /, "", name); give(head(name)) }
rt && /^(pub )?(struct|enum) / { name = $0; sub(/^(pub )?(struct|enum) /, "", name); give(head(name)); if (/\{$/) block = name }
