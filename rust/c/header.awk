# The C header of the exported functions, from the sources: rust/c/header says which.

function stop(what) { print "rust/c/header: " what >"/dev/stderr"; stopped = 1; exit 1 }

# AckCursor as ack_cursor
function snake(name) {
    while (match(name, /[a-z0-9][A-Z]/)) name = substr(name, 1, RSTART) "_" substr(name, RSTART + 1)
    return tolower(name)
}

# ## types. A struct of one number is that number.
function c_type(type) {
    if (type ~ /^u(8|16|32|64)$/) return "uint" substr(type, 2) "_t"
    if (type == "usize") return "size_t"
    if (type == "bool") return "bool"
    if (!(type in fields)) stop("no struct is named " type)
    return is_number(type) ? c_type(fields[type]) : "struct ninotskev_" snake(type)
}
function is_number(type) { return fields[type] ~ /^u[0-9]+$/ }

# the type of what is lent, without `&`, `mut`, lifetime and brackets
function plain(type) { sub(/^&(\047[a-z]+ +)?(mut +)?/, "", type); gsub(/^\[|(; *[A-Za-z0-9_]+)?\]$/, "", type); return type }

function field(name, type,    size) {
    if (type !~ /^\[/) return c_type(type) " " name
    size = type; gsub(/^.*; *|\]$/, "", size)
    if (size in constant) size = constant[size]
    if (size !~ /^[0-9]+$/) stop("no constant is named " size)
    return c_type(plain(type)) " " name "[" size "]"
}

# a lent list is a pointer and how many places it has
function parameter(name, type,    c) {
    c = c_type(plain(type))
    if (type !~ /^&/) return c " " name
    if (type !~ /^&(\047[a-z]+ +)?mut /) c = "const " c
    return c " *" name (type ~ /\[/ ? ", size_t " name "_len" : "")
}

# prints a struct, after those that it is made of
function define(type,    parts, pair, n, i) {
    if (type in defined || !(type in fields) || is_number(type)) return
    if (type in twice) stop("two structs are named " type)
    defined[type] = 1
    n = split(fields[type], parts, /, */)
    for (i = 1; i <= n; i++) { split(parts[i], pair, /: */); define(plain(pair[2])) }
    print comment[type] "struct ninotskev_" snake(type) " {"
    # without names all fields are of one type
    if (fields[type] !~ /:/) print "    " field("at", "[" parts[1] "; " n "]") ";"
    else for (i = 1; i <= n; i++) { split(parts[i], pair, /: */); print "    " field(pair[1], pair[2]) ";" }
    print "};"
    if (type in bytes) print "NINOTSKEV_ASSERT(sizeof(struct ninotskev_" snake(type) ") == " bytes[type] ", \"its size\");"
    print ""
}

# the prototype of a function, once its structs are there
function prototype(head, says, requires,    name, answer, parts, pair, n, i, list) {
    name = head; sub(/^.* fn /, "", name); sub(/[<(].*/, "", name)
    answer = head; if (!sub(/^.*\) -> /, "", answer)) answer = ""
    sub(/^[^(]*\( */, "", head); sub(/,? *\)[^)]*$/, "", head)
    n = split(head, parts, /, */)
    define(answer)
    for (i = 1; i <= n; i++) {
        split(parts[i], pair, /: */); define(plain(pair[2]))
        list = list (i > 1 ? ", " : "") parameter(pair[1], pair[2])
        if (i == 1 && requires) says = says "// Its `" pair[1] "` must be sound.\n"
    }
    return says (answer == "" ? "void" : c_type(answer)) " " name "(" (n ? list : "void") ");\n\n"
}

# ## reading: comments first, which are kept for what follows them
/^ *\/\/ / { text = $0; sub(/^ */, "", text); said = said text "\n"; next }
/^#\[/ { exported = exported || (/no_mangle/ && FILENAME ~ /(server|exports)/); next }

/^(pub )?const [A-Z0-9_]+: [a-z0-9]+ = [0-9]+;/ {
    split($0, word, /(pub )?const |: | = |;/); name = word[2]; value = word[4]
    if (name == "ABI") abi[FILENAME ~ /exports/ ? "EXPORTS_ABI" : "ABI"] = value
    else if (sub(/_BYTES$/, "", name)) bytes[substr(name, 1, 1) tolower(substr(name, 2))] = value
    else constant[name] = value
}

# a struct up to its last line; a function up to its contract, and what that requires
/^pub struct [A-Za-z]+ ?[({]/ { inside = $3; sub(/\(.*/, "", inside); head = ""; heard = said }
/^pub extern "C" fn / && exported { inside = "fn"; head = ""; heard = said; contract = requires = 0 }
inside == "fn" && /^    (requires|ensures) / { contract = 1; if (/requires/) requires = 1 }
inside != "" && !(inside == "fn" && (contract || /^\{/)) { text = $0; sub(/^ +/, " ", text); head = head text }
inside == "fn" && /^\{/ { heads[++count] = head; above[count] = heard; needs[count] = requires; inside = ""; exported = 0 }
inside != "" && inside != "fn" && (/^}/ || /;$/) {
    if (inside in fields) twice[inside] = 1
    gsub(/^[^({]*[({] *|,? *[)}];?$/, "", head); gsub(/pub /, "", head)
    fields[inside] = head; comment[inside] = heard; inside = ""
}
{ said = "" }

# the numbers of calls, and of refusals
FILENAME ~ /Kinds[.]antt$/ && !/^calls / {
    while (match($0, /entry [0-9]+ \(?[a-z]+( \(?[A-Z][A-Za-z]+)?[^)]*/)) {
        text = substr($0, RSTART, RLENGTH); $0 = substr($0, RSTART + RLENGTH)
        gsub(/[()]/, "", text); split(text, word, / +/)
        name = toupper(snake(word[3] == "look" ? word[4] : word[3])) (text ~ / some / ? "_AFTER" : "")
        calls = calls "    NINOTSKEV_" name " = " word[2] ",\n"
    }
}
FILENAME ~ /Refusal[.]antt$/ && /^numbered \(?[A-Z]/ {
    gsub(/[()]/, ""); name = toupper(snake($2)); sub(/^.* code /, "")
    refusals = refusals "    NINOTSKEV_REFUSED_" name " = " $1 ",\n"
}

END {
    if (stopped) exit 1
    if (!count || calls == "" || refusals == "" || !abi["ABI"] || !abi["EXPORTS_ABI"]) stop("the sources are not where they were")
    print "// The interface of libninotskev_server.a and libninotskev_exports.a, for C on x86-64 Linux. rust/c/header makes it from the sources."
    print "//"
    print "// The functions are proved to meet their contracts (docs/SPEC.md, \"Interface\") if the caller keeps this. Pointers are valid, and"
    print "// none that is written through overlaps another. One thread at a time calls on a machine. A sound machine is one that a start, an"
    print "// import or an off made, a sound cursor begins with zeros, and only calls have changed them since. ninotskev_abi() is NINOTSKEV_ABI."
    print "#ifndef NINOTSKEV_H\n#define NINOTSKEV_H\n"
    print "#include <stdbool.h>\n#include <stddef.h>\n#include <stdint.h>\n"
    print "#ifdef __cplusplus\n#define NINOTSKEV_ASSERT static_assert\nextern \"C\" {\n#else\n#define NINOTSKEV_ASSERT _Static_assert\n#endif\n"
    print "#define NINOTSKEV_ABI " abi["ABI"] "\n#define NINOTSKEV_EXPORTS_ABI " abi["EXPORTS_ABI"] "\n"
    print "// The calls that ninotskev_ask takes.\nenum ninotskev_call {\n" calls "};\n"
    print "// The refusals. An answer's number is 0 if nothing was refused, and 255 if the call can't be made now.\nenum ninotskev_refusal {\n" refusals "};\n"
    for (i = 1; i <= count; i++) prototypes = prototypes prototype(heads[i], above[i], needs[i])
    printf "%s#ifdef __cplusplus\n}\n#endif\n\n#endif\n", prototypes
}
