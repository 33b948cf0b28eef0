# The words that the public clauses of libraries cite, each with the first sentence of its comment: what docs/DEFINITIONS.md
# has below its head. First come the sources of all libraries, in the layout of rt fmt, each library's lib.rt before its
# others; then the modules of their specs.

# Whether other crates can name an item of this file.
function is_reached(name) { return ((crate, file) in modules) || ((crate, name) in exported) }

# The name with which a text begins, behind the brackets of its parameters and paths.
function name_in(text,    i, depth, c) {
    if (text ~ /^</)
        for (i = 1; i <= length(text); i++) {
            c = substr(text, i, 1)
            if (c == "<") depth++
            if (c == ">" && --depth == 0) { text = substr(text, i + 1); break }
        }
    sub(/^ +/, "", text)
    sub(/[^A-Za-z_0-9:].*/, "", text)
    sub(/:$/, "", text)
    sub(/.*::/, "", text)
    return text
}

# Notes the words of a clause's text. What stands behind a dot is a field.
function note(text,    before) {
    while (match(text, /[A-Za-z_][A-Za-z_0-9]*/)) {
        before = RSTART == 1 ? "" : substr(text, RSTART - 1, 1)
        if (before != ".") noted[substr(text, RSTART, RLENGTH)] = 1
        text = "\001" substr(text, RSTART + RLENGTH)
    }
}

# The imports of a file whose names its public clauses have.
function end_file(    i) {
    for (i = 1; i <= imports; i++) if (alias[i] in noted) cited[import[i]] = 1
    imports = 0
    split("", noted)
}

# The first sentence of a comment, as it goes on behind a colon.
function sentence(text) {
    if (match(text, /\.( |$)/)) text = substr(text, 1, RSTART - 1)
    if (text ~ /^[A-Z]([a-z' ]|$)/) text = tolower(substr(text, 1, 1)) substr(text, 2)
    return text
}

FNR == 1 {
    end_file()
    crate = file = FILENAME
    sub(/^crates\//, "", crate)
    sub(/\/.*/, "", crate)
    sub(/^crates\/[^\/]*\/[a-z]*\//, "", file)
    sub(/\.[a-z]*$/, "", file)
    is_source = FILENAME ~ /\.rt$/
    scope = ""
    in_use = in_head = in_clause = 0
    comment = ""
}

# ---- sources

# What the root of a crate gives to others.
file == "lib" && /^pub mod / { name = $3; sub(/;/, "", name); modules[crate, name] = 1 }
file == "lib" && /^pub use / { text = ""; in_use = 1 }
in_use {
    text = text " " $0
    if (/;/) {
        sub(/.*::\{?/, "", text)
        gsub(/[{};,]/, " ", text)
        count = split(text, names, " ")
        for (i = 1; i <= count; i++) exported[crate, names[i]] = 1
        in_use = 0
    }
    next
}

is_source && /^ *\/\// { next }

# Words of a module of specs; not those that are declared from types.
is_source && /^ *ghost use / {
    if (!/^ *ghost use Rattle\.pl_[a-z_]*\.specs\.[A-Z][A-Za-z]*\.\{/) next
    text = $0
    sub(/.*Rattle\./, "", text)
    sub(/\};.*/, "", text)
    split(text, parts, /\.specs\.|\.\{/)
    count = split(parts[3], names, /, */)
    for (i = 1; i <= count; i++) {
        alias[++imports] = names[i]
        sub(/.* as /, "", alias[imports])
        sub(/ as .*/, "", names[i])
        import[imports] = parts[1] SUBSEP parts[2] SUBSEP names[i]
    }
    next
}

# An item: whether all of its clauses are public, those of its public calls, or none.
is_source && /^(pub|unsafe|const|fn|trait|struct|enum|impl|type|mod|use|static)[ <(]/ {
    scope = ""
    text = $0
    if (text ~ /^pub extern "C" fn /) scope = "all"
    else if (sub(/^pub (const |unsafe )*(fn|trait|struct|enum) /, "", text)) {
        if (is_reached(name_in(text))) scope = "all"
    } else if (sub(/^(unsafe )?impl/, "", text)) {
        if (text ~ /Model for /) { sub(/.* for /, "", text); if (is_reached(name_in(text))) scope = "all" }
        else if (text !~ / for / && is_reached(name_in(text))) scope = "calls"
    }
    in_head = in_clause = 0
}

# The clauses of a function stand between its head and its body; a ghost member is one.
is_source && /^(    )?(pub(\([a-z]*\))? )?(const |unsafe |extern "C" )*fn / {
    in_head = scope == "all" || (scope == "calls" && /^    pub [a-z]/)
    in_clause = 0
}
in_head && sub(/^ *(requires|ensures) [a-z_]* ?\{/, "") { in_clause = 1 }
in_head && (/^ *\{\}?$/ || (!in_clause && /[;{}]$/)) { in_head = in_clause = 0 }
scope == "all" && sub(/^    ghost [A-Za-z_]*/, "") { in_clause = 1 }
is_source && in_clause {
    note($0)
    if (/\}[;,]$/) in_clause = 0
}
is_source { next }

# ---- specs

/^ *--/ {
    text = $0
    sub(/^ *-- */, "", text)
    comment = comment == "" ? text : comment " " text
    next
}

/^ *(abbrev pub|unfoldable pub|pub record|pub data) / && ((crate, file, $3) in cited) {
    if (comment == "") {
        print "no comment says what " $3 " is, in " FILENAME > "/dev/stderr"
        has_none = 1
    }
    if (crate != last_crate) printf "\n## %s\n", crate
    if (FILENAME != last_file) printf "\n[%s](../%s)\n\n", file, FILENAME
    last_crate = crate
    last_file = FILENAME
    print "- `" $3 "`: " sentence(comment)
}

{ comment = "" }

END { exit has_none }
