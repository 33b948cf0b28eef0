# The public calls of crates, from their sources in the layout of rt fmt: what docs/PUBLIC_CALLS.md has below its head. The
# files of a crate come one after another, its lib.rt first.

# What is behind the brackets with which a text begins.
function behind(text, opening, closing,    i, depth, c) {
    for (i = 1; i <= length(text); i++) {
        c = substr(text, i, 1)
        if (c == opening) depth++
        if (c == closing && --depth == 0) return substr(text, i + 1)
    }
    return text
}

# What is behind the first comma of a text that is in no brackets.
function second(text,    i, depth, c) {
    for (i = 1; i <= length(text); i++) {
        c = substr(text, i, 1)
        if (index("<({[", c)) depth++
        if (index(">)}]", c)) depth--
        if (c == "," && depth == 0) return substr(text, i + 1)
    }
    return ""
}

function trim(text) {
    gsub(/[ \t]+/, " ", text)
    sub(/^ /, "", text)
    sub(/[ ,]+$/, "", text)
    return text
}

# The name of a type, without its path and parameters.
function bare(type) {
    sub(/<.*/, "", type)
    sub(/.*::/, "", type)
    return trim(type)
}

function joined(list, word) { return list == "" ? word : list ", " word }

# Whether others can name an item of the crate.
function is_reached(name) { return is_module || ((crate, name) in exported) }

function cell(text) { return text == "" ? "| " : "| " text " " }

# With what a call of this name and answer refuses, or which enum says what it did. An `add` gives its token back where it adds
# nothing.
function outcome_of(answer, name) {
    if (answer ~ /^Option</) return name ~ /::add`$/ ? "`Some`" : "`None`"
    if (answer ~ /^Result</) {
        sub(/^Result</, "", answer)
        sub(/>$/, "", answer)
        answer = bare(trim(second(answer)))
    } else {
        answer = bare(answer)
        if (!(answer in is_enum)) return ""
    }
    is_met[answer] = 1
    return "`" answer "`"
}

function end_call(    rest) {
    state = "item"
    if (!is_listed) return
    rest = head
    gsub(/->/, "\001", rest)
    sub(/^[^(<]*/, "", rest)
    if (substr(rest, 1, 1) == "<") rest = behind(rest, "<", ">")
    rest = trim(behind(rest, "(", ")"))
    if (sub(/^\001/, "", rest)) {
        sub(/ where .*/, "", rest)
        sub(/[{;].*/, "", rest)
    } else rest = ""
    calls++
    crate_of[calls] = crate
    is_for_c[calls] = is_export
    name_of[calls] = "`" owner call "`"
    needed[calls] = conditions
    answer_of[calls] = trim(rest)
    waits[calls] = (owner_head " " head) ~ /[^A-Za-z_]Wait[^A-Za-z_]/
}

function end_clause(    name) {
    if (sub(/^ *requires */, "", clause)) {
        name = clause
        if (sub(/^\{ */, "", name)) {
            sub(/ *\};?$/, "", name)
            name = "`" trim(name) "`"
        } else sub(/ *\{.*/, "", name)
        conditions = joined(conditions, name)
    }
    clause = ""
}

FNR == 1 {
    crate = file = FILENAME
    sub(/\/src\/.*/, "", crate)
    sub(/.*\//, "", crate)
    sub(/.*\/src\//, "", file)
    sub(/\.rt$/, "", file)
    is_module = (crate, file) in modules
    state = "item"
    owner = owner_head = ""
    is_open = is_trait = 0
    if (!(crate in is_known)) { is_known[crate] = 1; order[++crates] = crate }
}

# What the root of a crate gives to others.
file == "lib" && /^pub mod / { name = $3; sub(/;/, "", name); modules[crate, name] = 1 }
file == "lib" && /^pub use / { text = ""; state = "use" }
state == "use" {
    text = text " " $0
    if (/;/) {
        sub(/.*::\{?/, "", text)
        gsub(/[{};,]/, " ", text)
        count = split(text, names, " ")
        for (i = 1; i <= count; i++) exported[crate, names[i]] = 1
        state = "item"
    }
    next
}

/^ *\/\// { next }

/^pub type / { text = $0; sub(/.*= */, "", text); sub(/;/, "", text); alias[bare($3)] = text }

# Public types: an enum with its alternatives, a struct with its public fields.
state == "item" && /^pub (enum|struct) .*\{$/ { type = bare($3); kind = $2; list = ""; state = "type"; next }
state == "type" && /^}/ {
    if (is_reached(type)) {
        type_name[++types] = type
        type_crate[types] = crate
        type_parts[types] = list
        if (kind == "enum") is_enum[type] = 1
    }
    state = "item"
}
state == "type" && (kind == "enum" ? /^    [A-Z]/ : /^    pub /) {
    name = kind == "enum" ? $1 : $2
    sub(/[^A-Za-z_].*/, "", name)
    list = joined(list, "`" name "`")
}
state == "type" { next }

# What has methods: a trait, or an impl block. Those of a trait's impl are the trait's.
state == "item" && /^(pub )?(unsafe )?(trait|impl)[ <]/ { owner_head = ""; state = "owner" }
state == "owner" {
    owner_head = owner_head " " $0
    if (!/[{}]$/) next
    text = owner_head
    gsub(/->/, "", text)
    is_trait = text ~ /^ (pub )?(unsafe )?trait /
    if (is_trait) {
        is_open = text ~ /^ pub /
        sub(/.*trait /, "", text)
        sub(/[<:{].*/, "", text)
    } else {
        sub(/^[ a-z]*impl/, "", text)
        if (substr(text, 1, 1) == "<") text = behind(text, "<", ">")
        sub(/ *(where .*)?\{.*$/, "", text)
        is_open = text !~ / for /
    }
    owner = bare(text) "::"
    is_open = is_open && is_reached(bare(text))
    state = "item"
    next
}
state == "item" && /^}/ { owner = owner_head = ""; is_open = is_trait = 0; next }

state == "item" && /^(    )?(pub )?(const )?(unsafe )?(extern "C" )?fn / {
    indent = /^ / ? "    " : ""
    call = $0
    sub(/.*fn /, "", call)
    sub(/[^a-z_0-9].*/, "", call)
    if (indent == "") owner = owner_head = ""
    is_export = /^pub extern "C" /
    is_listed = indent == "" ? is_export || (/^pub / && is_reached(call)) : is_open && (is_trait || /^ *pub /)
    head = conditions = clause = ""
    state = "head"
}
state == "head" && /^ *(requires|ensures) / { state = "clauses" }
state == "head" {
    head = head " " $0
    if (/[{};]$/) end_call()
    next
}
state == "clauses" {
    if ($0 == indent "{" || $0 == indent "{}") { end_clause(); end_call(); next }
    if (/^ *(requires|ensures) /) end_clause()
    clause = clause " " $0
    if (/;$/) { end_clause(); end_call() }
}

# Prints a text in lines of at most 118 characters.
function print_wrapped(text,    i, count, words, line) {
    count = split(text, words, " ")
    for (i = 1; i <= count; i++) {
        if (line != "" && length(line " " words[i]) > 118) { print line; line = "" }
        line = line == "" ? words[i] : line " " words[i]
    }
    print line
}

END {
    for (c = 1; c <= crates; c++) {
        printf "\n## %s\n", order[c]
        total = for_c = ""
        is_begun = 0
        for (i = 1; i <= calls; i++) {
            if (crate_of[i] != order[c]) continue
            answer = bare(answer_of[i]) in alias ? alias[bare(answer_of[i])] : answer_of[i]
            if (needed[i] == "" && !waits[i] && answer !~ /^(Result|Option)</) {
                if (is_for_c[i]) for_c = joined(for_c, name_of[i])
                else total = joined(total, name_of[i])
                continue
            }
            if (!is_begun) print "\n| call | conditions | refusal or outcome |\n|---|---|---|"
            is_begun = 1
            print cell(name_of[i] (waits[i] ? ", may wait" : "")) cell(needed[i]) cell(outcome_of(answer, name_of[i])) "|"
        }
        if (total != "") { print ""; print_wrapped("No condition, no refusal: " total ".") }
        if (for_c != "") { print ""; print_wrapped("For C, no condition: " for_c ".") }
    }
    print "\n## Refusals and outcomes\n\n| type | crate | is one of, or holds |\n|---|---|---|"
    for (i = 1; i <= types; i++) {
        type = type_name[i]
        if (type in is_met) print cell("`" type "`") cell("`" type_crate[i] "`") cell(type_parts[i]) "|"
    }
}
