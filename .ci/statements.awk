# Reads the .rt files of the crates and prints a line for each function marked pub: its name, how many `requires` and
# `ghost` it has, and, each behind a tab, what is wrong with its statement. A line that begins with ! is a complaint about
# a file: it could not be read, or has a type that would hide a &mut.
# Comments and quoted text say nothing. What is in the braces of a clause is antt, whose words go by rules of their own.
# It reads bytes (LC_ALL=C), so that every awk does the same.

FNR == 1 && NR > 1 { read_file() }
FNR == 1 { text = ""; file = FILENAME }
{ text = text $0 "\n" }
END { if (NR) read_file() }

function fault(what) { print "! " file ": " what ": it could not be read, so nothing is known of its functions"; at = size + 1 }
function here(n) { return substr(text, at, n) }
function to_line_end() { while (at <= size && here(1) != "\n") at++ }

# Comments that can stand in each other, as /* .. */ in Rattle and {- .. -} in antt.
function comment(opens, closes,    depth) {
    do {
        if (here(2) == opens) { depth++; at += 2 } else if (here(2) == closes) { depth--; at += 2 } else at++
        if (at > size) return fault("a comment does not end")
    } while (depth)
}

# From one quote to the next that no backslash stands before.
function quoted(quote) {
    for (at++; at <= size && here(1) != quote; at++) if (here(1) == "\\") at++
    if (at++ > size) fault("a quoted text does not end")
}

# r"..", r#".."#: it ends at a quote and as many # as it began with.
function raw_text(signs,    ending, n) {
    ending = "\""
    while (length(ending) < signs) ending = ending "#"
    at += signs
    n = index(substr(text, at), ending)
    if (!n) return fault("a quoted text does not end")
    at += n - 1 + signs
}

# Steps over spaces and comments of Rattle.
function skip_blank() {
    for (;;) {
        if (here(1) ~ /[ \t\r\n]/) at++
        else if (here(2) == "//") to_line_end()
        else if (here(2) == "/*") comment("/*", "*/")
        else return
    }
}
function read_word(    from) {
    for (from = at; here(1) ~ /[A-Za-z0-9_]/;) at++
    return substr(text, from, at - from)
}

# The next word or sign of Rattle, as `token`: "" at the end, \" for a text, and a clause with its braces as `ensures{}`, whatever its name.
function next_token(    c) {
    skip_blank()
    if (at > size) return token = ""
    c = here(1)
    if (c ~ /[A-Za-z0-9_]/) {
        token = read_word()
        if (token ~ /^b?r$/ && match(here(99), /^#*"/)) { raw_text(RLENGTH); return token = "\"" }
        if (token ~ /^(ghost|requires|ensures)$/) read_antt()
        return token
    }
    token = c
    if (here(2) == "->") { at += 2; return token = "->" }
    if (c == "\"") quoted(c)
    else if (c == "'" && (here(2) == "'\\" || substr(text, at + 2, 1) == "'")) quoted(c)
    else at++ # also the ' of a lifetime
    return token
}

# ---- Clauses

# Behind ghost, requires or ensures: a clause in braces, which may have a star and a name, a `ghost name: {..}` of a function, a
# struct, a trait or an impl, with its default or its proof behind it, or the names of `ghost use ..;`.
function read_antt(    from) {
    from = at
    skip_blank()
    if (token != "ghost" && here(1) == "*") { at++; skip_blank() }
    clause = read_word()
    if (token == "ghost" && clause == "use") {
        for (from = at; at <= size && here(1) != ";";) at++
        if (substr(text, from, at - from) ~ /"|--|[{]-|\/[\/*]/) fault("a ghost use has a comment or a quote in it")
        return
    }
    skip_blank()
    if (token == "ghost" && clause != "" && here(1) == ":") { at++; skip_blank() }
    if (here(1) != "{") { if (at <= size) at = from; return }
    at++
    read_clause()
    if (token == "ghost") read_more()
    token = token "{}"
}

# Behind a ghost's braces: = {..}, a member's default, and by {..}, a proof.
function read_more(    from) {
    for (;;) {
        from = at
        skip_blank()
        if (here(1) == "=") at++
        else if (here(2) == "by" && substr(text, at + 2, 1) !~ /[A-Za-z0-9_]/) at += 2
        else break
        skip_blank()
        if (here(1) != "{") break
        at++
        read_clause()
    }
    if (at <= size) at = from
}

# The words of a clause up to its closing brace, as term[1] to term[terms]; near[i] where no space stands before it,
# escaped[i] where it stood in « ». A bracket ⟦ .. ⟧ is one word.
function read_clause(    c, depth, from, spaced, n) {
    terms = 0
    depth = spaced = 1
    while (at <= size) {
        from = at
        c = here(1)
        n = 0
        if (c ~ /[ \t\r\n]/) { at++; spaced = 1; continue }
        if (here(2) == "{-") { comment("{-", "-}"); spaced = 1; continue }
        if (c == "\"") quoted(c)
        else if (here(2) == "«" || here(3) == "⟦") {
            n = index(substr(text, at), c == substr("«", 1, 1) ? "»" : "⟧")
            if (!n) return fault("a clause does not end")
            at += n - 1 + (c == substr("«", 1, 1) ? 2 : 3)
        } else if (c ~ /[(){}.;,@]/) {
            at++
            if (c == "{") depth++
            if (c == "}" && --depth == 0) return
        } else {
            do at++; while (here(1) ~ /[^ \t\r\n(){}.;,@"]/ && here(2) != "«" && here(3) != "⟦")
            if (index(substr(text, from, at - from), "--")) { to_line_end(); spaced = 1; continue }
        }
        term[++terms] = substr(text, from, at - from)
        near[terms] = !spaced
        escaped[terms] = n && c == substr("«", 1, 1)
        if (escaped[terms] && term[terms] !~ /^«([][(){}.;,@"|:=]|λ|↦|←|let|do|record)»$/) # a sign so written is no sign
            term[terms] = substr(text, from + 2, at - from - 4)
        if (c == "\"") term[terms] = c
        spaced = 0
    }
    fault("a clause does not end")
}

# Is term[i] this name: not a field or a path's end (x.name), not a field's or an argument's label (name = x)?
function is_name(i, name) {
    return term[i] == name && term[i + 1] != "=" && !(term[i - 1] == "." && near[i])
}

# bound[i]: term[i] stands where names are bound: from λ to its dot, from let to its =, or before : ↦ ←.
function mark_bound(    i, j, depth) {
    for (i = 1; i <= terms; i++) bound[i] = 0
    for (i = 1; i <= terms; i++) {
        depth = 0
        if (term[i] == "λ") {
            for (j = i + 1; j <= terms && (depth || term[j] != "."); j++) {
                bound[j] = 1
                depth += (term[j] ~ /^[({]$/) - (term[j] ~ /^[)}]$/)
            }
        } else if (term[i] ~ /^(:|=|↦|←)$/) {
            for (j = i - 1; j > 0 && (depth || term[j] !~ /^([({;|[]|let|do)$/); j--) {
                depth += (term[j] ~ /^[)}]$/) - (term[j] ~ /^[({]$/)
                if (!depth && term[i] == "←") { j--; break } # one name or one bracket
            }
            if (term[i] != "=" || term[j] == "let") while (++j < i) bound[j] = 1 # a field's name before = binds nothing
        }
    }
}

# What an ensures speaks of: the result, if `result` is used, and a &mut parameter p, if `p.new` is there. Bound again, a name is
# hidden from there on; a ghost hides a parameter of its name.
function read_ensures(    j, p, gone, hidden) {
    term[0] = term[terms + 1] = term[terms + 2] = ""
    mark_bound()
    for (j = 1; j <= terms; j++) {
        if (term[j] == "result" && bound[j]) gone = 1
        if (!gone && is_name(j, "result")) result_named = 1
        for (p = 1; p <= muts; p++) {
            if (term[j] == mut[p] && (bound[j] || index(ghosts_named, " " mut[p] " "))) hidden = hidden " " p " "
            if (term[j + 1] == "." && near[j + 1] && term[j + 2] == "new" && near[j + 2] && !index(hidden, " " p " "))
                if (is_name(j, mut[p])) said[p] = 1
        }
    }
}

# ---- Files

# crates/job/src/parts.rt is job::parts::, and what an inline mod or an impl has is one step further in.
function read_file(    part, n, i, path, depth, scope, angle, square) {
    n = split(file, part, "/")
    path = part[2] "::"
    sub(/\.rt$/, "", part[n])
    for (i = 4; i <= n; i++) if (i < n || part[n] !~ /^(lib|main|mod)$/) path = path part[i] "::"
    at = 1
    size = length(text)
    depth = 0
    next_token()
    while (token != "") {
        scope = ""
        if (token == "pub") { read_public(path); continue }
        if (token ~ /^(struct|enum|type)$/) { read_type(); next_token(); continue }
        if (token == "mod") { scope = next_token(); next_token() }
        else if (token == "impl") {
            angle = square = 0
            while (next_token() !~ /^([{]|where|)$/ && (square || token != ";")) {
                if (token == "<") angle++
                else if (token == ">") angle--
                else if (token == "[") square++
                else if (token == "]") square--
                else if (!angle && token ~ /^[A-Za-z_]/) scope = token
            }
            if (token == "where") while (next_token() !~ /^[{]?$/);
        }
        if (token == "{") { outer[++depth] = path; if (scope != "") path = path scope "::" }
        if (token == "}") { if (!depth) return fault("a brace too many is closed"); path = outer[depth--] }
        next_token()
    }
    if (depth) fault("a brace is not closed")
}

# A struct, an enum or a type, up to its end: with a &mut in it, a parameter of that type could change what it lends.
function read_type(    name, depth, holds) {
    name = token
    name = name " " next_token()
    while (next_token() != "" && (depth || token != ";")) {
        if (token == "mut") holds = 1
        if (token ~ /^[([{]$/) depth++
        if (token ~ /^[])}]$/ && --depth == 0 && token == "}") break
    }
    if (token == "") return fault(name " does not end")
    if (holds) print "! " file ": " name " holds a &mut, which is out of sight in a parameter of that type: pass it as a parameter of its own"
}

# From pub on: if it is a function, up to its body.
function read_public(path,    name, result, requires, ensures, depth, parameter, type, wrong, p) {
    if (next_token() == "(") { while (token !~ /^[)]?$/) next_token(); next_token() } # pub(crate)
    while (token ~ /^(const|unsafe|async|extern|")$/) next_token()
    if (token != "fn") return
    name = path next_token()
    # its type parameters, whose bounds may have brackets of their own
    if (next_token() == "<") {
        for (depth = 1; depth > 0;) {
            if (next_token() == "") return fault(name " does not end")
            depth += (token == "<") - (token == ">")
        }
        next_token()
    }
    while (token !~ /^[(]?$/) next_token()
    # Parameters: a name, a colon, a type; &mut self has no colon.
    muts = 0
    for (depth = 1; depth > 0;) {
        if (next_token() == "") return fault(name " does not end")
        if (token ~ /^[([<{]$/) depth++
        if (token ~ /^[])>}]$/) depth--
        if (depth == 0 || (depth == 1 && token == ",")) {
            if (type ~ /&.* mut / && parameter != "") { mut[++muts] = parameter; said[muts] = 0 }
            parameter = type = ""
        } else if (token == ":" && type !~ /^:/) type = ":"
        else {
            if (type !~ /^:/ && token ~ /^[A-Za-z_]/ && token != "mut") parameter = token
            type = type " " token " "
        }
    }
    # The result's type, then the clauses.
    ghosts = result_named = requires = ensures = depth = 0
    ghosts_named = ""
    if (next_token() == "->") {
        next_token()
        while (token != "" && (depth || token !~ /^([{;]|where|.*[{][}])$/)) {
            if (token ~ /^[([<]$/) depth++
            if (token ~ /^[])>]$/) depth--
            result = result token
            next_token()
        }
    }
    for (; token != "" && (depth || token !~ /^[{;]$/); next_token()) {
        if (token ~ /^[([]$/) depth++
        if (token ~ /^[])]$/) depth--
        if (token == "ghost{}") { ghosts++; ghosts_named = ghosts_named " " clause " " }
        if (token == "requires{}") requires++
        if (token == "ensures{}") { ensures++; read_ensures() }
    }
    if (!ensures) wrong = "\tstates nothing: give it an ensures"
    else {
        if (result !~ /^([(][)])?$/ && !result_named) wrong = "\tgives a result that its ensures does not name: say there what the result is"
        for (p = 1; p <= muts; p++) if (!said[p])
            wrong = wrong "\tcan change " mut[p] ", and its ensures does not say what it leaves there: name " mut[p] ".new in it"
    }
    print name " " requires + ghosts wrong
}
