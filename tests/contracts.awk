# The contracts of the functions open to hosts, out of the sources: the table that tests/contracts stores. Given are the files of specs, and after them those of src in
# the order of the table; tabled names the crates whose public names are in it, with a space on both sides of each. To the file made go, a paragraph each:
#   library        where the words of the library come from that the contracts below use
#   struct, enum   a public type with its fields or its cases
#   const          a public constant with its type and its value
#   type           another name of a type
#   impl           a trait of a type: its ghost members, and its functions as they are declared
#   fn             a public function: its parameters and its result, each clause of its contract, and by "with" where the other words of its clauses come from
# Types have their crate and module, by the file's `use` lines; white space is normalised. A clause that reads the same could mean another thing by its words; so
# these are faults, and are printed:
#   a `ghost use`, or a `use` of specs, of anything but the kit's libraries and specs; a whole module brought to clauses; a word that no clause uses
#   an operator, or a name that the library has, that is brought from elsewhere, under another name or, to a clause, from two modules, or that specs define, cases apart
#   a parameter or a bound name that hides what is brought; a path or a comment in a clause; a word of a clause that comes from nowhere
#   a type that a paragraph names and that has none
#   an item that is not known here

function fault(place, what) { print place ": " what; faults++ }
function at(i) { return file ":" line[i] }
function is_operator(name) { return index(name, "◌") || name !~ /[A-Za-z0-9]/ }
# a module of a library of the kit
function is_library(path,    part) {
    split(path, part, ".")
    return path ~ /^(Prim|mathlib|lib|denote|contract)\./ || path ~ /^Rattle\./ && !(part[2] in ours)
}
function squeezed(s) { gsub(/[ \t\n]+/, " ", s); sub(/^ /, "", s); sub(/ $/, "", s); return s }

# ---- words that are brought

# One tree of a `use`, as PATH.{a, b as c}
function brought(place, tree, clauses,    path, n, leaf, i, pair, name, library) {
    tree = squeezed(tree)
    if (tree !~ /^[^{} ]+\.[{][^{}]+[}]$/) {
        # a module whole, under its last name or another
        name = tree
        sub(/.*[. ]/, "", name)
        if (clauses || tree !~ /^[^{} *]+( as [^{} .*]+)?$/ || name ~ HEADS) fault(place, "brings " tree)
        return
    }
    path = tree
    sub(/\.[{].*/, "", path)
    library = is_library(path)
    if (!library && path !~ /^Rattle\.[a-z0-9_]+\.specs\./) fault(place, "brings words of " path)
    sub(/^[^{]*[{]/, "", tree)
    sub(/,? ?[}]$/, "", tree)
    n = split(tree, leaf, /, */)
    for (i = 1; i <= n; i++) {
        name = squeezed(leaf[i])
        if (name ~ /[.]/) fault(place, "brings " name " of " path)
        split(name, pair, / as /)
        if (name ~ / as /) name = pair[2]
        brings[FILENAME, name]
        if (library && name == pair[1]) {
            if (!(name in home) || clauses) home[name] = path
            if (!((name, path) in told_of)) homes[name] = homes[name] ", " path
            told_of[name, path]
            if (clauses) clause_place[name] = place
        } else {
            if (is_operator(name) || is_operator(pair[1])) fault(place, "brings an operator, " leaf[i] ", of " path)
            # whether the library has the name is known at the end
            named[++names] = name
            named_at[names] = place
        }
        if (clauses) {
            words++
            word[words] = name
            word_of[words] = path
            word_is[words] = pair[1]
            word_at[words] = place
        }
    }
}

# ---- specs

# A line of specs: a `use`, over several lines too, or what it defines
function spec_line(s,    n, part, i) {
    sub(/--.*/, "", s)
    if (tree != "" || s ~ /^((unfoldable|pub) )*use /) {
        if (s ~ /^[a-z ]*pub use /) fault(FILENAME ":" FNR, "passes words on")
        tree = tree " " s
        if (tree !~ /[{]/ || tree ~ /[}]/) {
            sub(/^[a-z ]*use /, "", tree)
            brought(FILENAME ":" FNR, tree, 0)
            tree = ""
        }
        return
    }
    if (s ~ /^ *(infix|infixl|infixr|open|axiom) /) fault(FILENAME ":" FNR, "not known here: " squeezed(s))
    n = split(squeezed(s), part, " ")
    if (s ~ /^(pub )?mod / && part[n] ~ HEADS) fault(FILENAME ":" FNR, "a module " part[n])
    i = 1
    while (part[i] ~ /^(abbrev|unfoldable|irreducible|pub)$/) i++
    if (s ~ /^[^ ]/) in_record = part[i] == "record"
    if (part[i] ~ /^(record|data)$/ && part[i + 1] != "{") define(part[i + 1], 0)
    else if (s ~ /^[^(){}=]+ :( |$)/ && part[i] !~ /^(→|let)$/)
        for (; i <= n && part[i] != ":"; i++) define(part[i], in_record)
}

# A field is read behind its record, or bare in the fields below it: it may be named as a word that its file does not have
function define(name, field) {
    if (is_operator(name)) fault(FILENAME ":" FNR, "defines an operator, " name)
    if (field && !((FILENAME, name) in brings) && !(name in prelude)) return
    if (FILENAME ~ /(Examples|Cases)\.antt$/) return
    named[++names] = name
    named_at[names] = FILENAME ":" FNR
}

# ---- a source as tokens; what stands in a clause's braces is one, and the tree of a `ghost use`

function push(s) {
    # a clause's name
    if (tok[toks] ~ /^(requires|ensures)$/ && s ~ /^[a-z]/) { tok[toks] = tok[toks] " " s ":"; return }
    tok[++toks] = s
    spaced[toks] = space
    line[toks] = FNR
    space = 0
    if (s == "{" && tok[toks - 1] ~ CLAUSE) { depth = 1; raw = "" }
    if (s == "use" && tok[toks - 1] == "ghost") { in_tree = 1; raw = "" }
}

function scan(s) {
    while (s != "") {
        if (depth) {
            if (!match(s, /[{}]/)) { raw = raw s " "; return }
            raw = raw substr(s, 1, RSTART - 1)
            depth += substr(s, RSTART, 1) == "{" ? 1 : -1
            if (depth) raw = raw substr(s, RSTART, 1)
            else tok[toks] = squeezed(raw)
            s = substr(s, RSTART + 1)
        } else if (in_tree) {
            if (!match(s, /;/)) { raw = raw s " "; return }
            push(raw substr(s, 1, RSTART - 1))
            in_tree = 0
            s = substr(s, RSTART)
        } else if (match(s, /^[ \t]+/)) {
            space = 1
            s = substr(s, RLENGTH + 1)
        } else if (s ~ /^\/\//) {
            break
        } else {
            if (!match(s, /^b?"([^"\\]|\\.)*"/) && !match(s, /^b?'([^'\\]|\\.)'/) && !match(s, /^[A-Za-z_][A-Za-z0-9_]*/) && !match(s, /^[0-9][0-9A-Za-z_]*/) &&
                !match(s, /^(->|=>|::)/)) RLENGTH = 1
            push(substr(s, 1, RLENGTH))
            s = substr(s, RLENGTH + 1)
        }
    }
    space = 1
}

# where the bracket at i is closed
function closed(i,    open) {
    for (open = 0; i <= toks; i++) {
        if (tok[i] ~ /^[([{]$/) open++
        if (tok[i] ~ /^[])}]$/ && --open == 0) return i
    }
    return toks + 1
}
# behind the brackets of type parameters at i, or i
function after_generics(i,    open) {
    for (; tok[i] == "<" || open; i++) {
        if (tok[i] == "<") open++
        if (tok[i] == ">") open--
    }
    return i
}
function next_of(i, s) { while (i <= toks && tok[i] != s) i++; return i }

# ---- its items

function items(end, prefix,    attribute, public, what, q, name, from) {
    while (p <= end) {
        for (attribute = ""; tok[p] == "#"; p = q + 1) {
            q = closed(p + 1)
            # of the crate, or of the proof alone
            if (tok[p + 1] != "!" && tok[p + 2] !~ /^(tactic|cycle)$/) attribute = attribute " " text(p, q, 0)
        }
        if (p > end) return
        public = tok[p] == "pub"
        p += public
        what = tok[p]
        name = prefix tok[p + 1]
        if (what == "mod" && tok[p + 2] == ";") {
            p += 3
        } else if (what == "use" && !public) {
            q = next_of(p, ";")
            if (!use_line(p + 1, q - 1)) { unread(p); return }
            p = q + 1
        } else if (what == "ghost" && tok[p + 1] == "use") {
            brought(at(p), tok[p + 2], 1)
            p += 4
        } else if (what == "const") {
            q = next_of(p, ";")
            if (public) keep("const", name, p + 3, q - 1, attribute)
            p = q + 1
        } else if (what ~ /^(struct|enum)$/ && tok[from = after_generics(p + 2)] ~ /^[({]$/) {
            q = closed(from)
            own[tok[p + 1]]
            if (public) keep(what, name, from, q, attribute)
            p = q + 1 + (tok[from] == "(")
        } else if (what == "type" && tok[p + 2] == "=") {
            q = next_of(p, ";")
            own[tok[p + 1]]
            if (public) keep("type", name, p + 3, q - 1, attribute)
            p = q + 1
        } else if (what == "impl") {
            from = next_of(p, "{")
            q = closed(from)
            if (next_of(p, "for") < from) {
                keep("impl", p + 1, from, q, attribute)
                clause_texts = clause_texts " " text(from + 1, q - 1, 0)
            } else {
                name = tok[after_generics(p + 1)] "::"
                p = from + 1
                items(q - 1, name)
            }
            p = q + 1
        } else if (what == "fn" || what == "extern" && tok[p + 2] == "fn") {
            if (what == "extern") {
                attribute = attribute " " text(p, p + 1, 0)
                p += 2
                name = prefix tok[p + 1]
            }
            q = after_generics(p + 2)
            if (tok[q] != "(") { unread(p); return }
            for (q = closed(q) + 1; q <= toks && tok[q] != "{"; q += 1 + (tok[q] ~ CLAUSE))
                if (tok[q] ~ CLAUSE) clause_texts = clause_texts " " tok[q + 1]
            if (public) keep("fn", name, p + 2, q - 1, attribute)
            p = closed(q) + 1
        } else {
            unread(p)
            return
        }
    }
}

function unread(i) { fault(at(i), "an item that is not known here, at " tok[i]) }

# use a::b::c; use a::b::c as d; or use a::b::{c, d as e, self};
function use_line(i, j,    path, n, leaf, k) {
    path = text(i, j, 0)
    if (path !~ /^[A-Za-z0-9_:]+(::[{][A-Za-z0-9_, ]+[}]| as [A-Za-z0-9_]+)?$/) return 0
    sub(/^crate::/, crate "::", path)
    if (path !~ /[{]/) { use_name(path); return 1 }
    n = split(substr(path, index(path, "{") + 1, length(path) - index(path, "{") - 1), leaf, /, */)
    sub(/::[{].*/, "", path)
    for (k = 1; k <= n; k++)
        if (squeezed(leaf[k]) != "") use_name(leaf[k] == "self" ? path : path "::" squeezed(leaf[k]))
    return 1
}
function use_name(path,    name) {
    name = path
    sub(/.*(::| as )/, "", name)
    sub(/ as .*/, "", path)
    used[name] = path
}

function keep(what, name, i, j, attribute) {
    kept++
    kept_what[kept] = what
    kept_name[kept] = name
    kept_from[kept] = i
    kept_to[kept] = j
    kept_attribute[kept] = squeezed(attribute)
}

# a type that has to be in the table: not the kit's, and no type parameter
function is_ours(t,    part) {
    if (split(t, part, "::") > 1) return part[1] in ours
    return t !~ /^(Option|Result|Vec|String|Box|From)$/ && !(t in generic)
}

# The tokens from i to j, with types in full or as they stand
function text(i, j, full,    s, t) {
    for (; i <= j; i++) {
        s = s (spaced[i] ? " " : "")
        t = tok[i]
        if (full && tok[i + 1] != ":" && (tok[i + 1] == "::" || t in used || t in own || t ~ /^[A-Z]/)) {
            t = t == "crate" ? crate : t == "Self" ? module "::" self : t in used ? used[t] : t in own ? module "::" t : t
            for (; tok[i + 1] == "::"; i += 2) t = t "::" tok[i + 2]
            if (is_ours(t)) {
                typed[++types] = t
                typed_in[types] = record
            }
        }
        s = s t
    }
    gsub(/\( /, "(", s)
    gsub(/,? \)/, ")", s)
    gsub(/, }/, " }", s)
    return squeezed(s)
}

# ---- the paragraphs of a file

function write(s) { table[++rows] = s }

function paragraphs(    c) {
    for (c = 1; c <= kept; c++) {
        if (kept_what[c] == "impl") { members(kept_name[c], kept_from[c], kept_to[c]); continue }
        record = module "::" kept_name[c]
        self = kept_name[c]
        sub(/::.*/, "", self)
        write("")
        write(kept_what[c] " " record)
        in_table[record]
        if (kept_attribute[c] != "") write("  " kept_attribute[c])
        if (kept_what[c] == "fn") contract(kept_from[c], kept_to[c])
        else if (kept_what[c] ~ /^(const|type)$/ || tok[kept_from[c]] == "(") write("  " text(kept_from[c], kept_to[c], 1))
        else cases(kept_from[c] + 1, kept_to[c] - 1, kept_what[c])
    }
}

# a trait of a type, from its name on, with its block: a line for each member, without the functions' blocks
function members(i, from, to,    j, q) {
    split("", generic)
    record = module
    write("")
    write("impl " text(i, from - 1, 1))
    for (j = from + 1; j < to; j = q + 1) {
        for (q = j; q < to && tok[q] != ";" && !(tok[q] == "{" && tok[q - 1] != "="); q++)
            if (tok[q] == "{") q = closed(q)
        write("  " text(j, q - 1, 1))
        if (tok[q] == "{") q = closed(q)
    }
}

# a line for each field or case
function cases(i, j, what,    from, open, s) {
    for (from = i; i <= j; i++) {
        if (tok[i] ~ /^[([{]$/) open++
        if (tok[i] ~ /^[])}]$/) open--
        if (!open && tok[i] == "," || i == j) {
            s = what == "enum" ? tok[from] (from < i ? text(from + 1, i - (tok[i] == ","), 1) : "") : text(from, i - (tok[i] == ","), 1)
            sub(/[{]/, " {", s)
            write("  " s)
            from = i + 1
        }
    }
}

function contract(i, j,    q, n, l) {
    split("", bound)
    split("", generic)
    q = after_generics(i)
    for (l = i + 1; l < q; l++)
        if (tok[l - 1] ~ /^[<,]$/) { bound[tok[l]]; generic[tok[l]] }
    q = closed(q)
    for (l = i + 1; l < q; l++) {
        if (tok[l + 1] == ":") bound[tok[l]]
        if (tok[l] == "self") bound[tok[l]]
    }
    while (q < j && tok[q + 1] !~ CLAUSE) q++
    write("  " text(i, q, 1))
    split("", needs)
    for (q++; q < j; q += 2) {
        write("  " tok[q] " " tok[q + 1])
        clause_words(tok[q + 1], at(q))
    }
    for (n = 1; n <= words; n++)
        if (n in needs) {
            needed++
            needed_row[needed] = rows
            needed_word[needed] = word_is[n] (word[n] == word_is[n] ? "" : " as " word[n])
            needed_of[needed] = word_of[n]
        }
}

# The words of a clause: numbers, what every clause is lent, parameters and bound names, and what the file brings
function clause_words(s, place,    n, part, i, k, found, name, own_bound, label, b) {
    if (s ~ /--|[{]-/) fault(place, record ": a comment in a clause")
    gsub(/«|»/, "", s)
    b = s
    while (match(b, /λ[^.]*\./)) {
        n = split(substr(b, RSTART + 2, RLENGTH - 3), part, " ")
        while (n > 0) own_bound[part[n--]]
        b = substr(b, RSTART + RLENGTH)
    }
    for (name in bound) own_bound[name]
    delete own_bound["_"]
    b = s
    while (match(b, /let [a-z][a-z0-9_]* =/)) {
        own_bound[substr(b, RSTART + 4, RLENGTH - 6)]
        b = substr(b, RSTART + RLENGTH)
    }
    # the fields of a record
    b = s
    while (match(b, /[{;] *[a-z][a-z0-9_]* = /)) {
        name = substr(b, RSTART + 1, RLENGTH - 4)
        sub(/^ */, "", name)
        label[name]
        b = substr(b, RSTART + RLENGTH)
    }
    # what follows a point is a field, of what is bound or of a term in brackets
    while (match(s, /[^ (){}.;,@"]+\.[^ (){}.;,@"]+/)) {
        name = substr(s, RSTART, RLENGTH)
        sub(/\..*/, "", name)
        if (!(name in own_bound) && name != "result") fault(place, record ": a path in a clause, of " name)
        s = substr(s, 1, RSTART - 1 + length(name)) substr(s, RSTART + RLENGTH)
    }
    gsub(/\.[^ (){}.;,@"]+/, " ", s)
    for (k = 1; k <= words; k++)
        if (word[k] in own_bound) fault(place, record ": " word[k] " hides " word_of[k] "." word_is[k])
    gsub(/[(){}.;,@"]/, " ", s)
    n = split(s, part, " ")
    for (i = 1; i <= n; i++) {
        name = part[i]
        found = name ~ /^[0-9][0-9_]*$/ || name in own_bound || name in label || name in lent
        for (k = 1; k <= words; k++)
            if (is_word(name, word[k])) { found = 1; needs[k] }
        if (!found) fault(place, record ": " name " comes from nowhere")
    }
}

# a name, or a part of an operator
function is_word(name, w) {
    return name == w || index(w, "◌") && index("◌" w "◌", "◌" name "◌")
}

# the words that a file brings are used in its clauses, of private functions too
function unused(    i, k, n, part, s, found) {
    s = clause_texts
    gsub(/«|»/, " ", s)
    gsub(/[(){}.;,@"]/, " ", s)
    n = split(s, part, " ")
    for (k = 1; k <= words; k++) {
        found = 0
        for (i = 1; i <= n && !found; i++) found = is_word(part[i], word[k])
        if (!found) fault(word_at[k], word[k] " is brought and used in no clause")
    }
}

# Pairs of a module and a word of it, each behind SUBSEP: a line for each module, both in the order of their bytes
function modules(list, before,    n, pair, i, j, key, count, of, last) {
    n = split(substr(list, 2), pair, SUBSEP)
    for (i = 1; i < n; i += 2) {
        key = pair[i] SUBSEP pair[i + 1]
        for (j = count++; j > 0 && sorted[j] > key; j--) sorted[j + 1] = sorted[j]
        sorted[j + 1] = key
    }
    for (i = 1; i <= count; i++) {
        split(sorted[i], of, SUBSEP)
        printf "%s", of[1] == last ? ", " of[2] : (i > 1 ? "}\n" : "") "  " before of[1] ".{" of[2] >made
        last = of[1]
    }
    if (count) print "}" >made
}

# ---- in the order of the files

function finish() {
    if (file == "") return
    if (depth || in_tree) fault(file, "ends within a clause")
    p = 1
    items(toks, "")
    unused()
    if (index(tabled, " " crate " ")) paragraphs()
    toks = words = kept = depth = in_tree = 0
    clause_texts = ""
    split("", used)
    split("", own)
}

BEGIN {
    HEADS = "^(Prim|mathlib|lib|native|package|denote|contract|Rattle.*)$"
    CLAUSE = "^(requires|ensures)( .*:)?$|^ghost$"
    # what every clause is lent, and what every file has of antt
    n = split("λ × → ¬ : _ = let in record result", part, " ")
    while (n > 0) lent[part[n--]]
    n = split("⊥ Unit tt absurd suc Type rw simp search grind omega cc arith ground assumption", part, " ")
    while (n > 0) prelude[part[n--]]
    for (n = 1; n < ARGC; n++)
        if (ARGV[n] ~ /^crates\//) {
            split(ARGV[n], part, "/")
            ours[part[2]]
        }
}
FILENAME ~ /\.antt$/ { spec_line($0); next }
FNR == 1 {
    finish()
    file = FILENAME
    module = file
    sub(/^crates\//, "", module)
    crate = module
    sub(/\/.*/, "", crate)
    sub(/\/src\//, "::", module)
    sub(/\.rt$/, "", module)
    sub(/::(lib|main)$/, "", module)
    space = 0
}
{ scan($0) }
END {
    finish()
    for (i = 1; i <= names; i++)
        if (named[i] in home || named[i] in prelude || named[i] in lent) fault(named_at[i], named[i] " is a word of the library")
    for (name in clause_place)
        if (split(homes[name], part, ", ") > 2) fault(clause_place[name], name " is brought from several modules: " substr(homes[name], 3))
    for (i = 1; i <= types; i++)
        if (!(typed[i] in in_table)) fault("contracts", typed_in[i] ": " typed[i] " is not in the table")
    for (i = 1; i <= needed; i++) {
        name = needed_word[i]
        if (name in home && home[name] == needed_of[i]) library[needed_of[i], name]
        else after[needed_row[i]] = after[needed_row[i]] SUBSEP needed_of[i] SUBSEP name
    }
    print "# What hosts are promised and asked: the public functions, types and constants of the crates that they use, as tests/contracts.awk reads them out of the sources." >made
    print "# tests/assurance write makes this file anew: a change of it is a change of what hosts go by.\n\nlibrary" >made
    for (key in library) list = list SUBSEP key
    modules(list)
    for (i = 1; i <= rows; i++) {
        print table[i] >made
        if (i in after) modules(after[i], "with ")
    }
    exit faults > 0
}
