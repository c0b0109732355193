# run_text(line): what of a line of a .rt file runs: without comments, imports of definitions, and clauses, which may go over some lines. no_clause() before a file.
function no_clause() { code_ends = ""; code_deep = 0 }
function run_text(rest,    text, at, c) {
    text = ""
    while (rest != "") {
        if (code_ends == ";") {
            at = index(rest, ";")
            rest = at ? substr(rest, at + 1) : ""
            if (at) code_ends = ""
        } else if (code_ends == "}") {
            for (at = 1; code_deep && at <= length(rest); at++) {
                c = substr(rest, at, 1)
                if (c == "{") code_deep++
                if (c == "}") code_deep--
            }
            rest = substr(rest, at)
            if (!code_deep) code_ends = ""
        } else if (text == "" && match(rest, /^[ \t]*ghost use /)) {
            code_ends = ";"
        } else if (text == "" && match(rest, /^[ \t]*(requires|ensures)\*?( [a-z_0-9]+)? \{/)) {
            code_ends = "}"
            code_deep = 1
            rest = substr(rest, RLENGTH + 1)
        } else {
            at = index(rest, "//")
            text = text (at ? substr(rest, 1, at - 1) : rest)
            rest = ""
        }
    }
    return text
}
