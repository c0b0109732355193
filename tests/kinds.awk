# The rows of `kinds` and the numbers of `refusal_code`, for a test that holds a page to them. The test puts its own program after this one, and gives
# crates/model/specs/Kinds.antt and crates/model/specs/Answers.antt before its other files. It then has
#   kind_count, and of each row i from 1 on kind_number[i], kind_fields[i] (how many), kind_call[i] and kind_codes[i]; kind_row[number], the row of a kind
#   code_count, and code_of[name] of each refusal; codes[number], the kinds that test a code, or nothing
# A list has ", " between its numbers.
function join(list, item) { return list (list == "" ? "" : ", ") item }
FILENAME ~ /model\/specs\/Kinds\.antt$/ && match($0, / kind [0-9]+ [0-9]+ [A-Z]/) {
    kinds_line = substr($0, RSTART)
    split(kinds_line, kinds_word, " ")
    kind_number[++kind_count] = kinds_word[2]
    kind_fields[kind_count] = kinds_word[3]
    kind_call[kind_count] = kinds_word[4]
    kind_row[kinds_word[2]] = kind_count
    sub(/^[^(]*/, "", kinds_line)
    kinds_n = split(kinds_line, kinds_word, /[^0-9]+/)
    for (kinds_i = 1; kinds_i <= kinds_n; kinds_i++)
        if (kinds_word[kinds_i] != "") {
            kind_codes[kind_count] = join(kind_codes[kind_count], kinds_word[kinds_i])
            codes[kinds_word[kinds_i]] = join(codes[kinds_word[kinds_i]], kind_number[kind_count])
        }
    next
}
FILENAME ~ /model\/specs\/Answers\.antt$/ && /^refusal_code Refusal\.[A-Za-z]+ = [0-9]+$/ {
    sub(/^Refusal\./, "", $2)
    code_of[$2] = $4
    codes[$4] = codes[$4]
    code_count++
    next
}
