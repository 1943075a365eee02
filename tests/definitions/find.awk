# The definitions of specs/, what each uses, and which of them the demands and the public contracts rest on.
# Lines are those of antt without comments, blank lines and `use` lines; a signature is one of them.
# Prints a line for each definition: `demands`, `contracts`, `cases` (01's starred cases), `private` or `idle`; its name, file, lines.
# the file that the module path of a `use` line means
function file_of(module,    part) {
    sub(/^Rattle\./, "", module)
    if (module !~ /\.specs\./ || module ~ /\.declared\./) return ""
    split(module, part, ".")
    return "crates/" part[1] "/specs/" part[3] ".antt"
}
function import(line, file,    module, names, n, i, item) {
    module = line
    sub(/^ *(ghost )?use /, "", module); sub(/\.\{.*/, "", module)
    names = line
    sub(/^[^{]*\{/, "", names); sub(/\}.*/, "", names)
    n = split(names, item, /, */)
    for (i = 1; i <= n; i++) from[file, item[i]] = file_of(module)
}
# the words of a text that are definitions, seen from its file
function uses(text, file, mark,    word, n, i, at) {
    gsub(/[][(){},;.]/, " ", text)
    n = split(text, word, " ")
    for (i = 1; i <= n; i++) {
        at = (file, word[i]) in from ? from[file, word[i]] : file
        if ((at, word[i]) in lines) reach(at, word[i], mark)
    }
}
function reach(file, name, mark) {
    if ((file, name) in rests) return
    rests[file, name] = mark
    uses(body[file, name], file, mark)
}
FILENAME ~ /Lib\.antt$/ { next }
FNR == 1 { inside = 0; held = ""; private[FILENAME] = $0 ~ /^-- For private contracts alone/ }
/^ *(ghost )?use Rattle/ { import($0, FILENAME) }
/^ *(ghost )?use .*\{$/ { held = $0; next }
held != "" { held = held " " $0; if ($0 ~ /^\}/) { import(held, FILENAME); held = "" } next }
# contracts: the public routines' `ensures`
FILENAME ~ /\.rt$/ {
    if ($0 ~ /^ *pub (extern "C" )?fn /) public = 1
    else if ($0 ~ /^ *(pub\(crate\) )?fn /) public = 0
    if (public && $0 ~ /^ *ensures[ *]/) said = 1
    if ($0 ~ /^ *\{$/) said = 0
    if (said) contract[FILENAME] = contract[FILENAME] " " $0
    next
}
{ indent = match($0, /[^ ]/) - 1; split($0, word, " ") }
/^use / || indent < 0 || word[1] == "--" { next }
inside && (indent > 0 || word[1] == name) { lines[FILENAME, name]++; body[FILENAME, name] = body[FILENAME, name] " " $0; next }
{ inside = 0 }
match($0, /^(abbrev |unfoldable )?pub (record |data )?/) {
    split(substr($0, RLENGTH + 1), word, " ")
    name = word[1]
    inside = 1
    lines[FILENAME, name] = 1
    body[FILENAME, name] = $0
    order[++count] = FILENAME SUBSEP name
}
END {
    promised = "crates/promises/specs/Promised.antt"
    reach(promised, "PlanningKeeps", "demands")
    reach(promised, "EditorKeeps", "demands")
    reach(promised, "BooksKeep", "demands")
    reach(promised, "Promised", "contracts")
    reach("crates/cases/specs/Cases.antt", "Claim", "cases")
    for (file in contract) uses(contract[file], file, "contracts")
    for (i = 1; i <= count; i++) {
        split(order[i], key, SUBSEP)
        mark = (key[1], key[2]) in rests ? rests[key[1], key[2]] : private[key[1]] ? "private" : "idle"
        print mark, key[2], substr(key[1], 8), lines[key[1], key[2]]
    }
}
