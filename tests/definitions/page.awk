# docs/DEFINITIONS.md as it should be: first come the definitions as find.awk finds them, then the page. Names, files, lines
# and sums are made anew; the words, the headings and the order of the rows are the page's own. What is new stands under "To be placed".
function row(mark, name, words) { return "| `" name "` | `" file[mark, name] "` | " lines[mark, name] " | " words " |" }
function keep(line) { text[++n] = line }
# a heading with the lines of what stands under it
function close_section() {
    if (heading) sub(/: [0-9]+ lines/, ": " section " lines", text[heading])
    heading = 0; section = 0
}
function counted(mark,    i, c) { for (i = 1; i <= count; i++) c += order[i] ~ "^" mark " "; return c }
function place_new(mark,    i, begun) {
    for (i = 1; i <= count; i++) {
        split(order[i], key, " ")
        if (key[1] != mark || (mark, key[2]) in seen) continue
        if (!begun++) { close_section(); keep("## To be placed: 0 lines"); heading = n; keep(""); keep("| definition | file | lines | what it says |"); keep("|---|---|---|---|") }
        keep(row(mark, key[2], "?")); section += lines[mark, key[2]]; all[mark] += lines[mark, key[2]]
    }
    if (begun) keep("")
    close_section()
}
NR == FNR { if ($1 == "demands" || $1 == "contracts") { order[++count] = $1 " " $2; file[$1, $2] = $3; lines[$1, $2] = $4 } next }
FNR == 1 { mark = "demands" }
/^# Under the demands/ { under = n + 1 }
/^# Beyond/ { place_new("demands"); mark = "contracts" }
/^## / { close_section(); keep($0); heading = n; next }
/^\| `/ {
    split($0, cell, " [|] ")
    name = cell[1]; gsub(/[|` ]/, "", name)
    words = $0; sub(/^\| `[^`]*` \| `[^`]*` \| [0-9]+ \| /, "", words); sub(/ \|$/, "", words)
    if (!((mark, name) in lines) || (mark, name) in seen) next
    seen[mark, name] = 1
    keep(row(mark, name, words)); section += lines[mark, name]; all[mark] += lines[mark, name]
    next
}
/^In all [0-9]+ lines/ { total = n + 1 }
{ keep($0) }
END {
    place_new("contracts")
    sub(/: [0-9]+ lines/, ": " all["demands"] " lines", text[under])
    demands = counted("demands"); contracts = counted("contracts")
    text[total] = "In all " all["demands"] + all["contracts"] " lines, " demands + contracts " definitions; " \
        all["demands"] " lines, " demands " definitions, under the demands."
    for (i = 1; i <= n; i++) print text[i]
}
