# What the named .antt and .rt files define, a line for each fact, its parts divided by tabs:
#   use FILE IMPORT                       an import, as it is written
#   name FILE BLOCK NAME                  the block defines the name: its own, a constructor's (also TYPE.NAME), an exported function's contract's
#   field FILE BLOCK NAME                 it has a field of that name (also TYPE.NAME); of an .rt file, an item of that name
#   in FILE BLOCK OUTER                   it stands in a module with parameters, whose header is the block OUTER
#   line FILE BLOCK TEXT                  a line of the block, without its comment, and without the field or the constructor that it declares
# A block is a signature with its clauses, a data or record declaration with what stands in it, or a module's header. Layout is by
# `rt fmt`: two spaces for what stands inside, four for a line that goes on.
BEGIN { FS = " "; OFS = "\t" }

function say(kind, text) { if (block) print kind, FILENAME, block, text }

function named(kind, words, type,    n, i, w) {
    n = split(words, w, " ")
    for (i = 1; i <= n; i++) {
        say(kind, w[i])
        if (type != "") say(kind, type "." w[i])
    }
}

function opens(kind) {
    block = ++blocks
    type = ""
    holds = kind
    if (depth && outer[depth]) say("in", outer[depth])
}

FNR == 1 { depth = body[0] = block = header = contract = 0; rust = FILENAME ~ /\.rt$/ }
{ sub(rust ? "(^| +)//.*$" : "(^| +)--( .*)?$", ""); sub(/ +$/, "") }
$0 == "" { next }
/^(ghost )?use / { sub(/^(ghost )?use /, ""); sub(/;$/, ""); print "use", FILENAME, $0; next }

# An .rt file: its items, and the clauses of the functions that C can call.
rust {
    if (match($0, /(fn|const|struct|enum) [A-Za-z_0-9]+/)) {
        item = substr($0, RSTART, RLENGTH)
        sub(/.* /, "", item)
        block = ++blocks
        say("field", item)
        if (exported && $0 ~ / fn /) { say("name", "contract of " item); contract = 1 }
        exported = 0
    }
    if ($0 ~ /^#\[unsafe\(no_mangle\)\]/) exported = 1
    if ($0 ~ /^\{/) contract = 0
    if (contract && $0 ~ /^ +(requires|ensures) /) say("line", $0)
    next
}

{
    match($0, /^ */)
    column = RLENGTH
    text = substr($0, column + 1)
}
# what is derived of a type is a theorem, and the kit's: its name stands for the type
text ~ /^deriving / { sub(/^deriving .* as /, "", text); named("name", text, ""); next }
# a module's parameters may take more lines
header { say("line", text); if (text ~ /where$/) header = 0; next }
{ while (depth && column < body[depth]) { depth--; block = 0 } }
column > body[depth] {
    if (column == body[depth] + 2 && holds != "" && text ~ /^[^(){}]+ :( |$)/) {
        label = text
        sub(/^pub /, "", label)
        sub(/ :( .*)?$/, "", label)
        named(holds, label, type)
        sub(/^[^:]* :/, ":", text)
    }
    say("line", text)
    next
}
text ~ /^(pub )?module / || text ~ /^mutual/ {
    opens("")
    say("line", text)
    if (text ~ /^(pub )?module [^_ ]/) { sub(/^(pub )?module /, "", text); sub(/ .*/, "", text); say("field", text) }
    depth++
    body[depth] = column + 2
    outer[depth] = block
    header = $0 !~ /where$/ && $0 !~ /mutual/
    next
}
text ~ /^infix/ { block = 0; next }
text ~ /^(pub )?(data|record) / {
    opens(text ~ /^(pub )?data/ ? "name" : "field")
    say("line", text)
    sub(/^(pub )?(data|record) /, "", text)
    sub(/ .*/, "", text)
    type = text
    named("name", text, "")
    next
}
text ~ /^((pub|abbrev|unfoldable) )*[^(){}=]+ :( |$)/ {
    opens("")
    say("line", text)
    while (sub(/^(pub|abbrev|unfoldable) /, "", text)) { }
    sub(/ :( .*)?$/, "", text)
    named("name", text, "")
    next
}
{ say("line", text) }
