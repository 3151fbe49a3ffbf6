# Reads the disassembly of the library (objdump -d --no-show-raw-insn). Prints for each exported function the bytes of stack that it takes,
# its callees' included; says which functions have a loop that touches stack pages behind their entry, and then fails.
#
# Such a loop keeps its end in r11. At a function's entry, where only pushes stand before it, r11 holds nothing; further down it may hold a
# value that the loop overwrites (docs/DECISIONS.md, 'No function of the libraries declares 32 KB of arrays').
function number(text,    n, i) {
    sub(/^\$/, "", text); sub(/^0x/, "", text); n = 0
    for (i = 1; i <= length(text); i++) n = n * 16 + index("0123456789abcdef", substr(text, i, 1)) - 1
    return n
}
/^[0-9a-f]+ <.*>:$/ {
    name = $0; sub(/^[0-9a-f]+ </, "", name); sub(/>:$/, "", name)
    names[++count] = name; entry = 1; frame[name] = 0; goal = 0
    next
}
/^ *[0-9a-f]+:\t/ {
    line = $0; sub(/^ *[0-9a-f]+:\t/, "", line)
    op = line; sub(/ .*/, "", op)
    args = line; sub(/^[^ ]* */, "", args)
    if (op == "push") { frame[name] += 8; next }
    if (line ~ /^mov +%rsp,%r11/) {
        if (!entry) { late[name] = 1 }
        probing = 1; next
    }
    if (probing && line ~ /^sub +\$0x[0-9a-f]+,%r11/) { split(args, part, ","); frame[name] += number(part[1]); next }
    if (probing && line ~ /^lea +-0x[0-9a-f]+\(%rsp\),%r11/) { split(args, part, "("); sub(/^-/, "", part[1]); frame[name] += number(part[1]); next }
    if (line ~ /^lea +-0x[0-9a-f]+\(%rsp\),%r11/) {
        if (!entry) { late[name] = 1 }
        split(args, part, "("); sub(/^-/, "", part[1]); frame[name] += number(part[1]); probing = 1; next
    }
    # the loop's own steps aren't counted: its whole size is
    if (probing && line ~ /^(sub +\$0x1000,%rsp|movq +\$0x0,\(%rsp\)|cmp +%r11,%rsp)/) next
    if (probing && op ~ /^j/) { probing = 0; next }
    if (line ~ /^sub +\$0x[0-9a-f]+,%rsp/) { split(args, part, ","); frame[name] += number(part[1]); next }
    if (line ~ /^add +\$0xffff[0-9a-f]+,%rsp/) { next }
    if (line ~ /^(movq +\$0x0,\(%rsp\)|mov +%rsp,%rbp)/) next
    if (op == "call" && args ~ /</) {
        callee = args; sub(/^[^<]*</, "", callee); sub(/(\+0x[0-9a-f]+)?>.*$/, "", callee)
        calls[name] = calls[name] "\n" callee
    }
    entry = 0
}
# objdump -dr prints the target of a call into another section as a relocation under it
/R_X86_64_PLT32/ { callee = $3; sub(/[-+]0x[0-9a-f]+$/, "", callee); sub(/^\.text\./, "", callee); calls[name] = calls[name] "\n" callee }
function depth(f,    list, n, i, d, most) {
    if (f in known) return known[f]
    if (!(f in frame)) return 0
    n = split(calls[f], list, "\n"); most = 0
    for (i = 1; i <= n; i++) if (list[i] != "" && list[i] != f) { d = depth(list[i]) + 8; if (d > most) most = d }
    known[f] = frame[f] + most
    return known[f]
}
END {
    bad = 0
    for (i = 1; i <= count; i++) {
        f = names[i]
        if (f ~ /^committer_/) printf "%s %d\n", f, depth(f)
        if (f in late) { printf "stack pages are touched in a loop behind the entry of %s\n", f > "/dev/stderr"; bad = 1 }
    }
    if (count == 0) { print "no function was found in the disassembly" > "/dev/stderr"; bad = 1 }
    exit bad
}
