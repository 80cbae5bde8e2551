# Shows each line of a script beside its answer, which the file ANSWERS holds. An answer is one line, and that of `list` goes
# on until a line that isn't of a node or a block. Comments have none.
function answer() {
    if ((getline said < answers) <= 0) {
        print "no answer: " $0
        exit 1
    }
    return said
}
/^#/ {
    print (told ? "" : "\n") $0
    told = 1
    next
}
{
    told = 0
}
/^list / {
    print
    while (answer() ~ /^[dfb] /) print "    " said
    print "    " said
    next
}
{
    printf "%-32s %s\n", $0, answer()
}
