# Writes the range tables of crates/chars/src/tables.rt as named classes of re2c, for bench/peer.re.
BEGIN { print "/*!re2c" }
/^pub static / {
    name = tolower($3)
    sub(/:$/, "", name)
    text = ""
}
/^ *\(0x/ {
    gsub(/[(),]/, "")
    for (i = 1; i <= NF; i++) text = text (ends++ % 2 ? "-" : "") "\\u" substr($i, 3, 4)
}
/^\];/ { print name " = [" text "];" }
END { print "*/" }
