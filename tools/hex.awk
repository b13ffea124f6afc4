# The bytes that a hex text means, for ./play. Input: the text's bytes as decimal numbers, as od prints them, so that no
# byte of the text can upset awk; a line "unreadable" says that reading failed. Output: a line for each byte, in octal
# and with LINE:COLUMN of its first digit. Or, with status 65 or 66, one line that says what is wrong.

function fault(place, words) { print place ": " words; exit status = 65 }
function lone(c) { if (high >= 0) fault(line ":" c, "a hex digit alone; two together make a byte") }
function digit(b) { return b > 47 && b < 58 ? b - 48 : b > 64 && b < 71 ? b - 55 : b > 96 && b < 103 ? b - 87 : -1 }
function shown(b) { return b > 32 && b < 127 ? sprintf("\"%c\"", b) : sprintf("the byte %02X", b) }

# What stands there, by its bytes in hex. Single bytes from 80 up are as Windows and Latin-1 have them.
function named(hex, b) {
    if (first && hex ~ /^(FFFE|FEFF|00(09|0A|0D|[2-7])|[2-7].00)/) return utf16
    if (b == 0) return "the byte 00 is no text"
    if (hex ~ /^(C2A0|A0|E280AF)/) return "a no-break space; put a plain space in its place"
    if (hex ~ /^(E2808[0-9A]|E38080)/) return "a typographic space; put a plain space in its place"
    if (hex ~ /^(E2808[B-F]|E281A0|C2AD|EFBBBF)/) return "a character that is not seen; take it out"
    if (hex ~ /^(E2809[89A-F]|E280B[9A]|C2AB|C2BB|8[24B]|9[1234B]|AB|BB)/) return "a typographic quote is no hex digit"
    if (hex ~ /^(E2809[0-5]|E28892|9[67])/) return "a typographic dash is no hex digit"
    if (hex ~ /^2F2F/) return "\"//\" is no hex digit; \"#\" begins a comment"
    return shown(b) " is no hex digit" (b == 59 ? "; \"#\" begins a comment" : "")
}

# A byte that is no hex text waits for the two after it, which may belong to it.
function odd(b) { place = line ":" column; what = b; hex = sprintf("%02X", b); first = size == 1 }

BEGIN {
    utf16 = "the text is UTF-16, two bytes to a letter; save it as UTF-8 or plain text"
    line = 1
    column = 0
    high = -1
}
$1 == "unreadable" { print " cannot be read"; exit status = 66 }
{
    for (i = 1; i <= NF; i++) {
        b = $i + 0
        # Input without end has an answer too.
        if (++size > 1048576) { print " longer than 1 MiB of text"; exit status = 65 }
        if (hex != "") {
            hex = hex sprintf("%02X", b)
            if (length(hex) < 6) continue
            if (!first || hex != "EFBBBF") fault(place, named(hex, what))
            # A byte order mark before the text is no part of it, and has no column.
            hex = ""
            column = 0
            continue
        }
        column++
        if (b == 0 && size == 2) fault("1:1", utf16)
        # A lone one ends a line for some editors: what it hides in a comment would be left out unseen.
        if (cr && b != 10) fault(line ":" column - 1, "a carriage return that does not end the line")
        cr = b == 13
        if (b == 10) { lone(column - 1); line++; column = comment = 0; continue }
        if (b == 0 && size == 1) { odd(b); continue }
        if (b < 32 && b != 9 && !cr) fault(line ":" column, shown(b) " is no text")
        if (comment) continue
        if (b == 9 || b == 32 || b == 35 || cr) { lone(column - 1); comment = b == 35; continue }
        if (digit(b) < 0) { odd(b); continue }
        if (high < 0) { high = digit(b); continue }
        # One more than the program takes.
        if (++count <= 16385) byte[count] = sprintf("%03o %d:%d", high * 16 + digit(b), line, column - 1)
        high = -1
    }
}
END {
    if (status) exit status
    if (hex != "") fault(place, named(hex, what))
    lone(column)
    for (i = 1; i in byte; i++) print byte[i]
}
