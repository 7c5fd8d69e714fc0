# A trace with its answers beside it, for a person to read. Input: the trace; `answers` is the file with what `replay` printed for it.
#
#     awk -v answers=OUTPUT -f tools/readable.awk TRACE
#
# Each line that is not passed over has one line of answers, but for `state`, which has one more for each vCPU.
# The words are of this file; the numbers are the program's (docs/REPLAY.md).

BEGIN {
    COLUMN = 38
    LONGEST = 65536
    for (k = 0; k < 16; k++) DIGIT[substr("0123456789abcdef", k + 1, 1)] = k

    WHY["0x1"] = "no such vCPU"
    WHY["0x2"] = "page too short"
    WHY["0x3"] = "still active"
    WHY["0x4"] = "nothing in flight"
    WHY["0x5"] = "n or VMPL out of range"
    WHY["0x6"] = "over 256 values, or too few places for codes"
    WHY["0x7"] = "has left"
    WHY["0x80000001"] = "not active"
    WHY["0x80000002"] = "no such call"
    WHY["0x80000003"] = "no such register for this"
    WHY["0x80000005"] = "value or ECX not taken"
    WHY["0x80000007"] = "count is at its most"
    WHY["0x80001000"] = "count is 0"

    # The words behind the first, by kind, and what may follow them. A page's or a list's word is its length.
    FORM["start"] = "number number"
    FORM["notice"] = "number page"
    FORM["call"] = "number number number wide"
    FORM["entry"] = "number flag flag flag"
    FORM["nondelivery"] = "number"
    FORM["handback"] = "number flag flag page"
    FORM["allow"] = "number list number"
    FORM["ask"] = "number"
    FORM["state"] = ""
    REST["notice"] = REST["handback"] = "byte"
    REST["allow"] = "number"

    MOST["number"] = 4294967295
    MOST["flag"] = 1
    MOST["page"] = 4096
    MOST["list"] = VALUES = 1024

    OVER["number"] = "a number too large, over 32 bits"
    OVER["wide"] = "a number too large, over 64 bits"
    OVER["flag"] = "a flag that is neither 0 nor 1"
    OVER["page"] = "a page too long, over 4,096 bytes"
    OVER["list"] = "a second list too long, over 1,024 places"
}

# Decimal, or hexadecimal after 0x; exact where the numbers are that are asked here, up to 32 bits.
function number(word,    k, value) {
    if (substr(word, 1, 2) != "0x") return word + 0
    word = tolower(substr(word, 3))
    for (k = 1; k <= length(word); k++) value = 16 * value + DIGIT[substr(word, k, 1)]
    return value + 0
}

# What comes beside or, where the line is long, below a line of the trace.
function show(line, answer) {
    if (length(line) < COLUMN) printf "%s%s-> %s\n", line, spaces(COLUMN - length(line)), answer
    else printf "%s\n%s-> %s\n", line, spaces(COLUMN), answer
}

function spaces(n,    s) {
    while (n-- > 0) s = s " "
    return s
}

function refused(code) {
    return "refused " code (code in WHY ? " (" WHY[code] ")" : "")
}

function next_answer(    line) {
    if ((getline line < answers) <= 0) {
        print "readable: the answers end before the trace" > "/dev/stderr"
        broken = 1
        exit 1
    }
    return line
}

# ---- guest calls

function register(n) {
    if (n == 2050) return "ID"
    if (n == 2056) return "TPR"
    if (n == 2058) return "PPR"
    if (n == 2061) return "LDR"
    if (n == 2096) return "ICR"
    if (n >= 2064 && n < 2072) return "ISR word " (n - 2064)
    if (n >= 2072 && n < 2080) return "TMR word " (n - 2072)
    if (n >= 2080 && n < 2088) return "IRR word " (n - 2080)
    return "register"
}

# The vCPUs whose bits are set, as vCPUs 0, 3-5.
function reached(mask,    k, from, text) {
    from = -1
    for (k = 0; k <= 32; k++) {
        if (mask % 2 == 1) {
            if (from < 0) from = k
        } else if (from >= 0) {
            text = text (text == "" ? "" : ", ") (from == k - 1 ? from : from "-" (k - 1))
            from = -1
        }
        mask = int(mask / 2)
    }
    return (text ~ /[-,]/ ? "vCPUs " : "vCPU ") text
}

function written(n, value) {
    if (n == 2056) return "TPR written"
    if (n == 2059) return value == "0x0" ? "EOI, none owed to the host" : "EOI, and one owed to the host for " value
    if (n == 2111) return value == "0x0" ? "IPI to itself, was pending" : "IPI to itself"
    return value == "0x0" ? "IPI, new to nobody" : "IPI, new to " reached(number(value))
}

function permitted(ecx,    vector) {
    vector = ecx % 256
    return (vector == 2 ? "the NMI" : vector == 18 ? "the machine check" : sprintf("0x%x", vector)) (ecx >= 256 ? " is allowed" : " is no longer allowed")
}

function called(call, ecx, value) {
    if (call == 0) return "features " value
    if (call == 1 && ecx == 0) return "ok, leaves if the count is 0"
    if (call == 1 && ecx == 1) return "ok, count down, leaves if it is 0"
    if (call == 1) return "ok, count up"
    if (call == 2) return register(ecx) " is " value
    if (call == 3) return written(ecx, value)
    return permitted(ecx)
}

# ---- lists of values

# Words 5 on are the values of the line and, in the answer, the places of the second list.
function listed(given, words, told, count,    k, wrong, names) {
    for (k = 5; k <= words; k++) if (told[k] != "0x0" && ++wrong <= 6) names = names (wrong == 1 ? "" : " ") given[k]
    if (wrong > 6) names = names " ..."
    return (words < 5 ? "no value" : (words - 4 - wrong) " accepted") (wrong ? ", " wrong " refused (" names ")" : "") places(given, told, words + 1, count)
}

# The places from one on, if there are any; word 4 of the line says what stood there.
function places(given, told, from, count,    k) {
    if (count < from) return ""
    for (k = from; k <= count; k++) if (number(told[k]) != number(given[4])) return "; places changed"
    return "; " (count - from + 1) (count == from ? " place" : " places") " as before"
}

# ---- entries

function presented(what, vector) {
    if (what == "mc") return "machine check"
    if (what == "nmi") return "NMI"
    return what (what == "window" ? " for " : " ") vector
}

# ---- pages

# The bytes that are not zero, from words OFFSET=BYTE, lowest offset first.
function bytes_of(word, from, count,    k, at, offset, last, byte, text) {
    last = -1
    for (k = from; k <= count; k++) {
        at = index(word[k], "=")
        offset = number(substr(word[k], 1, at - 1))
        byte[offset] = number(substr(word[k], at + 1))
        if (offset > last) last = offset
    }
    for (k = 0; k <= last; k++) if (k in byte && byte[k] != 0) text = text sprintf(" 0x%x=0x%x", k, byte[k])
    return text
}

function page(before, after) {
    if (after == before) return "page as it was"
    return after == "" ? "page now all 0" : "page now" after
}

function admitted(new, merged) {
    if (new + merged == 0) return "nothing admitted"
    if (merged == 0) return new " new"
    if (new == 0) return merged " that " (merged == 1 ? "was" : "were") " pending"
    return new " new, " merged " that " (merged == 1 ? "was" : "were") " pending"
}

function handed(value) {
    return sprintf("handed back with TPR 0x%x, shadow %d, IF %d", int(value / 256) % 256, int(value / 2) % 2, value % 2)
}

# ---- the module

function part(name, value, empty) {
    return value == empty ? "" : ", " name " " value
}

function record(line,    word, n, k, at, field) {
    n = split(line, word, " ")
    for (k = 3; k <= n; k++) {
        at = index(word[k], "=")
        field[substr(word[k], 1, at - 1)] = substr(word[k], at + 1)
    }
    if (field["flight"] == "mc") field["flight"] = "machine check"
    return "vCPU " number(word[2]) " " field["phase"] part("in flight", field["flight"], "nothing") (field["mc"] == "0x1" ? ", machine check pending" : "") \
        (field["nmi"] == "0x0" ? "" : ", NMI pending") \
        part("TPR", field["tpr"], "0x0") part("ICR", field["icr"], "0x0") part("allowed", field["allowed"], "{}") \
        part("pending", field["pending"], "{}") part("of these level", field["pending_level"], "{}") \
        part("in service", field["service"], "{}") part("of these level", field["serving_level"], "{}") \
        part("summary", field["summary"], "0x0")
}

function show_module(line, first,    word, n, k) {
    split(first, word, /[ =]/)
    n = number(word[3])
    show(line, n (n == 1 ? " vCPU" : " vCPUs") " at VMPL " number(word[5]) ", count " number(word[7]))
    for (k = 0; k < n; k++) print spaces(COLUMN + 3) record(next_answer())
}

# ---- unreadable lines

# What seems to be wrong with a line: the first that is found, told from the line alone. `replay` says only that it is unreadable.
function likely(line, word, words,    why) {
    why = odd_characters(line)
    if (why == "") why = odd_first(word[1])
    if (why == "") why = odd_count(word, words)
    if (why == "") why = odd_word(word, words)
    return why == "" ? "" : ": likely " why
}

function odd_characters(line) {
    if (length(line) > LONGEST) return "a line too long, over 65,536 bytes"
    if (line ~ /^[ \t]+#/) return "a comment that does not begin at the first character"
    if (line ~ /#/) return "a comment behind an event"
    if (line ~ /\r/) return "a carriage return"
    if (line ~ /\t/) return "a tab"
    if (line ~ /[^ -~]/) return "a character that no word has"
    return ""
}

function odd_first(word) {
    if (word in FORM) return ""
    if (tolower(word) in FORM) return "a capital letter in the first word"
    return "an unknown first word (" short(word) ")"
}

function odd_count(word, words,    kinds, behind) {
    behind = words - 1 - split(FORM[word[1]], kinds, " ")
    if (behind < 0) return "too few words"
    if (behind > 0 && !(word[1] in REST)) return "too many words"
    if (behind > VALUES && word[1] == "allow") return "too many values, over 1,024"
    return ""
}

# The first word that is not of its kind. Where bytes follow, the word before them is the page's length.
function odd_word(word, words,    kinds, n, k, why) {
    n = split(FORM[word[1]], kinds, " ")
    for (k = 2; k <= words && why == ""; k++) {
        if (k <= n + 1) why = odd_number(word[k], kinds[k - 1])
        else if (REST[word[1]] == "byte") why = odd_byte(word[k], word[n + 1])
        else why = odd_number(word[k], REST[word[1]])
    }
    return why
}

function odd_number(word, kind) {
    if (!is_number(word)) return "not a number (" short(word) ")"
    if (kind == "wide" ? over_64_bits(word) : number(word) > MOST[kind]) return OVER[kind] " (" short(word) ")"
    return ""
}

function odd_byte(word, size,    at, offset, byte) {
    if (word !~ /^[^=]+=[^=]+$/) return "not OFFSET=BYTE (" short(word) ")"
    at = index(word, "=")
    offset = substr(word, 1, at - 1)
    byte = substr(word, at + 1)
    if (!is_number(offset) || !is_number(byte)) return "not a number (" short(word) ")"
    if (number(offset) >= number(size)) return "an offset out of the page, which has " number(size) " bytes (" short(word) ")"
    if (number(byte) > 255) return "a byte over 255 (" short(word) ")"
    return ""
}

function is_number(word) {
    return word ~ /^[0-9]+$/ || word ~ /^0x[0-9a-fA-F]+$/
}

# By its digits, since numbers so large are not exact here.
function over_64_bits(word) {
    if (sub(/^0x0*/, "", word)) return length(word) > 16
    sub(/^0+/, "", word)
    return length(word) > 20 || (length(word) == 20 && (word "") > "18446744073709551615")
}

function short(word) {
    return length(word) > 24 ? substr(word, 1, 24) "..." : word
}

# ---- lines

function answer_of(given, words, told, count,    text) {
    if (told[1] == "error") return "unreadable (line " told[3] ")" likely($0, given, words)
    if (told[2] == "refused") text = refused(told[3]) (told[1] == "allow" ? places(given, told, 5, count) : "")
    else if (told[1] == "start") text = "ok"
    else if (told[1] == "notice") text = admitted(number(told[3]), number(told[4]))
    else if (told[1] == "call") text = called(number(given[3]), number(given[4]), told[3])
    else if (told[1] == "entry") text = presented(told[2], told[3])
    else if (told[1] == "nondelivery") text = "pending again"
    else if (told[1] == "ask") text = told[2] == "yes" ? "yes, an entry would present something" : "no"
    else if (told[1] == "allow") text = listed(given, words, told, count)
    else text = handed(number(told[3]))
    if (told[1] == "notice") text = text "; " page(bytes_of(given, 4, words), bytes_of(told, told[2] == "ok" ? 6 : 5, count))
    if (told[1] == "handback") text = text "; " page(bytes_of(given, 6, words), bytes_of(told, 5, count))
    sub(/ +$/, "", text)
    return text
}

{ shown = $0; gsub(/[\001-\010\013-\037\177]/, "?", shown) }
/^#/ || (/^ *$/ && length($0) <= LONGEST) { print shown; next }
{
    answer = next_answer()
    if (answer ~ /^module /) { show_module(shown, answer); next }
    words = split($0, given, " ")
    count = split(answer, told, " ")
    show(shown, answer_of(given, words, told, count))
}

END {
    if (!broken && (getline answer < answers) > 0) {
        print "readable: the trace ends before the answers" > "/dev/stderr"
        exit 1
    }
    if (broken) exit 1
}
