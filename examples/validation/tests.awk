# What the makers of tests share (GROUP/make.awk; `run` calls them): a test is written with `test`, then any of `head`,
# `say`, `rule`, `wrong` and `does`, in any order, and `done` at its end. The variable `to` is the folder to write into.

# ---- a test ----

# begins the test NAME: its sections of the standard, and what is to be seen
function test(name, sections, seen) {
    path = to "/" name
    heads = scripts = faulted = sent = 0
    print "# " sections ": " seen >(path ".rules")
    printf "" >(path ".wrong")
    counterparts = 0
}

# a line of the job in front of its script; a line of the script; a rule; what is wrong in a counterpart; a line that
# makes it so
function head(line) { heads_of[++heads] = line }
function say(line) { script_of[++scripts] = line }
function rule(line) { print "expect " line >(path ".rules") }
function wrong(what) { print (counterparts++ ? "\n" : "") "# " what >(path ".wrong") }
function does(line) { print line >(path ".wrong") }

# ends it: the job is written, and is held in no memory any more
function done(    i) {
    print "channel 1" >(path ".job")
    for (i = 1; i <= heads; i++) print heads_of[i] >(path ".job")
    print "script" >(path ".job")
    for (i = 1; i <= scripts; i++) print script_of[i] >(path ".job")
    close(path ".job")
    close(path ".rules")
    close(path ".wrong")
}

# a message of the script, and a fault of the one sent last (where the script is a row of messages, without loops)
function send(message) { say("send A " message); sent++ }
function fault(what) { head("fault " sent " " what) }

# N turns of a loop: a message that has no answer; then, where there is none, a question on a line (where there is one
# stands a message to a terminal that is not there, which no test may have: `unanswered` is its rule); and, where CLEAR
# is not empty, a message that clears the status word. `in_turn` is a fault of the message in turn I of the loop, and
# `behind_turn` one of the message K behind it.
function turns(n, message, line, poll, clear) {
    say("repeat " n " {")
    say("  send A " message)
    say("  if silent { send " line " " poll " } else { send A tx 30 30 1 }")
    if (clear != "") say("  send A " clear)
    say("}")
    turns_from = sent
    per_turn = (clear != "" ? 3 : 2)
    sent += per_turn * n
}
function in_turn(i) { return "fault " turns_from + per_turn * (i - 1) + 1 " " }
function behind_turn(i, k) { return "fault " turns_from + per_turn * (i - 1) + 1 + k " " }
function unanswered() { rule("tx 30 30 count 0 0") }

# ---- words and masks ----

# 2 to the N (not every awk has an operator for it)
function power(n) { return n > 0 ? 2 * power(n - 1) : 1 }

function hex(n, digits,    text) {
    text = ""
    while (digits-- > 0) {
        text = substr("0123456789ABCDEF", n % 16 + 1, 1) text
        n = int(n / 16)
    }
    return text
}
function word(n) { return hex(n, 4) }

# words FIRST, FIRST + 1 .. of which there are COUNT, in brackets
function words(first, count,    i, text) {
    text = ""
    for (i = 0; i < count; i++) text = text (i ? " " : "") word(first + i)
    return text
}
function listed(first, count) { return "[" words(first, count) "]" }

# command words: to receive, to transmit, a mode command (at subaddress 31)
function receive(address, subaddress, count) { return word(2048 * address + 32 * subaddress + count % 32) }
function transmit(address, subaddress, count) { return word(2048 * address + 1024 + 32 * subaddress + count % 32) }
function mode(address, is_transmit, code) { return word(2048 * address + 1024 * is_transmit + 32 * 31 + code) }

# the mask of one half bit: 0 and 1 are the second and the first half of the parity bit, 2 and 3 of bit 0, up to 32 and
# 33 of bit 15, and 34 to 39 the sync, of which 39 is first on the line
function half(i,    text, digit) {
    text = ""
    for (digit = 9; digit >= 0; digit--) text = text hex(digit == int(i / 4) ? power(i % 4) : 0, 1)
    return text
}

# the mask of both halves of a bit time of the same numbers, halved: 0 is the parity bit, 1 is bit 0
function whole(place,    text, digit) {
    text = ""
    for (digit = 9; digit >= 0; digit--) text = text hex(digit == int(place / 2) ? (place % 2 ? 12 : 3) : 0, 1)
    return text
}

# the masks of a kind of invalid words, in the array `masks`, and how many these are: a parity that is wrong, since one
# of the 17 bits has its other value; 17 bits that are no Manchester code, in either half; a sync that is none, or that
# of the other kind of words
function masks_of(kind,    n, i) {
    n = 0
    if (kind == "parity") for (i = 0; i <= 16; i++) masks[++n] = whole(i)
    if (kind == "manchester") for (i = 0; i <= 33; i++) masks[++n] = half(i)
    if (kind == "sync") {
        for (i = 34; i <= 39; i++) masks[++n] = half(i)
        masks[++n] = other_sync
    }
    return n
}

# the bits of A other than in B
function differ(a, b,    bit, n) {
    n = 0
    for (bit = 1; bit < 65536; bit *= 2) if (int(a / bit) % 2 != int(b / bit) % 2) n += bit
    return n
}

# the number that hexadecimal digits stand for
function number(text,    i, n) {
    n = 0
    for (i = 1; i <= length(text); i++) n = 16 * n + index("0123456789ABCDEF", substr(text, i, 1)) - 1
    return n
}

# the mask that inverts the bits of N in a word, and puts its parity right: a valid word, which has the other sync where
# that is asked for
function flip(n, with_sync,    bit, times, odd, text, digit) {
    odd = 0
    for (bit = 0; bit < 16; bit++) {
        times[bit + 1] = int(n / power(bit)) % 2 * 3
        if (times[bit + 1]) odd = !odd
    }
    times[0] = odd ? 3 : 0
    times[17] = times[18] = times[19] = with_sync ? 3 : 0
    text = ""
    for (digit = 9; digit >= 0; digit--) text = text hex(4 * times[2 * digit + 1] + times[2 * digit], 1)
    return text
}

BEGIN {
    bad_parity = "0000000003"
    other_sync = "FC00000000"
    message_error = flip(1024)
}
