# Transfers between terminals: 7 sends and 5 receives.

function twice(line) {
    head(line)
    undone[++undoings] = line
}
function undo(what,    i) {
    wrong(what)
    for (i = 1; i <= undoings; i++) does(undone[i])
    undoings = 0
}

# N turns of a loop: a transfer of four words to a subaddress of terminal 5, which is then asked and clears its status
# word. A turn in which the sender alone answers takes 258 us, each word less 20 less, and one without an answer 152
function transfers(n, subaddress) {
    say("repeat " n " {")
    say("  send A rt 7 1 5 " subaddress " 4")
    say("  send A mode 5 2")
    say("  send A mode 5 1")
    say("}")
    turns_from = sent
    per_turn = 3
    sent += 3 * n
}

# all kinds of invalid words, in the array `every`
function all_masks(    k, i, n, count) {
    split("parity manchester sync", kinds, " ")
    n = 0
    for (k = 1; k <= 3; k++) {
        count = masks_of(kinds[k])
        for (i = 1; i <= count; i++) every[++n] = masks[i]
    }
    return n
}

function two_terminals() {
    head("terminal 5")
    head("terminal 7")
}

# terminal 5 has message error where it is asked, and no more behind the next command
function rules_of_receiver() {
    rule("mode 5 2 status 2C00")
    rule("mode 5 1 status 2800")
}
function wrongs_of_receiver() {
    wrong("message error is not told, or stays")
    does("faults 2 " sent " 3 mask 1 0 " message_error)
    does("faults 3 " sent " 3 mask 1 0 " message_error)
}

# turns of a loop with the response times of the sender from FIRST to LAST ticks, in which the receiver answers, and of
# another one with those from NONE_FROM to NONE_TO, in which it does not
function waits(first, last, none_from, none_to,    ticks) {
    say("repeat " last - first + 1 " { send A rt 7 1 5 1 4 send A mode 5 18 }")
    for (ticks = first; ticks <= last; ticks++) {
        head("at " sent + 1 " 7 gap " ticks)
        undone[++undoings] = "at " sent + 1 " 7 gap 202"
        sent += 2
    }
    transfers(none_to - none_from + 1, 2)
    for (ticks = none_from; ticks <= none_to; ticks++) {
        head("at " turns_from + 3 * (ticks - none_from) + 1 " 7 gap " ticks)
        undone[++undoings] = "at " turns_from + 3 * (ticks - none_from) + 1 " 7 gap " (ticks % 2 ? 140 : 150)
    }
    waited = turns_from
}
function rules_of_waits() {
    rule("rt 7 1 5 1 status 0000 mask 07FF")
    rule("rt 7 1 5 2 fail")
    rule("rt 7 1 5 2 status 3800")
    rule("mode 5 18 status 2800")
    rules_of_receiver()
    undo("the receiver waits for a shorter time, and for a longer one")
    wrong("message error stays behind the next command")
    does("faults " waited + 3 " " sent " 3 mask 1 0 " message_error)
    wrong("message error is told in each status word of a transfer that is taken")
    does("faults 1 " waited " 2 mask 2 0 " message_error)
}

# N turns: a transfer of four words between two terminals, which are then asked; where CLEAR is set, the receiver's
# status word is cleared
function pairs(n, sender, receiver, clear) {
    say("repeat " n " {")
    say("  send A rt " sender " 1 " receiver " 1 4")
    say("  send B mode " receiver " 2")
    say("  send B mode " sender " 2")
    if (clear) say("  send A mode " receiver " 1")
    say("}")
    turns_from = sent
    per_turn = 3 + clear
    sent += per_turn * n
}

BEGIN {
    test("each", "4.3.3.6.3", "1 to 32 words from each subaddress, and to each: two clear status words")
    two_terminals()
    for (subaddress = 1; subaddress <= 30; subaddress++)
        for (count = 1; count <= 32; count++) send("rt 7 " subaddress " 5 " 31 - subaddress " " count)
    rule("any clean")
    rule("any status 0000 mask 07FF")
    wrong("the receiver does not answer 17 words, and the sender not 32 of subaddress 30")
    does("fault 17 mute 2")
    does("fault 960 mute 1")
    wrong("a status word has message error")
    does("fault 500 mask 2 0 " message_error)
    done()

    # Terminal A receives as many words as its address; terminal 7 has 31 from terminal 0, and 32 over the other bus.
    test("data", "4.3.3.6.3, Notice 2 30.7", "the receiver has the words of the sender: it sends them back")
    for (address = 0; address <= 30; address++) head("terminal " address)
    head("at 1 7 transmit 1 " words(256, 32))
    head("at 1 0 transmit 1 " words(512, 32))
    for (address = 1; address <= 30; address++) {
        count = (address == 7 ? 31 : address)
        send("rt " (address == 7 ? 0 : 7) " 1 " address " 30 " count)
        send("tx " address " 30 " count)
        rule("line A tx " address " 30 data " words(address == 7 ? 512 : 256, count))
    }
    say("send B rt 0 1 7 30 32")
    say("send B tx 7 30 32")
    rule("line B tx 7 30 data " words(512, 32))
    rule("any clean")
    wrong("the words are others")
    does("at 1 7 transmit 1 " words(257, 32))
    does("at 1 0 transmit 1 " words(513, 32))
    wrong("one receiver does not answer")
    does("fault 1 mute 2")
    done()

    # What the sender sends is wrong: at subaddress 1 the data words, at 2 a gap in front of them, at 3 a word too few,
    # at 4 one too many, at 5 nothing at all, at 6 the status word.
    test("sender_errors", "4.3.3.6.3, 4.4.3.6, Notice 2 30.9", \
        "errors in each word of the sender, a word too many or too few, or none: the receiver is silent")
    two_terminals()
    n = all_masks()
    transfers(4 * n, 1)
    for (i = 1; i <= n; i++)
        for (place = 1; place <= 4; place++) twice(in_turn(4 * i - place + 1) "mask 1 " place " " every[i])
    transfers(160, 2)
    first[2] = in_turn(1)
    for (ticks = 21; ticks <= 60; ticks++)
        for (place = 1; place <= 4; place++) head(in_turn(4 * (ticks - 20) - place + 1) "pause 1 " place " " ticks)
    transfers(5, 3)
    first[3] = in_turn(1)
    for (place = 0; place <= 4; place++) head(in_turn(place + 1) "drop 1 " place)
    transfers(5, 4)
    first[4] = in_turn(1)
    for (place = 0; place <= 4; place++) head(in_turn(place + 1) "add 1 " place " d 0001")
    transfers(3, 5)
    first[5] = in_turn(1)
    for (i = 1; i <= 3; i++) head(in_turn(i) "mute 1")
    transfers(n, 6)
    for (i = 1; i <= n; i++) twice(in_turn(i) "mask 1 0 " every[i])
    for (subaddress = 1; subaddress <= 6; subaddress++) {
        if (subaddress == 1 || subaddress == 6) rule("rt 7 1 5 " subaddress " fail")
        least = (subaddress == 3 ? 238 : subaddress == 4 ? 278 : subaddress == 5 ? 152 : 258)
        rule("rt 7 1 5 " subaddress " period " least " " least + (subaddress == 2 ? 4 : 0))
    }
    rules_of_receiver()
    undo("the receiver takes invalid words for valid")
    wrong("the receiver answers: it hears one command more")
    for (k = 2; k <= 4; k++) does(first[k] "add 1 4 c " mode(5, 1, 1))
    does(first[5] "add 0 1 c " mode(5, 1, 1))
    wrongs_of_receiver()
    done()

    # The status word of the sender has another address, which differs in one bit from its own.
    test("sender_address", "4.3.3.5.3.2, 4.4.3.6, Notice 2 30.9", \
        "the sender's status word has another address: the receiver is silent (own choice)")
    two_terminals()
    transfers(5, 1)
    for (i = 1; i <= 5; i++) twice(in_turn(i) "mask 1 0 " flip(2048 * power(i - 1)))
    rule("rt 7 1 5 1 fail")
    rule("rt 7 1 5 1 period 258 258")
    rules_of_receiver()
    undo("the sender's address is not looked at")
    wrongs_of_receiver()
    done()

    # The first data word comes 40.0 us and the sender's response time behind the receive command. Notice 2 wants the
    # receiver to wait for 54 us at least, and for 60 at most; this one waits for 57.0, so that response times up to
    # 17.0 are taken (own choice).
    test("timeout", "Notice 2 30.9", \
        "the first data word 44.0 to 54.0 us behind the receive command is taken, and from 60.1 us on none")
    two_terminals()
    waits(40, 140, 201, 255)
    rule("rt 7 1 5 1 ok")
    rule("rt 7 1 5 2 period 270 276")
    rules_of_waits()
    done()

    test("timeout_exact", "Notice 2 30.9", \
        "the first data word up to 57.0 us behind the receive command is taken, and none behind that (own choice)")
    two_terminals()
    waits(141, 170, 171, 200)
    rule("rt 7 1 5 1 period 262 265")
    rule("rt 7 1 5 2 period 267 270")
    rules_of_waits()
    done()

    # What the receiver answers is wrong; it has taken the words, and so says where it is asked.
    test("receiver_errors", "4.3.3.6.3, 4.3.3.9", \
        "the receiver's status word is invalid, late, not there or has a word behind it: an error, at neither end")
    two_terminals()
    n = all_masks()
    m = 0
    for (i = 1; i <= n; i++) wrongs[++m] = "mask 2 0 " every[i]
    # (with the address of terminal 7 it would be a command to that one)
    for (i = 1; i <= 16; i *= 2) if (i != 2) wrongs[++m] = "mask 2 0 " flip(2048 * i)
    for (ticks = 141; ticks <= 255; ticks++) other[++k_other] = "late 2 " ticks
    other[++k_other] = "mute 2"
    other[++k_other] = "drop 2 0"
    other[++k_other] = "add 2 0 d 0001"
    say("repeat " m + k_other " { send A rt 7 1 5 1 4 send A mode 5 2 send A mode 7 2 }")
    turns_from = 0
    per_turn = 3
    sent = 3 * (m + k_other)
    for (i = 1; i <= m; i++) twice(in_turn(i) wrongs[i])
    for (i = 1; i <= k_other; i++) head(in_turn(m + i) other[i])
    rule("rt 7 1 5 1 fail")
    rule("mode 5 2 status 2800")
    rule("mode 7 2 status 3800")
    undo("the answers are well")
    wrong("message error at both ends")
    does("faults 2 " sent " 3 mask 1 0 " message_error)
    does("faults 3 " sent " 3 mask 1 0 " message_error)
    done()

    # Six pairs: the receive command is invalid at 5 and 7, the transmit command at 6 and 8, it is not contiguous at 9
    # and 10, it asks for another number of words at 11 and 12, has words behind it at 13 and 14, and is not there at 15
    # and 16. Questions come over the other bus.
    test("commands", "4.3.3.6.3, 4.4.1.1, 4.4.1.2, 4.4.3.6", \
        "errors in either command, a gap between them, other counts, words behind them: no answer")
    for (address = 5; address <= 16; address++) head("terminal " address)
    n = all_masks()
    pairs(n, 7, 5, 0)
    for (i = 1; i <= n; i++) twice(in_turn(i) "mask 0 0 " every[i])
    pairs(n, 8, 6, 1)
    for (i = 1; i <= n; i++) twice(in_turn(i) "mask 0 1 " every[i])
    pairs(40, 10, 9, 1)
    apart = in_turn(1)
    for (ticks = 21; ticks <= 60; ticks++) head(in_turn(ticks - 20) "pause 0 1 " ticks)
    pairs(31, 12, 11, 1)
    turn = 0
    for (count = 1; count <= 32; count++)
        if (count != 4) twice(in_turn(++turn) "mask 0 1 " flip(differ(4, count % 32)))
    pairs(3, 14, 13, 1)
    for (i = 1; i <= 3; i++) for (k = 1; k <= i; k++) head(in_turn(i) "add 0 1 d 0001")
    pairs(3, 16, 15, 1)
    for (i = 1; i <= 3; i++) head(in_turn(i) "drop 0 1")
    rule("line B mode 13 2 status 6C00")
    rule("line B mode 14 2 status 7400")
    rule("mode 13 1 status 6800")
    rule("line B mode 15 2 status 7C00")
    rule("line B mode 16 2 status 8000")
    rule("mode 15 1 status 7800")
    rule("line B mode 5 2 status 2800")
    rule("line B mode 7 2 status 3800")
    rule("line B mode 5 2 period 258 258")
    rule("line B mode 6 2 status 3400")
    rule("line B mode 8 2 status 4000")
    rule("line B mode 6 2 period 200 200")
    rule("mode 6 1 status 3000")
    rule("rt 10 1 9 1 status 5000")
    rule("line B mode 9 2 status 4C00")
    rule("mode 9 1 status 4800")
    rule("rt 12 1 11 1 status 6000")
    rule("line B mode 11 2 status 5C00")
    rule("mode 11 1 status 5800")
    undo("invalid command words are taken for valid, and counts are not looked at")
    wrong("status words have message error, or have none")
    does("faults 1 " sent " 1 mask 1 0 " message_error)
    wrong("the receiver answers although there is a gap: it hears one command more")
    does(apart "add 1 4 c " mode(9, 1, 1))
    wrong("the sender of a transfer whose receive command is invalid does not answer")
    does("fault 4 mute 1")
    wrong("the other sender answers: it hears one command more")
    does("fault " 3 * n + 5 " add 0 1 c " mode(8, 1, 1))
    done()
}
