# Commands to all terminals, of which none answers.

# the mode command of a T/R and a code to all (a script has those of the standard alone, so the others are made of one
# that it has, by inverting bits of the command word)
function pair_to_all(is_transmit, code, at_zero,    form) {
    form = (at_zero ? "bmode0 " : "bmode ")
    if (is_transmit && code < 16) send(form code)
    else if (is_transmit) {
        send(form code - 16)
        fault("mask 0 0 " flip(16))
    } else if (code == 17 || code > 19) send(form code " [00AA]")
    else if (code > 15) {
        send(form "17 [00AA]")
        fault("mask 0 0 " flip(differ(code, 17)))
    } else {
        send(form code)
        fault("mask 0 0 " flip(1024))
    }
}

# a message to all with an error in its words; then terminal 5 is asked, and its status word is cleared. A turn takes as
# long as its words, the gaps between them, and the gaps of 18.0 us behind a message to all: an answer would show in the
# period
function turns_to_all(n, message, line) {
    say("repeat " n " {")
    say("  send " (line == "" ? "A" : line) " " message)
    say("  send A mode 5 2")
    say("  send A mode 5 1")
    say("}")
    turns_from = sent
    per_turn = 3
    sent += 3 * n
}

function twice(line) {
    head(line)
    undone[++undoings] = line
}
function undo(what,    i) {
    wrong(what)
    for (i = 1; i <= undoings; i++) does(undone[i])
    undoings = 0
}

# the data words of a message to all have an error of a kind
function data_words(kind, sections, seen, terminal_is,    n, i, place, turn) {
    test("data_" kind, sections, seen)
    head("terminal 5")
    n = masks_of(kind)
    turns_to_all(32 * n, "brx 1 " listed(1, 32))
    turn = 0
    for (place = 1; place <= 32; place++)
        for (i = 1; i <= n; i++) twice(in_turn(++turn) "mask 0 " place " " masks[i])
    rules_of_turns(772)
    undo(terminal_is)
    wrong("message error stays, and the broadcast bit")
    does("faults 3 " sent " 3 mask 1 0 " flip(1040))
    answers(1, 32)
    done()
}

function rules_of_turns(period) {
    rule("brx 1 fail")
    rule("brx 1 period " period " " period)
    rule("mode 5 2 status 2C10")
    rule("mode 5 1 status 2800")
}

# a terminal answers a message to all: it hears one command more, to itself
function answers(message, place) {
    wrong("an answer to a message to all")
    does("fault " message " add 0 " place " c " mode(5, 1, 1))
}

# the command word of messages to all has an error of a kind: terminal 5 has a clear status word, and terminal 6 message
# error. Messages of one length stand together, so that an answer shows in the period; questions come over the other bus
function command_words(kind, sections, seen, terminal_is,    n, i, k, length_is) {
    test("command_" kind, sections, seen)
    head("terminal 5")
    head("terminal 6")
    split("brx 1 [0001],bmode 17 [0001],bmode0 17 [0001],bmode 1,bmode0 8", form, ",")
    n = masks_of(kind)
    send("mode 6 9")
    for (k = 1; k <= 5; k++) {
        say("repeat " n " {")
        say("  send A " form[k])
        say("  send B mode 5 " (k <= 3 ? 2 : 18))
        say("  send B mode 6 " (k <= 3 ? 18 : 2))
        say("}")
        turns_from = sent
        per_turn = 3
        sent += 3 * n
        for (i = 1; i <= n; i++) twice(in_turn(i) "mask 0 0 " masks[i])
    }
    rule("line B mode 5 * status 2800")
    rule("line B mode 6 * status 3400")
    rule("line B mode 6 18 data 37E9")
    rule("line B mode 5 2 period 172 172")
    rule("line B mode 6 2 period 152 152")
    undo(terminal_is)
    wrong("answers to messages to all")
    does("fault 5 add 0 1 c " mode(5, 1, 1))
    does("fault " turns_from + 4 " add 0 0 c " mode(5, 1, 1))
    wrong("another last command")
    does("fault 4 mask 1 1 " flip(1))
    done()
}

BEGIN {
    split("parity manchester sync", kinds, " ")
    test("receive", "4.3.3.6.7.1, 4.3.3.5.3.7, Notice 2 30.6", \
        "each subaddress and count to all: no answer, and the broadcast bit where a terminal is asked")
    head("terminal 5")
    head("terminal 30")
    say("define ask { send A mode 5 2 send A mode 30 2 }")
    for (subaddress = 1; subaddress <= 30; subaddress++)
        for (count = 1; count <= 32; count++) {
            send("brx " subaddress " " listed(256 * subaddress, count))
            say("call ask")
            sent += 2
        }
    rule("any clean")
    rule("mode 5 2 status 2810")
    rule("mode 30 2 status F010")
    wrong("terminals that do not hear messages to all")
    does("at 1 5 broadcast off")
    does("at 1 30 broadcast off")
    wrong("an answer to a message to all")
    does("fault 2848 add 0 2 c " mode(5, 1, 1))
    wrong("the words of one message are not taken, and message error is told")
    does("at 1 5 illegal receive 17 9")
    done()

    data_words("parity", "4.3.3.6.7.1, 4.4.1.1, 4.4.3.6", \
        "a data word to all with wrong parity: message error and the broadcast bit, and no answer", \
        "parity is not looked at")
    data_words("manchester", "4.3.3.6.7.1, 4.4.1.1, 4.4.3.6", \
        "a data word to all of which a bit is no Manchester code: message error and the broadcast bit", \
        "Manchester code is not looked at")
    data_words("sync", "4.3.3.6.7.1, 4.4.1.1, 4.4.3.6", \
        "a data word to all with another sync, or none: message error and the broadcast bit, and no answer", \
        "the sync of data words is not looked at")
    command_words("parity", "4.3.3.6.7, 4.4.1.1, 4.4.3.3", \
        "a command word to all with wrong parity: no answer, and status words stay as they are", \
        "parity of command words is not looked at")
    command_words("manchester", "4.3.3.6.7, 4.4.1.1, 4.4.3.3", \
        "a command word to all of which a bit is no Manchester code: status words stay as they are", \
        "Manchester code of command words is not looked at")
    command_words("sync", "4.3.3.6.7, 4.4.1.1, 4.4.3.3", \
        "a command word to all with another sync, or none: status words stay as they are", \
        "the sync of command words is not looked at")

    test("data_contiguity", "4.3.3.6.7.1, 4.4.1.2, 4.4.3.6", \
        "a gap of 2.1 to 6.0 us in front of each data word to all: message error and the broadcast bit")
    head("terminal 5")
    turns_to_all(32 * 40, "brx 1 " listed(1, 32))
    turn = 0
    for (place = 1; place <= 32; place++)
        for (ticks = 21; ticks <= 60; ticks++) head(in_turn(++turn) "pause 0 " place " " ticks)
    rule("brx 1 period 772 776")
    rule("mode 5 2 status 2C10")
    rule("mode 5 1 status 2800")
    wrong("message error is not told, or stays")
    does("faults 2 " sent " 3 mask 1 0 " message_error)
    does("faults 3 " sent " 3 mask 1 0 " message_error)
    answers(1, 32)
    done()

    # Of a message of K words the command word is made to announce N. A turn of K words takes 132 us and 20 for each of
    # them: on bus A at subaddress K, and where none is sent at 30; on bus B 30 to 32 words at 1 to 3.
    test("word_count", "4.3.3.6.7.1, 4.4.3.6", \
        "1 to 32 words to all are announced, and each other number of 0 to 32 is sent: the same")
    head("terminal 5")
    for (k = 0; k <= 32; k++) {
        line = (k < 30 ? "A" : "B")
        subaddress = (k == 0 ? 30 : k < 30 ? k : k - 29)
        count = (k ? k : 1)
        n = (k ? 31 : 32)
        say("repeat " n " { send " line " brx " subaddress " " listed(1, count) " send A mode 5 2 send A mode 5 1 }")
        turns_from = sent
        per_turn = 3
        sent += 3 * n
        turn = 0
        for (announced = 1; announced <= 32; announced++)
            if (announced != k) {
                turn++
                other = differ(announced % 32, count % 32)
                if (other) twice(in_turn(turn) "mask 0 0 " flip(other))
                if (!k) head(in_turn(turn) "drop 0 1")
                if (!k) undone[++undoings] = in_turn(turn) "add 0 1 d 0001"
            }
        rule("line " line " brx " subaddress " period " 132 + 20 * k " " 132 + 20 * k)
        answered[k] = in_turn(1) "add 0 " (k ? k : 0) " c " mode(5, 1, 1)
    }
    rule("mode 5 2 status 2C10")
    rule("mode 5 1 status 2800")
    undo("the word count is not looked at")
    wrong("message error stays, and the broadcast bit")
    does("faults 3 " sent " 3 mask 1 0 " flip(1040))
    wrong("answers to messages to all")
    for (k = 0; k <= 32; k++) does(answered[k])
    done()

    test("modes", "4.3.3.6.7.3, 4.3.3.6.7.4, 4.3.3.5.1.7", \
        "each mode code that may be sent to all: no answer, and the broadcast bit")
    head("terminal 5")
    head("terminal 6")
    say("define ask { send A mode 5 2 send A mode0 6 2 send A mode 5 1 }")
    for (at_zero = 0; at_zero <= 1; at_zero++)
        for (code = 1; code <= 17; code++)
            if ((code <= 8 && code != 2) || code == 17) {
                pair_to_all(code != 17, code, at_zero)
                say("call ask")
                sent += 3
            }
    rule("any clean")
    rule("mode 5 2 status 2810")
    rule("mode 6 2 status 3010")
    rule("mode 5 1 status 2800")
    wrong("terminals that do not hear messages to all")
    does("at 1 5 broadcast off")
    does("at 1 6 broadcast off")
    wrong("message error stays behind the next command")
    does("faults 4 " sent " 4 mask 1 0 " message_error)
    answers(1, 0)
    done()

    # On bus A synchronize with a word that is invalid or behind a gap, and the others with a word; on bus B synchronize
    # without its word. A turn takes 112 us and 20 for each word.
    test("mode_words", "4.3.3.6.7.3, 4.3.3.6.7.4, 4.4.1.1, 4.4.1.2, 4.4.3.6", \
        "a mode command to all with an invalid word, a word too many or none: message error, the broadcast bit")
    head("terminal 5")
    n = 0
    for (k = 1; k <= 3; k++) {
        count = masks_of(kinds[k])
        for (i = 1; i <= count; i++) every[++n] = masks[i]
    }
    for (at_zero = 0; at_zero <= 1; at_zero++) {
        name = (at_zero ? "bmode0" : "bmode")
        turns_to_all(n, name " 17 [0001]")
        for (i = 1; i <= n; i++) twice(in_turn(i) "mask 0 1 " every[i])
        turns_to_all(40, name " 17 [0001]")
        for (ticks = 21; ticks <= 60; ticks++) head(in_turn(ticks - 20) "pause 0 1 " ticks)
    }
    rule("line A bmode 17 period 152 156")
    heard[1] = in_turn(1) "add 0 1 c " mode(5, 1, 1)
    for (code = 1; code <= 8; code++)
        if (code != 2) {
            turns_to_all(3, "bmode " code)
            for (i = 1; i <= 3; i++) head(in_turn(i) "add 0 0 d 0001")
            heard[code + 2] = in_turn(1) "add 0 0 c " mode(5, 1, 1)
            turns_to_all(3, "bmode0 " code)
            for (i = 1; i <= 3; i++) head(in_turn(i) "add 0 0 d 0001")
            rule("bmode " code " period 152 152")
        }
    turns_to_all(3, "bmode 17 [0001]", "B")
    for (i = 1; i <= 3; i++) head(in_turn(i) "drop 0 1")
    heard[2] = in_turn(1) "add 0 1 c " mode(5, 1, 1)
    turns_to_all(3, "bmode0 17 [0001]", "B")
    for (i = 1; i <= 3; i++) head(in_turn(i) "drop 0 1")
    rule("line B bmode 17 period 132 132")
    rule("mode 5 2 status 2C10")
    rule("mode 5 1 status 2800")
    undo("invalid words are taken for valid")
    wrong("message error stays behind the next command")
    does("faults 3 " sent " 3 mask 1 0 " message_error)
    wrong("answers to messages to all")
    for (k = 1; k <= 10; k++) if (k in heard) does(heard[k])
    done()

    # Known ones that may not be sent to all, reserved and undefined ones, and codes 20 and 21.
    test("modes_refused", "4.3.3.5.1.7, 4.4.3.4", \
        "each other T/R and mode code to all: no answer, and message error with the broadcast bit")
    head("terminal 5")
    say("define ask { send A mode 5 2 send A mode 5 1 }")
    for (at_zero = 0; at_zero <= 1; at_zero++)
        for (is_transmit = 0; is_transmit <= 1; is_transmit++)
            for (code = 0; code <= 31; code++) {
                if (is_transmit && code >= 1 && code <= 8 && code != 2) continue
                if (!is_transmit && code == 17) continue
                pair_to_all(is_transmit, code, at_zero)
                say("call ask")
                sent += 2
            }
    rule("bmode * ok")
    rule("mode 5 2 status 2C10")
    rule("mode 5 1 status 2800")
    wrong("message error is not told, or stays")
    does("faults 2 " sent " 3 mask 1 0 " message_error)
    does("faults 3 " sent " 3 mask 1 0 " message_error)
    answers(1, 0)
    done()

    # The first command word has address 30, where no terminal is, and is made to have 31.
    test("transmit", "4.3.3.6.7, 4.4.3.4", \
        "a command to all to transmit: no answer, and message error with the broadcast bit")
    head("terminal 5")
    for (subaddress = 1; subaddress <= 30; subaddress++)
        for (count = 1; count <= 32; count += 31) {
            send("tx 30 " subaddress " " count)
            fault("mask 0 0 " flip(2048))
            stimulus[++stimuli] = sent
            say("if silent { send A mode 5 2 } else { send A tx 30 30 1 }")
            sent++
            send("mode 5 1")
        }
    rule("mode 5 2 status 2C10")
    rule("mode 5 1 status 2800")
    unanswered()
    wrong("message error is not told, or stays")
    does("faults 2 " sent " 3 mask 1 0 " message_error)
    does("faults 3 " sent " 3 mask 1 0 " message_error)
    wrong("the terminal answers")
    for (k = 1; k <= stimuli; k++) does("fault " stimulus[k] " add 0 0 c " mode(5, 1, 1))
    done()

    test("transfer", "4.3.3.6.7.2, 4.3.3.5.3.7", \
        "each subaddress and count from terminal 7 to all: 7 answers, and all but 7 have the broadcast bit")
    head("terminal 5")
    head("terminal 7")
    head("terminal 30")
    say("define ask { send A mode 5 2 send A mode 30 2 send A mode 7 2 }")
    for (subaddress = 1; subaddress <= 30; subaddress++)
        for (count = 1; count <= 32; count++) {
            send("brt 7 " subaddress " " 31 - subaddress " " count)
            say("call ask")
            sent += 3
        }
    rule("any clean")
    rule("brt 7 * * status 3800")
    rule("mode 5 2 status 2810")
    rule("mode 30 2 status F010")
    rule("mode 7 2 status 3800")
    wrong("terminals that do not hear messages to all")
    does("at 1 5 broadcast off")
    does("at 1 30 broadcast off")
    wrong("the sender has the broadcast bit")
    does("faults 1 " sent " 4 mask 1 0 " flip(16))
    does("faults 4 " sent " 4 mask 1 0 " flip(16))
    wrong("a word too few")
    does("fault 1 drop 1 1")
    done()

    # The receive command to all is invalid (transmit status word), the transmit command is (transmit last command), or
    # it is not contiguous (questions over the other bus). The sender hears the command to all, too.
    test("transfer_commands", "4.3.3.6.7.2, 4.4.1.1, 4.4.1.2, 4.4.3.6", \
        "errors in either command of a transfer to all, and a gap between them: no words are taken")
    head("terminal 5")
    head("terminal 7")
    n = 0
    for (k = 1; k <= 3; k++) {
        count = masks_of(kinds[k])
        for (i = 1; i <= count; i++) every[++n] = masks[i]
    }
    for (k = 1; k <= 3; k++) {
        turns_are = (k < 3 ? n : 40)
        line = (k < 3 ? "A" : "B")
        code = (k == 2 ? 18 : 2)
        say("repeat " turns_are " {")
        say("  send A brt 7 1 2 4")
        say("  send " line " mode 5 " code " send " line " mode 7 " code)
        say("  send A mode 5 1 send A mode 7 1")
        say("}")
        turns_from = sent
        per_turn = 5
        sent += 5 * turns_are
        for (i = 1; i <= turns_are; i++)
            if (k < 3) twice(in_turn(i) "mask 0 " k - 1 " " every[i])
            else head(in_turn(i) "pause 0 1 " i + 20)
    }
    rule("line A mode 5 2 status 2800")
    rule("line A mode 7 2 status 3800")
    rule("line A mode 5 18 status 2C10")
    rule("line A mode 7 18 status 3C10")
    rule("line B mode 5 2 status 2C10")
    rule("line B mode 7 2 status 3800")
    rule("mode 5 1 status 2800")
    rule("mode 7 1 status 3800")
    undo("invalid command words are taken for valid")
    wrong("status words have message error, or have none")
    does("faults 1 " sent " 1 mask 1 0 " message_error)
    done()

    # What the sender of four words sends is wrong: a word in each way, a word too many or too few, nothing.
    test("transfer_errors", "4.3.3.6.7.2, 4.4.3.6", \
        "errors in each word of the sender of a transfer to all: message error and the broadcast bit")
    head("terminal 5")
    head("terminal 7")
    n = 0
    for (k = 1; k <= 3; k++) {
        count = masks_of(kinds[k])
        for (i = 1; i <= count; i++)
            for (place = 0; place <= 4; place++) every[++n] = "mask 1 " place " " masks[i]
    }
    masked = n
    for (place = 1; place <= 4; place++)
        for (ticks = 21; ticks <= 60; ticks++) every[++n] = "pause 1 " place " " ticks
    for (place = 0; place <= 4; place++) every[++n] = "drop 1 " place
    for (place = 0; place <= 4; place++) every[++n] = "add 1 " place " d 0001"
    every[++n] = "mute 1"
    turns_to_all(n, "brt 7 1 2 4")
    for (i = 1; i <= n; i++)
        if (i <= masked) twice(in_turn(i) every[i])
        else head(in_turn(i) every[i])
    rule("brt 7 1 2 fail")
    rule("mode 5 2 status 2C10")
    rule("mode 5 1 status 2800")
    undo("invalid words are taken for valid")
    wrong("message error stays behind the next command")
    does("faults 3 " sent " 3 mask 1 0 " message_error)
    done()
}
