# Errors in each word that a terminal hears: of the message from controller to terminal and of mode commands (those of
# transfers and of broadcasts stand with these); and replies by time.

# the forms that a terminal answers, by their messages
function forms() {
    form[1] = "rx 5 1 [0001]"
    form[2] = "tx 5 1 1"
    form[3] = "mode 5 1"
    form[4] = "mode0 5 1"
    form[5] = "mode 5 16"
    form[6] = "mode0 5 17 [0001]"
    return 6
}

# a fault, and the same for the counterpart; a mask that is planned twice does nothing
function twice(line) {
    head(line)
    undone[++undoings] = line
}
function undo(what,    i) {
    wrong(what)
    for (i = 1; i <= undoings; i++) does(undone[i])
    undoings = 0
}

# each data word of a receive message of 32 words has an error of a kind
function data_words(kind, sections, seen, terminal_is,    n, i, place, turn) {
    test("data_" kind, sections, seen)
    head("terminal 5")
    n = masks_of(kind)
    turns(32 * n, "rx 5 1 " listed(1, 32), "A", "mode 5 2", "mode 5 1")
    turn = 0
    for (place = 1; place <= 32; place++)
        for (i = 1; i <= n; i++) twice(in_turn(++turn) "mask 0 " place " " masks[i])
    rules_of_data(1)
    undo(terminal_is)
    wrongs_of_data(turn)
    done()
}

function rules_of_data(is_failed) {
    unanswered()
    if (is_failed) rule("rx 5 1 fail")
    rule("mode 5 2 status 2C00")
    rule("mode 5 1 status 2800")
}

function wrongs_of_data(last,    i) {
    wrong("no message error where the terminal is asked")
    for (i = 1; i <= last; i++) does(behind_turn(i, 1) "mask 1 0 " message_error)
    wrong("message error stays behind the next command")
    for (i = 1; i <= last; i++) does(behind_turn(i, 2) "mask 1 0 " message_error)
}

# the command word of each form has an error of a kind: first while the status word is clear, and then while it has
# message error; questions come over the other bus, since a wrong command word may be recorded as a question
function command_words(kind, sections, seen, terminal_is,    n, i, k, count, first, last) {
    test("command_" kind, sections, seen)
    head("terminal 5")
    n = masks_of(kind)
    count = forms()
    for (k = 1; k <= count; k++) {
        turns(n, form[k], "B", "mode 5 2", "")
        for (i = 1; i <= n; i++) twice(in_turn(i) "mask 0 0 " masks[i])
    }
    send("mode 5 9")
    first = sent
    for (k = 1; k <= count; k++) {
        turns(n, form[k], "B", "mode 5 18", "")
        for (i = 1; i <= n; i++) twice(in_turn(i) "mask 0 0 " masks[i])
    }
    last = sent
    unanswered()
    rule("line B mode 5 2 status 2800")
    rule("line B mode 5 18 status 2C00")
    rule("line B mode 5 18 data 2FE9")
    undo(terminal_is)
    wrong("message error where the terminal is asked, and none where it was")
    does("faults 2 " last " 1 mask 1 0 " message_error)
    wrong("the last command is another")
    does("faults " first + 2 " " last " 2 mask 1 1 " flip(1))
    done()
}

BEGIN {
    data_words("parity", "4.3.3.5.2.3, 4.4.1.1, 4.4.3.6", \
        "a data word with wrong parity: no answer, and message error where the terminal is asked", \
        "parity is not looked at")
    data_words("manchester", "4.3.3.2, 4.4.1.1, 4.4.3.6", \
        "a data word of which a bit is no Manchester code: no answer, and message error where it is asked", \
        "Manchester code is not looked at")
    data_words("sync", "4.3.3.5.2.1, 4.4.1.1, 4.4.3.6", \
        "a data word with another sync, or none: no answer, and message error where the terminal is asked", \
        "the sync of data words is not looked at")
    command_words("parity", "4.3.3.5.1.6, 4.4.1.1, 4.4.3.3", \
        "a command word with wrong parity: no answer, and the status word stays as it is", \
        "parity of command words is not looked at")
    command_words("manchester", "4.3.3.2, 4.4.1.1, 4.4.3.3", \
        "a command word of which a bit is no Manchester code: no answer, and the status word stays as it is", \
        "Manchester code of command words is not looked at")
    command_words("sync", "4.3.3.5.1.1, 4.4.1.1, 4.4.3.3", \
        "a command word with another sync, or none: no answer, and the status word stays as it is", \
        "the sync of command words is not looked at")

    # The word of a mode command, at both mode subaddresses.
    test("mode_word", "4.3.3.6.6, 4.4.1.1, 4.4.3.6", \
        "the data word of synchronize is invalid or not contiguous: no answer, and message error")
    head("terminal 5")
    for (at_zero = 0; at_zero <= 1; at_zero++) {
        n = 0
        for (k = 1; k <= 3; k++) {
            count = masks_of(k == 1 ? "parity" : k == 2 ? "manchester" : "sync")
            for (i = 1; i <= count; i++) every[++n] = masks[i]
        }
        turns(n, (at_zero ? "mode0" : "mode") " 5 17 [0001]", "A", "mode 5 2", "rx 5 1 [0001]")
        for (i = 1; i <= n; i++) twice(in_turn(i) "mask 0 1 " every[i])
        turns(40, (at_zero ? "mode0" : "mode") " 5 17 [0001]", "A", "mode 5 2", "rx 5 1 [0001]")
        for (ticks = 21; ticks <= 60; ticks++) head(in_turn(ticks - 20) "pause 0 1 " ticks)
    }
    unanswered()
    rule("mode 5 17 fail")
    rule("mode 5 2 status 2C00")
    rule("rx 5 1 status 2800")
    undo("invalid words are taken for valid")
    wrong("a word behind a pause is taken, and answered by a terminal that hears one command more")
    for (ticks = 21; ticks <= 60; ticks++) does(in_turn(ticks - 20) "add 0 1 c " mode(5, 1, 1))
    wrong("no message error where the terminal is asked")
    does("faults 2 " sent " 3 mask 1 0 " message_error)
    wrong("message error stays behind the next command")
    does("faults 3 " sent " 3 mask 1 0 " message_error)
    done()

    test("data_contiguity", "4.3.3.6.1, 4.4.1.2, 4.4.3.6", \
        "a gap of 2.1 to 6.0 us in front of each data word: no answer, and message error")
    head("terminal 5")
    turns(32 * 40, "rx 5 1 " listed(1, 32), "A", "mode 5 2", "mode 5 1")
    turn = 0
    for (place = 1; place <= 32; place++)
        for (ticks = 21; ticks <= 60; ticks++) head(in_turn(++turn) "pause 0 " place " " ticks)
    rules_of_data(0)
    wrong("the message is answered, by a terminal that hears one command more")
    for (i = 1; i <= turn; i++) does(in_turn(i) "add 0 32 c " mode(5, 1, 1))
    wrongs_of_data(turn)
    done()

    test("data_long_gap", "4.3.3.6.1, 4.4.1.2, 4.4.3.6", \
        "a gap of 6.1 to 25.5 us in front of the first, the middle and the last of 32 words: the same")
    head("terminal 5")
    turns(3 * 195, "rx 5 1 " listed(1, 32), "A", "mode 5 2", "mode 5 1")
    turn = 0
    for (k = 0; k <= 2; k++)
        for (ticks = 61; ticks <= 255; ticks++)
            head(in_turn(++turn) "pause 0 " (k == 0 ? 1 : k == 1 ? 17 : 32) " " ticks)
    rules_of_data(0)
    wrong("the message is answered, by a terminal that hears one command more")
    for (i = 1; i <= turn; i++) does(in_turn(i) "add 0 32 c " mode(5, 1, 1))
    wrongs_of_data(turn)
    done()

    # Of a message of K words the command word is made to announce N.
    test("word_count", "4.3.3.6.1, 4.4.3.6", \
        "1 to 32 words are announced, and each other number of 0 to 32 is sent: no answer, and message error")
    head("terminal 5")
    for (sent_words = 0; sent_words <= 32; sent_words++) {
        turns(sent_words ? 31 : 32, "rx 5 1 " listed(1, sent_words ? sent_words : 1), "A", "mode 5 2", "mode 5 1")
        turn = 0
        for (announced = 1; announced <= 32; announced++)
            if (announced != sent_words) {
                turn++
                other = differ(announced % 32, (sent_words ? sent_words : 1) % 32)
                if (other) twice(in_turn(turn) "mask 0 0 " flip(other))
                if (!sent_words) head(in_turn(turn) "drop 0 1")
            }
    }
    rules_of_data(1)
    undo("the word count is not looked at")
    wrong("no message error where the terminal is asked")
    does("faults 2 " sent " 3 mask 1 0 " message_error)
    wrong("message error stays behind the next command")
    does("faults 3 " sent " 3 mask 1 0 " message_error)
    done()

    test("words_behind", "4.3.3.6.1, 4.4.3.6", \
        "words too many, as far as a message has room: no answer, and message error")
    head("terminal 5")
    for (count = 1; count <= 32; count++) {
        most = (39 - count < 31 ? 39 - count : 31)
        turns(most, "rx 5 1 " listed(1, count), "A", "mode 5 2", "mode 5 1")
        for (i = 1; i <= most; i++) {
            head(in_turn(i) "babble 0 " i " 0001")
            if (count + i <= 32) undone[++undoings] = in_turn(i) "mask 0 0 " flip(differ(count, (count + i) % 32))
        }
    }
    rules_of_data(0)
    undo("what comes is taken, as if so many words had been announced")
    wrong("no message error where the terminal is asked")
    does("faults 2 " sent " 3 mask 1 0 " message_error)
    wrong("message error stays behind the next command")
    does("faults 3 " sent " 3 mask 1 0 " message_error)
    done()

    # A transmit command has no data words; the message to terminal 6 is none of terminal 5.
    test("transmit_words", "4.3.3.6.2, 4.4.3.6", \
        "a data word contiguously behind a transmit command: no answer, and message error")
    head("terminal 5")
    for (subaddress = 1; subaddress <= 30; subaddress++) {
        turns(3, "tx 5 " subaddress " " subaddress + 2, "A", "mode 5 2", "mode 5 1")
        for (i = 1; i <= 3; i++) {
            if (i < 3) head(in_turn(i) "add 0 0 d 0001")
            if (i == 2) head(in_turn(i) "add 0 0 d 0002")
            if (i == 3) head(in_turn(i) "babble 0 " subaddress + 2 " 0001")
            if (i < 3) undone[++undoings] = in_turn(i) "add 0 0 c " transmit(5, subaddress, subaddress + 2)
        }
    }
    unanswered()
    rule("mode 5 2 status 2C00")
    rule("mode 5 1 status 2800")
    undo("the message is answered, by a terminal that hears the command once more")
    wrong("no message error where the terminal is asked")
    does("faults 2 " sent " 3 mask 1 0 " message_error)
    wrong("message error stays behind the next command")
    does("faults 3 " sent " 3 mask 1 0 " message_error)
    done()

    test("others", "4.4.3.1, 4.4.3.6", \
        "errors in a message to terminal 6 leave the status word of terminal 5 as it is")
    head("terminal 5")
    head("terminal 6")
    for (error = 0; error <= 1; error++) {
        if (error) send("mode 5 9")
        n = 0
        for (k = 1; k <= 3; k++) {
            count = masks_of(k == 1 ? "parity" : k == 2 ? "manchester" : "sync")
            for (i = 1; i <= count; i++) every[++n] = masks[i]
        }
        turns(n, "rx 6 1 [0001]", "B", (error ? "mode 5 18" : "mode 5 2"), "mode 6 2")
        for (i = 1; i <= n; i++) twice(in_turn(i) "mask 0 1 " every[i])
    }
    unanswered()
    rule("line B mode 5 2 status 2800")
    rule("line B mode 5 18 status 2C00")
    rule("line B mode 5 18 data 2FE9")
    rule("mode 6 2 status 3400")
    undo("terminal 6 takes invalid words for valid")
    wrong("message error at terminal 5, and none where it was, or at terminal 6")
    does("faults 1 " sent " 1 mask 1 0 " message_error)
    wrong("the last command of terminal 5 is another")
    does("faults 1 " sent " 1 mask 1 1 " flip(1))
    done()

    # Terminals 1 to 6 answer after 3.9, 4.0, 12.0, 12.1, 14.0 and 14.1 us, each form and in a transfer as either end.
    test("reply_times", "4.3.3.8, 4.3.3.9", \
        "replies after 3.9, 4.0, 12.0, 12.1, 14.0 and 14.1 us: 4.0 to 12.0 are lawful, and 14.1 is no answer")
    split("39 40 120 121 140 141", times, " ")
    split("141 39 121 141 141 140", others, " ")
    split("ok clean clean ok ok fail", verdicts, " ")
    head("terminal 10")
    for (address = 1; address <= 6; address++) {
        head("terminal " address)
        head("at 1 " address " gap " times[address])
        undone[++undoings] = "at 1 " address " gap " others[address]
        head("at " sent + 1 " 10 gap " times[address])
        undone[++undoings] = "at " sent + 1 " 10 gap " others[address]
        send("rx " address " 1 [0001]")
        send("tx " address " 1 1")
        send("mode " address " 1")
        send("mode0 " address " 16")
        send("mode " address " 17 [0001]")
        send("rt " address " 1 10 1 1")
        send("rt 10 1 " address " 1 1")
        send("brt " address " 1 1 1")
        split("rx@1,tx@1,mode@*,rt@1 10 1,rt 10 1@1,brt@1 1", selector, ",")
        for (k = 1; k <= 6; k++) {
            chosen = selector[k]
            sub(/@/, " " address " ", chosen)
            rule(chosen " response " times[address] " " times[address])
            rule(chosen " " verdicts[address])
        }
    }
    undo("times are other, by a tick or so")
    done()
}
