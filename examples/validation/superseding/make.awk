# Superseding commands: a message is broken off at each place by another command to the same terminal, which answers
# that one. Terminal A is sent a command of its own kind; `kinds` sets which, with the data words behind it.

function kinds(    n) {
    for (n = 1; n <= 8; n++) behind[n] = ""
    n = 0
    name_of[++n] = "synchronize"; command[n] = mode(n, 1, 1)
    name_of[++n] = "transmit vector word"; command[n] = mode(n, 1, 16)
    name_of[++n] = "synchronize with data word"; command[n] = mode(n, 0, 17); behind[n] = "0001"
    name_of[++n] = "transmit BIT word"; command[n] = mode(n, 1, 19)
    name_of[++n] = "receive"; command[n] = receive(n, 2, 1); behind[n] = "0001"
    name_of[++n] = "transmit"; command[n] = transmit(n, 2, 3)
    name_of[++n] = "reset"; command[n] = mode(n, 1, 8)
    name_of[++n] = "the same once more"; command[n] = receive(n, 1, 1); behind[n] = "0001"
    return n
}

# whether the last word of a message that was broken off is the status word that answers the command of a kind
function ends_with_status(kind) { return kind == 1 || kind == 3 || kind == 5 || kind == 7 || kind == 8 }

# a message of a receive command announces 32 words, and is broken off by another command behind K of them: the next
# data word is made into that command, and behind 32 words it is added. A word of its own may come behind it
function break_off(form, k, other, data,    place) {
    place = (k < 32 ? k + 1 : 32)
    send(form " " listed(1, place))
    if (place < 32) fault("mask 0 0 " flip(place))
    if (k < 32) fault("mask 0 " place " " flip(differ(place, number(other)), 1))
    else fault("add 0 32 c " other)
    if (data != "") fault("add 0 " place " d " data)
}

# a command behind a place of the message just sent, with its data word
function comes_behind(place, other, data) {
    fault("add 0 " place " c " other)
    if (data != "") fault("add 0 " place " d " data)
}

# the terminal is asked what it did: its status word is clear, its last command the one that came later
function asked_then(address) {
    say("send A mode " address " 18")
    sent++
}
function rules_of_asked(address) {
    rule("mode " address " 18 status " word(2048 * address))
    rule("mode " address " 18 data " command[address])
}

function counterparts_of(last) {
    wrong("the second command is not heard")
    for (address = 1; address <= last; address++) does("at 1 " address " deaf A on")
    wrong("message error")
    does("faults 1 " sent " 1 mask 1 0 " message_error)
    wrong("another last command")
    does("faults 2 " sent " 2 mask 1 1 " flip(1))
    wrong("answers after 12.1 us")
    does("faults 1 " sent " 1 late 1 121")
}

BEGIN {
    last = kinds()

    # The message announces 32 words and has 0 to 32 of them.
    test("receive", "4.4.3.2", \
        "a receive message of 32 words is broken off behind each of them: the other command is answered")
    for (address = 1; address <= last; address++) head("terminal " address)
    for (k = 0; k <= 32; k++)
        for (address = 1; address <= last; address++) {
            break_off("rx " address " 1", k, command[address], behind[address])
            asked_then(address)
        }
    for (address = 1; address <= last; address++) {
        rule("rx " address " 1 response 40 120")
        if (ends_with_status(address)) rule("rx " address " 1 status " word(2048 * address))
        rules_of_asked(address)
    }
    counterparts_of(last)
    done()

    test("transmit", "4.4.3.2", \
        "a transmit command with another command contiguously behind it: the other one is answered")
    for (address = 1; address <= last; address++) head("terminal " address)
    for (k = 1; k <= 32; k++)
        for (address = 1; address <= last; address++) {
            send("tx " address " 1 " k)
            comes_behind(0, command[address], behind[address])
            asked_then(address)
        }
    for (address = 1; address <= last; address++) {
        rule("tx " address " 1 response 40 120")
        rules_of_asked(address)
    }
    counterparts_of(last)
    done()

    # Synchronize with data word loses its word, and initiate self test has none.
    test("modes", "4.4.3.2", \
        "a mode command with another command in the place of its data word, or behind it: the other is answered")
    for (address = 1; address <= last; address++) head("terminal " address)
    for (address = 1; address <= last; address++) {
        send("mode " address " 17 [0001]")
        fault("mask 0 1 " flip(differ(1, number(command[address])), 1))
        if (behind[address] != "") fault("add 0 1 d " behind[address])
        asked_then(address)
        send("mode0 " address " 17 [0001]")
        comes_behind(1, command[address], behind[address])
        asked_then(address)
        send("mode " address " 3")
        comes_behind(0, command[address], behind[address])
        asked_then(address)
    }
    for (address = 1; address <= last; address++) {
        rule("mode " address " 3 response 40 120")
        rule("mode " address " 17 response 40 120")
        rules_of_asked(address)
    }
    counterparts_of(last)
    done()

    # The receiver of a transfer has heard both commands; the sender hears one that is not to it.
    test("transfer", "4.4.3.2, 4.3.3.6.3", \
        "a transfer broken off behind its commands by one to the receiver: that is answered, and the sender is silent")
    for (address = 1; address <= last; address++) head("terminal " address)
    head("terminal 20")
    for (address = 1; address <= last; address++) {
        send("rt 20 1 " address " 1 4")
        comes_behind(1, command[address], behind[address])
        asked_then(address)
        send("mode 20 2")
    }
    for (address = 1; address <= last; address++) {
        rule("rt 20 1 " address " 1 response 40 120")
        rules_of_asked(address)
    }
    rule("mode 20 2 status A400")
    wrong("the second command is not heard, nor the first by the sender")
    for (address = 1; address <= last; address++) does("at 1 " address " deaf A on")
    does("at 1 20 deaf A on")
    wrong("message error")
    does("faults 1 " sent " 1 mask 1 0 " message_error)
    wrong("another last command")
    does("faults 2 " sent " 3 mask 1 1 " flip(1))
    done()

    # A message to all, broken off by a command to one terminal; and one to a terminal by one to all.
    test("to_all", "4.4.3.2, 4.3.3.6.7", \
        "a message to all of 32 words is broken off behind each of them: the other command is answered")
    for (address = 1; address <= last; address++) head("terminal " address)
    for (k = 0; k <= 32; k++)
        for (address = 1; address <= last; address++) {
            break_off("brx 1", k, command[address], behind[address])
            asked_then(address)
        }
    rule("brx 1 response 40 120")
    for (address = 1; address <= last; address++) rules_of_asked(address)
    counterparts_of(last)
    done()

    test("by_all", "4.4.3.2, 4.3.3.6.7", \
        "a receive message of 32 words is broken off behind each of them by one to all: no answer, and its bit")
    head("terminal 5")
    for (k = 0; k <= 32; k++) {
        break_off("rx 5 1", k, mode(31, 1, 1), "")
        say("if silent { send A mode 5 18 } else { send A tx 30 30 1 }")
        sent++
        send("rx 5 2 [0001]")
    }
    unanswered()
    rule("mode 5 18 status 2810")
    rule("mode 5 18 data FFE1")
    rule("rx 5 2 status 2800")
    wrong("the message to all is not heard")
    does("at 1 5 broadcast off")
    wrong("the broadcast bit stays")
    does("faults 3 " sent " 3 mask 1 0 " flip(16))
    wrong("an answer")
    does("fault 97 add 0 32 c " mode(5, 1, 1))
    done()

    # The second command of a transfer, whose sender is not there, is made a command to the receiver.
    test("gap", "4.4.3.2, 4.3.3.7", \
        "a receive command, and 4.0 to 25.5 us behind it another command: that is answered")
    for (address = 1; address <= last; address++) head("terminal " address)
    for (address = 1; address <= last; address++) {
        if (behind[address] != "") continue
        change = "mask 0 1 " flip(differ(number(transmit(30, 1, 1)), number(command[address])))
        say("repeat 216 {")
        say("  send B rt 30 1 " address " 1 1")
        say("  send A mode " address " 18")
        say("}")
        for (ticks = 40; ticks <= 255; ticks++) {
            n = sent + 2 * (ticks - 40) + 1
            head("fault " n " pause 0 1 " ticks)
            head("fault " n " " change)
        }
        sent += 432
        rules_of_asked(address)
    }
    rule("line B any response 40 120")
    counterparts_of(last)
    done()

    # What was broken off counts as a message with invalid data (own choice): where it is transmit status word or
    # transmit last command that comes, message error is told, and the last command is the one that was broken off.
    test("questions", "4.4.3.2, 4.3.3.5.1.7.3, 4.3.3.5.1.7.13", \
        "a receive message broken off by a question behind each of its words: message error, and its command")
    head("terminal 5")
    head("terminal 6")
    for (k = 0; k <= 32; k++)
        for (address = 5; address <= 6; address++) {
            break_off("rx " address " 1", k, mode(address, 1, address == 5 ? 2 : 18), "")
            send("mode " address " " (address == 5 ? 2 : 18))
            send("mode " address " 1")
        }
    rule("rx 5 1 status 2C00")
    rule("rx 6 1 status 3020")
    rule("mode 5 2 status 2C00")
    rule("mode 6 18 status 3400")
    rule("mode 6 18 data 3020")
    rule("mode * 1 status 0000 mask 07FF")
    wrong("message error is not told, or stays, and the last command is another")
    does("faults 1 " sent " 1 mask 1 0 " message_error)
    does("faults 1 " sent " 1 mask 1 1 " flip(1))
    done()
}
