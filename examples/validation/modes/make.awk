# Mode commands: each code with each T/R and at both mode subaddresses. Terminal 5 has subaddress 31 and T/R 1, terminal
# 6 subaddress 31 and T/R 0, terminal 7 subaddress 0 and T/R 1, terminal 8 subaddress 0 and T/R 0.

# the mode command of a T/R and a code, at a terminal; a script has those of the standard alone, so the others are made
# of one that a script has, by inverting bits of the command word
function pair(is_transmit, code, at_zero,    address, form) {
    address = 6 + 2 * at_zero - is_transmit
    form = (at_zero ? "mode0 " : "mode ") address " "
    if (is_transmit && (code < 16 || code == 16 || code == 18 || code == 19 || code > 21)) send(form code)
    else if (is_transmit) {
        send(form 16)
        fault("mask 0 0 " flip(code - 16))
    } else if (code == 17 || code > 19) send(form code " [00AA]")
    else if (code > 15) {
        send(form "17 [00AA]")
        fault("mask 0 0 " flip(differ(code, 17)))
    } else {
        send(form code)
        fault("mask 0 0 " flip(1024))
    }
    return address
}

# the terminal takes the pair for illegal, says so once more where it is asked, and no more behind another command
function refused_pair(is_transmit, code,    at_zero, address) {
    for (at_zero = 0; at_zero <= 1; at_zero++) {
        address = pair(is_transmit, code, at_zero)
        send("mode " address " 2")
        send("rx " address " 1 [0000]")
    }
}

function rules_of_refused(is_transmit,    at_zero, address) {
    for (at_zero = 0; at_zero <= 1; at_zero++) {
        address = 6 + 2 * at_zero - is_transmit
        rule("mode " address " * status " word(2048 * address + 1024))
        rule("rx " address " 1 status " word(2048 * address))
        if (is_transmit) rule("mode " address " * data")
    }
}

# counterparts: terminals that take no mode command for illegal, ones that keep message error, one that answers late
function all_sorts(    n) {
    wrong("mode commands are answered as if they were legal")
    for (n = 1; n < sent; n += 3) does("fault " n " mask 1 0 " message_error)
    wrong("message error is gone when the terminal is asked for it, or stays behind the next command")
    for (n = 2; n < sent; n += 3) does("faults " n " " n + 1 " 1 mask 1 0 " message_error)
    wrong("a data word comes with the status word of an illegal command to transmit")
    for (n = 1; n < sent; n += 3) does("fault " n " add 1 0 d 0000")
    wrong("no answer to an illegal command")
    does("fault 1 mute 1")
}

# asks a terminal about the message just sent, which has no answer, and clears its status word
function question(address) {
    stimulus[++stimuli] = sent
    asked[stimuli] = address
    say("if silent { send A mode " address " 2 } else { send A tx 30 30 1 }")
    sent++
    send("rx " address " 1 [0000]")
}

# a counterpart in which the terminals answer: they hear one more command behind the message
function answered(what,    n) {
    wrong(what)
    for (n = 1; n <= stimuli; n++)
        does("fault " stimulus[n] " add 0 " 1 - asked[n] % 2 " c " mode(asked[n], 1, 1))
}

function four_terminals(    address) {
    for (address = 5; address <= 8; address++) head("terminal " address)
}

BEGIN {
    test("known", "4.3.3.5.1.7, Notice 2 30.4.1", \
        "each mode code that the standard assigns, at subaddress 31 (terminal 5) and 0 (terminal 7)")
    head("terminal 5")
    head("terminal 7")
    for (address = 5; address <= 7; address += 2) {
        head("at 1 " address " vector 00AA")
        head("at 1 " address " selftest 0F0F")
        form = (address == 5 ? "mode 5 " : "mode0 7 ")
        for (code = 0; code <= 8; code++) send(form code)
        for (code = 16; code <= 19; code++) send(form code (code == 17 ? " [1234]" : ""))
        rule("mode " address " * clean")
        rule("mode " address " * status " word(2048 * address))
        rule("mode " address " 16 data 00AA")
        rule("mode " address " 17 data 1234")
        rule("mode " address " 18 data " (address == 5 ? "2BF1" : "3811"))
        rule("mode " address " 19 data 0F0F")
    }
    wrong("no answer to synchronize")
    does("fault 2 mute 1")
    does("fault 15 mute 1")
    wrong("each status word has message error")
    does("faults 1 26 1 mask 1 0 " message_error)
    wrong("another vector word")
    does("at 1 5 vector 00AB")
    does("at 1 7 vector 00A8")
    wrong("another self-test result")
    does("at 1 5 selftest 0F0E")
    does("at 1 7 selftest 0F0D")
    wrong("the bit of the last command word that is sent last is wrong")
    does("fault 12 mask 1 1 " flip(1))
    does("fault 25 mask 1 1 " flip(1))
    wrong("the word of synchronize with data word is not heard")
    does("fault 11 drop 0 1")
    does("fault 24 drop 0 1")
    done()

    test("undefined", "4.3.3.5.1.7, 4.4.3.4", \
        "each T/R and code that the standard leaves undefined gets message error and no data word")
    four_terminals()
    refused_pair(1, 17)
    refused_pair(1, 20)
    refused_pair(1, 21)
    for (code = 0; code <= 19; code++) if (code != 17) refused_pair(0, code)
    rules_of_refused(1)
    rules_of_refused(0)
    rule("any ok")
    all_sorts()
    done()

    test("reserved", "4.3.3.5.1.7.10, 4.3.3.5.1.7.17, 4.4.3.4", \
        "each reserved mode code gets message error and no data word")
    four_terminals()
    for (code = 9; code <= 15; code++) refused_pair(1, code)
    for (code = 22; code <= 31; code++) {
        refused_pair(1, code)
        refused_pair(0, code)
    }
    rules_of_refused(1)
    rules_of_refused(0)
    rule("any ok")
    all_sorts()
    done()

    test("selected_shutdown", "4.3.3.5.1.7.15, 4.3.3.5.1.7.16", \
        "selected transmitter shutdown and its override get message error: there are two buses")
    head("terminal 6")
    head("terminal 8")
    refused_pair(0, 20)
    refused_pair(0, 21)
    rules_of_refused(0)
    rule("any ok")
    all_sorts()
    done()

    test("words", "4.3.3.6.4, 4.3.3.6.5, 4.3.3.6.6, 4.4.3.6", \
        "a mode command with a data word too many or too few gets no answer, and sets message error")
    four_terminals()
    stimuli = 0
    for (at_zero = 0; at_zero <= 1; at_zero++)
        for (code = 0; code <= 31; code++) {
            if (code != 2 && code != 17 && code != 18 && code != 20 && code != 21) {
                address = pair(1, code, at_zero)
                fault("add 0 0 d 0001")
                question(address)
            }
            if (code == 17 || code > 19) {
                address = pair(0, code, at_zero)
                fault("drop 0 1")
                question(address)
                pair(0, code, at_zero)
                fault("add 0 1 d 0001")
                question(address)
            }
        }
    rule("tx 30 30 count 0 0")
    for (address = 5; address <= 8; address++) {
        rule("mode " address " 2 status " word(2048 * address + 1024))
        rule("rx " address " 1 status " word(2048 * address))
    }
    answered("the message is answered all the same")
    wrong("no message error where the terminal is asked")
    for (n = 1; n <= stimuli; n++) does("fault " stimulus[n] + 1 " mask 1 0 " message_error)
    wrong("message error stays")
    for (n = 1; n <= stimuli; n++) does("fault " stimulus[n] + 2 " mask 1 0 " message_error)
    done()

    # Terminals 5 and 7 have a clear status word, and 6 and 8 message error; questions come over the other bus.
    test("words_of_questions", "4.3.3.5.1.7.3, 4.3.3.5.1.7.13", \
        "transmit status word and last command with a word too many get no answer, and change no status")
    four_terminals()
    stimuli = 0
    for (address = 5; address <= 8; address++) {
        form = (address < 7 ? "mode " : "mode0 ") address
        send(form (address % 2 ? " 1" : " 9"))
        for (code = 2; code <= 18; code += 16) {
            send(form " " code)
            fault("add 0 0 d 0001")
            stimulus[++stimuli] = sent
            asked[stimuli] = address
            say("if silent { send B " form " " code " } else { send A tx 30 30 1 }")
            sent++
        }
        status = word(2048 * address + 1024 * (1 - address % 2))
        rule("line B mode " address " * status " status)
        rule("line B mode " address " 18 data " word(2048 * address + 1024 + 32 * 31 * (address < 7) + 2))
    }
    rule("tx 30 30 count 0 0")
    wrong("the message is answered all the same, and taken for synchronize")
    for (n = 1; n <= stimuli; n++) does("fault " stimulus[n] " add 0 0 c " mode(asked[n], 1, 1))
    wrong("the status word changes")
    for (n = 1; n <= stimuli; n++) does("fault " stimulus[n] + 1 " mask 1 0 " message_error)
    wrong("no word behind the status word of transmit last command")
    for (n = 2; n <= stimuli; n += 2) does("fault " stimulus[n] + 1 " drop 1 1")
    done()
}
