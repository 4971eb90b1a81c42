# The unique address: each of 31 terminals answers for itself alone.
BEGIN {
    # Terminal A is on alone: called, it answers; the others are called, and there is no answer (the message fails).
    test("alone", "Notice 2 30.3, 4.3.3.5.1.2", \
        "each address in turn is the one that is there: it answers, and no other does")
    for (address = 0; address <= 30; address++) head("terminal " address)
    for (address = 1; address <= 30; address++) head("at 1 " address " power off")
    for (address = 0; address <= 30; address++) {
        if (address) {
            head("at " sent + 1 " " address - 1 " power off")
            head("at " sent + 1 " " address " power on")
        }
        for (called = 0; called <= 30; called++) {
            if (called == address) send("mode " called " 2")
            else send("mode " called " 1")
        }
        rule("mode " address " 2 clean")
        rule("mode " address " 2 status " word(2048 * address))
    }
    rule("mode * 1 fail")
    wrong("no terminal is turned off")
    for (address = 0; address <= 30; address++)
        for (called = 0; called <= 30; called++) does("at " 31 * called + 1 " " address " power on")
    wrong("the one that is on does not answer")
    does("faults 1 " sent " 32 mute 1")
    done()

    # All 31 are on one bus: each gets a word of its own, and sends that one.
    test("all", "Notice 2 30.3, 4.3.3.5.1.2, 4.3.3.5.3.2", \
        "31 terminals on one bus: each takes and sends its own words, under its own address")
    for (address = 0; address <= 30; address++) {
        head("terminal " address)
        send("rx " address " 30 [" word(43981 - 257 * address) "]")
    }
    for (address = 30; address >= 0; address--) {
        send("tx " address " 30 1")
        rule("tx " address " 30 data " word(43981 - 257 * address))
        rule("tx " address " 30 status " word(2048 * address))
        rule("rx " address " 30 status " word(2048 * address))
    }
    rule("any clean")
    wrong("each bit of a status word's address is another")
    for (n = 1; n <= sent; n++) does("fault " n " mask 1 0 " flip(2048 * power(n % 5)))
    wrong("each takes another word")
    does("faults 1 31 1 mask 0 1 " flip(1))
    done()

    test("transfers", "Notice 2 30.3, 4.3.3.6.3", "a transfer from each of 31 terminals to each other one")
    for (address = 0; address <= 30; address++) head("terminal " address)
    for (address = 0; address <= 30; address++)
        for (called = 0; called <= 30; called++)
            if (called != address) send("rt " address " 1 " called " 1 1")
    rule("any clean")
    wrong("one receiver does not answer")
    does("fault 512 mute 2")
    wrong("the status word of one sender has another address")
    does("fault 99 mask 1 0 " flip(2048))
    done()

    # Each bit of the address in the command word is inverted in turn, the word being valid: another one is called.
    test("bits", "4.3.3.5.1.2, 4.3.3.5.1.6", \
        "a command to an address that differs in one bit is not answered, be it valid or not")
    head("terminal 5")
    head("terminal 21")
    for (k = 0; k <= 1; k++)
        for (i = 0; i <= 4; i++) {
            address = (k ? 21 : 5)
            other = differ(address, power(i))
            if (other == 5 || other == 21) continue
            say("repeat 3 {")
            say("  send A mode " other " 1")
            say("  if silent { send B mode " address " 2 } else { send A tx 30 30 1 }")
            say("}")
            sent += 6
            say("repeat 3 {")
            say("  send A mode " address " 1")
            say("  if silent { send B mode " address " 2 } else { send A tx 30 30 1 }")
            say("}")
            for (n = 1; n <= 5; n += 2) head("fault " sent + n " mask 0 0 " whole(i + 12))
            for (n = 1; n <= 5; n += 2) undone[++undoings] = "fault " sent + n " mask 0 0 " whole(i + 12)
            sent += 6
        }
    unanswered()
    rule("line B mode 5 2 status 2800")
    rule("line B mode 21 2 status A800")
    wrong("parity is not looked at")
    for (i = 1; i <= undoings; i++) does(undone[i])
    wrong("message error")
    does("faults 2 " sent " 2 mask 1 0 " message_error)
    done()
}
