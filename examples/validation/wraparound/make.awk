# Data wraparound: what is received at subaddress 30 is sent back from there.

function twice(line) {
    head(line)
    undone[++undoings] = line
}

BEGIN {
    # Terminal A has A + 1 words, and terminal 5 has 32 over the other bus.
    test("counts", "Notice 2 30.7, 4.3.3.6.1, 4.3.3.6.2", "1 to 32 words come back as they were")
    for (address = 0; address <= 30; address++) {
        head("terminal " address)
        send("rx " address " 30 " listed(2048 * address + 64, address + 1))
        send("tx " address " 30 " address + 1)
        rule("line A tx " address " 30 data " words(2048 * address + 64, address + 1))
    }
    say("send B rx 5 30 " listed(4660, 32))
    say("send B tx 5 30 32")
    rule("line B tx 5 30 data " words(4660, 32))
    rule("any clean")
    wrong("words are lost on their way to the terminal")
    does("faults 1 64 2 mask 0 1 " flip(1))
    wrong("one terminal does not answer")
    does("fault 40 mute 1")
    done()

    # Each bit alone is one (terminal 5), and zero (6); and each bit is the other of the one before (7) and of that of
    # the word before (8).
    test("patterns", "Notice 2 30.7, 4.3.3.5.2.2", "each bit of a data word comes back as it was")
    for (address = 5; address <= 8; address++) {
        head("terminal " address)
        text = ""
        for (i = 0; i < 32; i++) {
            bit = power(i % 16)
            text = text (i ? " " : "") word(address == 5 ? bit : address == 6 ? 65535 - bit : \
                address == 7 ? (i % 2 ? 21845 : 43690) : (i % 2 ? 65535 : 0))
        }
        send("rx " address " 30 [" text "]")
        send("tx " address " 30 32")
        rule("tx " address " 30 data " text)
    }
    rule("any clean")
    wrong("a bit is stuck on its way to each terminal")
    for (i = 1; i <= 7; i += 2) does("fault " i " mask 0 " 16 " " flip(1024))
    wrong("one terminal does not answer")
    does("fault 3 mute 1")
    done()

    # Words with errors of all kinds, a gap, a word too many or too few: what was received before is sent.
    test("invalid", "Notice 2 30.7, 4.4.3.6", "invalid data words are not used: the valid ones before are sent")
    head("terminal 5")
    split("parity manchester sync", kinds, " ")
    n = 0
    for (k = 1; k <= 3; k++) {
        count = masks_of(kinds[k])
        for (i = 1; i <= count; i++)
            for (place = 1; place <= 2; place++) every[++n] = "mask 0 " place " " masks[i]
    }
    send("rx 5 30 [1111 2222]")
    masked = n
    for (ticks = 21; ticks <= 60; ticks++)
        for (place = 1; place <= 2; place++) every[++n] = "pause 0 " place " " ticks
    every[++n] = "drop 0 1"
    every[++n] = "drop 0 2"
    every[++n] = "add 0 1 d 5555"
    every[++n] = "add 0 2 d 5555"
    every[++n] = "add 0 1 c 2FE1"
    every[++n] = "add 0 2 c 2FE1"
    say("repeat " n " { send A rx 5 30 [3333 4444] send A tx 5 30 2 }")
    turns_from = sent
    per_turn = 2
    sent += 2 * n
    for (i = 1; i <= n; i++)
        if (i <= masked) twice(in_turn(i) every[i])
        else head(in_turn(i) every[i])
    rule("tx 5 30 data 1111 2222")
    rule("tx 5 30 status 2800")
    wrong("invalid words are taken for valid")
    for (i = 1; i <= undoings; i++) does(undone[i])
    undoings = 0
    wrong("message error stays behind the next command")
    does("faults 3 " sent " 2 mask 1 0 " message_error)
    done()

    # What is sent where another number of words is asked for, words of broadcasts, and of messages broken off (own
    # choices but the last).
    test("other_counts", "Notice 2 30.7", "another count than was received: words are cut, or zeros (own choice)")
    for (address = 0; address <= 30; address++) {
        head("terminal " address)
        send("rx " address " 30 " listed(4096, 16))
        send("tx " address " 30 " address + 1)
        text = words(4096, address < 16 ? address + 1 : 16)
        for (i = 16; i <= address; i++) text = text " 0000"
        rule("tx " address " 30 data " text)
    }
    rule("any clean")
    wrong("words are others")
    does("faults 1 62 2 mask 0 1 " flip(1))
    wrong("one terminal does not answer")
    does("fault 40 mute 1")
    done()
}
