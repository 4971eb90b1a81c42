# Commands and counts: each subaddress and each count, to receive and to transmit.
BEGIN {
    test("receive", "4.3.3.6.1, 4.3.3.5.1.5", \
        "each subaddress takes 1 to 32 words, and answers with a clear status word")
    head("terminal 5")
    for (subaddress = 1; subaddress <= 30; subaddress++)
        for (count = 1; count <= 32; count++) send("rx 5 " subaddress " " listed(256 * subaddress, count))
    rule("rx 5 * clean")
    rule("rx 5 * status 2800")
    wrong("no answer at subaddress 9 to 32 words")
    does("fault 288 mute 1")
    wrong("subaddress 30 takes 17 words for illegal")
    does("at 1 5 illegal receive 30 17")
    wrong("an answer after 12.1 us to 1 word at subaddress 1")
    does("fault 1 late 1 121")
    done()

    # Terminal A is asked for A + 1 words at each subaddress, so that each of them has its rule.
    test("transmit", "4.3.3.6.2, 4.3.3.5.1.5", \
        "each subaddress sends 1 to 31 words, those that the host put there, behind a clear status word")
    for (address = 0; address <= 30; address++) head("terminal " address)
    for (address = 0; address <= 30; address++)
        for (subaddress = 1; subaddress <= 29; subaddress++)
            head("at 1 " address " transmit " subaddress " " words(256 * subaddress + 1, 32))
    for (address = 0; address <= 30; address++)
        for (subaddress = 1; subaddress <= 30; subaddress++) {
            send("tx " address " " subaddress " " address + 1)
            if (subaddress < 30) rule("tx " address " " subaddress " data " words(256 * subaddress + 1, address + 1))
        }
    for (address = 0; address <= 30; address++) rule("tx " address " * status " word(2048 * address))
    rule("any clean")
    wrong("all words at subaddresses 1 to 29 are gone, and statuses have message error")
    for (address = 0; address <= 30; address++)
        for (subaddress = 1; subaddress <= 29; subaddress++)
            does("at 1 " address " illegal transmit " subaddress " " address + 1)
    wrong("terminal 30 sends a word of 31 with wrong parity")
    does("fault 901 mask 1 31 " bad_parity)
    wrong("terminal 12 sends 14 words in place of 13 from subaddress 7")
    does("fault 367 add 1 13 d 0000")
    done()

    test("transmit_32", "4.3.3.6.2, 4.3.3.5.1.5", \
        "a word count of 00000 asks for 32 words: each subaddress sends them")
    head("terminal 5")
    for (subaddress = 1; subaddress <= 29; subaddress++)
        head("at 1 5 transmit " subaddress " " words(256 * subaddress + 1, 32))
    for (subaddress = 1; subaddress <= 30; subaddress++) {
        send("tx 5 " subaddress " 32")
        if (subaddress < 30) rule("tx 5 " subaddress " data " words(256 * subaddress + 1, 32))
    }
    rule("tx 5 * clean")
    rule("tx 5 * status 2800")
    wrong("31 words in place of 32")
    does("faults 1 30 1 drop 1 32")
    wrong("32 words are taken for illegal at subaddress 30")
    does("at 1 5 illegal transmit 30 32")
    done()
}
