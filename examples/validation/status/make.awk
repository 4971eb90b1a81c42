# Each combination of the bits that a host sets: terminal A has those of the bits of A.
BEGIN {
    test("combinations", "4.3.3.5.3", \
        "each combination of service request, busy, subsystem flag and terminal flag, and none of them")
    for (address = 0; address <= 15; address++) {
        head("terminal " address)
        bits = int(address / 8) * 256 + int(address / 4) % 2 * 8 + int(address / 2) % 2 * 4 + address % 2
        head("at 1 " address " service " (address >= 8 ? "on" : "off"))
        head("at 1 " address " busy " (int(address / 4) % 2 ? "on" : "off"))
        head("at 1 " address " subsystem " (int(address / 2) % 2 ? "on" : "off"))
        head("at 1 " address " fault " (address % 2 ? "on" : "off"))
        send("rx " address " 1 [0001]")
        send("mode " address " 2")
        send("tx " address " 1 1")
        rule("rx " address " 1 status " word(2048 * address + bits))
        rule("mode " address " 2 status " word(2048 * address + bits))
        rule("tx " address " 1 status " word(2048 * address + bits))
    }
    rule("any clean")
    wrong("the host of each terminal is that of the next one")
    for (address = 0; address <= 15; address++) {
        next_ = (address + 1) % 16
        does("at 1 " address " service " (next_ >= 8 ? "on" : "off"))
        does("at 1 " address " busy " (int(next_ / 4) % 2 ? "on" : "off"))
        does("at 1 " address " subsystem " (int(next_ / 2) % 2 ? "on" : "off"))
        does("at 1 " address " fault " (next_ % 2 ? "on" : "off"))
    }
    wrong("one terminal does not answer")
    does("fault 48 mute 1")
    done()
}
