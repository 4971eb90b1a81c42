# Illegal commands: each subaddress and count that the host has marked, in either direction, and each mode code.

# a terminal that takes all subaddresses and counts of a direction for illegal, and one that takes them all
function all_marked(direction,    subaddress, count, kind) {
    kind = (direction == "receive" ? "rx" : "tx")
    test(direction, "4.4.3.4", \
        "each subaddress and count to " direction " that is illegal gets message error and its status word alone")
    head("terminal 5")
    head("terminal 6")
    for (subaddress = 1; subaddress <= 30; subaddress++)
        for (count = 1; count <= 32; count++) {
            head("at 1 5 illegal " direction " " subaddress " " count)
            undone[++undoings] = "at 1 5 legal " direction " " subaddress " " count
        }
    say("define again { send A mode 5 18 }")
    for (subaddress = 1; subaddress <= 30; subaddress++)
        for (count = 1; count <= 32; count++) {
            send(kind " 5 " subaddress " " (direction == "receive" ? listed(0, count) : count))
            say("call again")
            sent++
        }
    for (subaddress = 1; subaddress <= 30; subaddress++)
        send(kind " 6 " subaddress " " (direction == "receive" ? listed(0, subaddress) : subaddress))
    rule(kind " 5 * status 2C00")
    if (direction == "transmit") rule("tx 5 * data")
    rule(kind " 6 * status 3000")
    rule("mode 5 18 status 2C00")
    rule("any clean")
    wrong("illegal commands are taken for legal")
    for (k = 1; k <= undoings; k++) does(undone[k])
    undoings = 0
    wrong("the other terminal takes its commands for illegal")
    for (subaddress = 1; subaddress <= 30; subaddress++)
        does("at 1 6 illegal " direction " " subaddress " " subaddress)
    wrong("no answer to one illegal command")
    does("fault 1001 mute 1")
    done()
}

BEGIN {
    all_marked("receive")
    all_marked("transmit")

    # Terminal 5 has each mode code of the standard marked, at both mode subaddresses, and terminal 6 none.
    test("modes", "4.4.3.4, 4.3.3.5.1.7", \
        "each mode code that is illegal gets message error and its status word alone, and does nothing")
    head("terminal 5")
    head("terminal 6")
    for (code = 0; code <= 19; code++)
        if (code <= 8 || code >= 16) {
            direction = (code == 17 ? "receive" : "transmit")
            head("at 1 5 illegal mode " direction " " code)
            undone[++undoings] = "at 1 5 legal mode " direction " " code
            for (address = 5; address <= 6; address++) {
                send("mode " address " " code (code == 17 ? " [0001]" : ""))
                send("mode0 " address " " code (code == 17 ? " [0001]" : ""))
            }
        }
    rule("mode 5 * status 2C00")
    rule("mode 6 * status 3000")
    for (code = 0; code <= 19; code++)
        if (code <= 8 || code >= 16)
            if (code != 17) rule("mode 5 " code " data")
    rule("any clean")
    wrong("illegal commands are taken for legal")
    for (k = 1; k <= undoings; k++) does(undone[k])
    undoings = 0
    wrong("a data word comes with each status word of an illegal command")
    for (n = 1; n <= sent; n += 2) does("faults " n " " n " 1 add 1 0 d 0000")
    wrong("the other terminal takes its commands for illegal")
    does("faults 1 " sent " 1 mask 1 0 " message_error)
    done()
}
