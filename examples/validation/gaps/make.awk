# Intermessage gaps. Behind a message that ends with a word of the controller the bench leaves 18.0 us (own choice).

# the ten forms; a mode command of each kind has a code of its own
function ten_forms() {
    return split("rx 5 1 [0001]/tx 5 2 2/rt 7 3 5 3 1/mode 5 1/mode 5 16/mode 5 17 [0001]/brx 4 [0001]/" \
        "brt 7 5 5 1/bmode 3/bmode 17 [0001]", form, "/")
}

BEGIN {
    forms = ten_forms()
    split("rx 5 1/tx 5 2/rt 7 3 5 3/mode 5 1/mode 5 16/mode 5 17/brx 4/brt 7 5 5/bmode 3/bmode 17", selector, "/")

    test("pairs", "4.3.3.7, 4.3.3.6", \
        "each form 4.0 us behind each form, and 18.0 us behind one that ends with a word of the controller")
    head("terminal 5")
    head("terminal 7")
    for (i = 1; i <= forms; i++)
        for (k = 1; k <= forms; k++) {
            send(form[i])
            send(form[k])
        }
    for (i = 1; i <= forms; i++) rule(selector[i] " clean")
    wrong("one message of each form is not answered, or is")
    for (i = 1; i <= forms; i++) {
        n = 20 * (i - 1) + 1
        if (i <= 6 || i == 8) does("fault " n " mute 1")
        else does("fault " n " add 0 " (i == 9 ? 0 : 1) " c " mode(5, 1, 1))
    }
    done()

    # From command to command: words of 20 us, 6 us more in front of a status word (a response time of 8.0 us), and 2 us
    # for a gap of 4.0, or 16 for one of 18.0.
    test("rate", "4.3.3.7, 4.3.3.8", \
        "500 messages of each form one behind the other, with the least gap between them")
    head("terminal 5")
    head("terminal 7")
    split("68 88 114 48 68 68 56 88 36 56", period, " ")
    for (i = 1; i <= forms; i++) {
        say("repeat 500 { send A " form[i] " }")
        rule(selector[i] " clean")
        rule(selector[i] " period " period[i] " " period[i])
    }
    wrong("the last but one message of each form is not answered, or is")
    for (i = 1; i <= forms; i++) {
        n = 500 * i - 1
        if (i <= 6 || i == 8) does("fault " n " mute 1")
        else does("fault " n " add 0 " (i == 9 ? 0 : 1) " c " mode(5, 1, 1))
    }
    done()

    test("long_run", "4.3.3.7", "20,000 messages at the least gap: none is missed")
    head("terminal 5")
    say("repeat 10000 { send A mode 5 1 send A tx 5 1 1 }")
    rule("mode 5 1 clean")
    rule("tx 5 1 clean")
    rule("any period 48 68")
    wrong("one is missed")
    does("fault 19997 mute 1")
    does("fault 19998 mute 1")
    done()

    test("each", "4.3.3.7", "gaps of 4.0 to 30.0 us in steps of a tenth, and one of 6.5 ms")
    head("terminal 5")
    for (ticks = 40; ticks <= 300; ticks++) {
        say("gap " ticks)
        say("repeat 3 { send A rx 5 1 [0001] send A tx 5 2 3 send A mode 5 2 }")
    }
    say("gap 65535 send A rx 5 1 [0001] send A tx 5 2 3")
    rule("any clean")
    rule("any status 2800")
    wrong("one message behind a gap of 4.0 us is not answered")
    does("fault 2 mute 1")
    wrong("the terminal flag is set")
    does("at 2 5 fault on")
    done()
}
