"""The pictures of a page that stand in the guide: eight seconds of two buses, at four zooms."""
import base64
import os

# Terminal 5 does not answer on bus A for a tenth of a second, and a message to terminal 17 loses a word.
AVIONICS = """channel 1
terminal 3
terminal 5
terminal 12
terminal 17
at 0s 3 transmit 1 1A2E C812 0001
at 0s 3 ramp 1 1 1A2E 0001
at 3.2s 3 transmit 1 1A2E C812 0002
at 3.2s 3 ramp 1 1 1ACE 0002
at 3.2s 3 ramp 1 2 C812 0003
at 0s 5 transmit 2 0000
at 2.4s 5 ramp 2 1 0001 0001
at 4.9s 5 ramp 2 1 00FB 0000
at 6.2s 5 ramp 2 1 00FB FFFF
at 1.555s 5 mute A on
at 1.655s 5 mute A off
fault rx 17 2 nth 250 drop 0 3
script
repeat 400 {
  frame 10000 {
    retry 1 send A tx 5 2 1
    send A rt 3 1 12 1 3
    send A mode 12 2
    send A rx 17 2 [0101 0202 0303 0404 0505 0606 0707 0808]
  }
  frame 10000 {
    retry 1 send A tx 5 2 1
    send A brx 7 [1111 2222]
  }
}
"""
STORES = """channel 2
start 900
terminal 7
terminal 9
terminal 22
at 0s 7 transmit 3 0001 1400 0003 0004
at 0s 7 ramp 3 2 1400 0001
at 0s 9 transmit 1 8000
script
repeat 800 {
  frame 5000 {
    send A tx 7 3 4
    send B rx 22 5 [A5A5 5A5A]
  }
  frame 5000 { send A tx 7 3 4 send A tx 9 1 1 }
}
"""
# The name of each, light or dark, and what is done in the page in front of it.
PICTURES = [
    ("whole", "light", "nextError(1); showAll()"),
    ("frames", "dark", "nextError(1); show(14900000, 16900000)"),
    ("words", "light", "show(15999000, 16004500); for (let k = 0; k < 4; k++) nextMessage(1)"),
    ("terminals", "dark", "setMode('terminals'); show(0, 40000000)"),
]


def take(page, bench, dictionary, folder):
    """Writes them to a folder."""
    for name, text in (("avionics.job", AVIONICS), ("stores.job", STORES)):
        with open(name, "w", encoding="ascii") as file:
            file.write(text)
    bench("run", "--out", "flight.ch11", "--report", "flight.report", "--force", "avionics.job", "stores.job")
    bench("view", "flight.ch11", "--out", "flight.html", "--signals", dictionary)
    page.resize(1280, 800)
    page.ask("Emulation.setScrollbarsHidden", hidden=True)
    for name, theme, script in PICTURES:
        page.open("flight.html", f"#theme={theme}")
        page.value(f"readAddress('#theme={theme}'); {script}; 0")
        page.settle()
        picture = base64.b64decode(page.ask("Page.captureScreenshot", format="png")["data"])
        with open(os.path.join(folder, f"view-{name}.png"), "wb") as file:
            file.write(picture)
        print(f"view-{name}.png: {len(picture)} bytes")
