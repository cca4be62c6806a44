"""Talks to the panel of examples/firmware on the emulated board: firmware.py HOST PROGRAM SCRATCH. The page, the lamp and the test's power
switch (board.h) lie in a file that this program shares with the emulator: what it holds outlives the emulator, as flash does."""
import atexit
import functools
import json
import mmap
import os
import re
import select
import socket
import struct
import subprocess
import sys

HOST, PROGRAM, SCRATCH = sys.argv[1:]
MEMORY = os.path.join(SCRATCH, "memory")
SIZE = 16 << 20
SEAL_AT, PAGE_SIZE, LAMP, POWER = 4100, 4104, 0x2000, 0x2004
SEAL = struct.pack("<I", 0x6B657074)
COUNTS = "10000 2847876 10000 1352875"
READING = f"R {COUNTS}\n".encode()
DARK = ["refused 5 0", "level 2 refused 5 0"]

with open(MEMORY, "wb") as new:
    new.truncate(SIZE)
shared = open(MEMORY, "r+b")
memory = mmap.mmap(shared.fileno(), 0x3000)


def must(holds, *what):
    if not holds:
        sys.exit("firmware: wrong: " + " ".join(map(str, what)))


def lines_of(text):
    """The lines of a text, each with its LF: a CR ends none."""
    return re.findall(rb"[^\n]*\n", text)


class Board:
    """The board with its power on."""

    def __init__(self, *words):
        self.process = subprocess.Popen(
            ["qemu-system-arm", "-M", "mps2-an386,memory-backend=page", "-display", "none", "-monitor", "none", "-serial", "stdio",
             "-object", f"memory-backend-file,id=page,size={SIZE},mem-path={MEMORY},share=on", "-kernel", PROGRAM, *words],
            stdin=subprocess.PIPE, stdout=subprocess.PIPE, bufsize=0)
        atexit.register(self.process.kill)  # the emulator ends with the test, however that ends
        self.heard = b""
        self.lamp = 0
        must(self.answer().startswith("boot "), "no word at boot")

    def word(self):
        """The next line of the panel."""
        while b"\n" not in self.heard:
            must(select.select([self.process.stdout], [], [], 20)[0], "the panel is silent after", self.heard)
            got = os.read(self.process.stdout.fileno(), 4096)
            must(got, "the emulator has ended")
            self.heard += got
        said, self.heard = self.heard.split(b"\n", 1)
        return said.decode()

    def answer(self):
        """The next line that does not tell of the lamp. The lamp is what was last told of it, and is told of where it changes."""
        told, said = None, self.word()
        while said in ("lamp green", "lamp out"):
            told, said = said == "lamp green", self.word()
        before = 0 if said.startswith("boot ") else self.lamp
        self.lamp = before if told is None else int(told)
        must(told is None or self.lamp != before, "a lamp told of that did not change, before", said)
        must(memory[LAMP] == self.lamp, "the lamp is", memory[LAMP], "after", said)
        return said

    def ask(self, line):
        self.process.stdin.write(line)
        return self.answer()

    def load(self, text):
        """The text by lines; the answer to its end, or what is said where the power goes before."""
        for line in [b"L\n", *lines_of(text), b"E\n"]:
            said = self.ask(line)
            if said.startswith("boot "):
                return said
        return said

    def shown(self):
        return [self.ask(READING), self.ask(b"Q\n")]

    def lose_power(self):
        self.process.kill()
        self.process.wait()
        self.process.stdout.close()
        self.process.stdin.close()


@functools.lru_cache(maxsize=None)
def expected(text):
    """What the panel has to say of a text: to its end, to the counts, to the question."""
    said = subprocess.run([HOST, *COUNTS.split()], input=text, stdout=subprocess.PIPE, check=True).stdout.decode().splitlines()
    must(len(said) == 3, "this machine says", said)
    return said[0], said[1:]


def example(name):
    with open(f"examples/{name}.hex", "rb") as file:
        return file.read()


def switch(words, bits):
    """The power goes while so many words more of the page change, of the last one after these bits."""
    memory[POWER : POWER + 8] = struct.pack("<II", words, bits)


def reboot(board):
    """A power cycle without a new emulator: the power goes at the first word of a load, before it has changed."""
    switch(1, 0)
    said = board.ask(b"L\n")
    must(said.startswith("boot "), "no power cycle but", said)


def loads(board):
    """Good and bad loads in turn; returns how many."""
    old, new, bad = example("format"), example("typical"), example("damaged")
    done = 0
    must(board.shown() == DARK, "an empty page shows", board.shown())
    for text in (new, old, example("trimmed"), example("objcopy"), example("kind200"), long_records(new)):
        ended, shown = expected(text)
        must(ended.startswith("accepted "), "an example is refused here:", ended)
        must(board.load(text) == ended and board.shown() == shown, "a good load")
        reboot(board)
        must(board.shown() == shown, "a good load after a power cycle")
        done += 1
    lines = lines_of(new)
    texts = [bad, example("kind100"), b"", b"E" + new, new + lines[-1]]
    texts += [b"".join(lines[:lost] + lines[lost + 1 :]) for lost in range(len(lines))]
    texts += [b"".join(lines[:cut]) for cut in range(len(lines))]
    # a line that is longer than the panel's buffer, and others after it; lines that are no records
    texts += [lines[0] + b":" + size * b"0" + b"\n" + lines[1] for size in (521, 522, 523, 524, 2000)]
    # a line whose start and end, joined, would be good
    texts += [long_records(new).replace(b"\r\n", b"\r" + size * b"0" + b"\n", 1) for size in (1, 2)]
    texts += [lines[0] + line + b"".join(lines[1:]) for line in (b"\n", b"Q \n", b"R 1 2 3\n", b"R 1 2 3 18446744073709551616\n", b"hello\n")]
    for text in texts:
        must(board.load(old) == expected(old)[0] and board.lamp == 1, "a good load before a bad one")
        ended, _ = expected(text)
        must(ended.startswith("refused "), "a bad text is accepted here")
        must(board.load(text) == ended and board.lamp == 0, "a bad load after a good one, not", ended)
        must(board.shown() == [DARK[0], "level 2 " + ended], "after a bad load:", board.shown())
        must(memory[SEAL_AT:PAGE_SIZE] == bytes(4), "the page after a bad load")
        reboot(board)
        must(board.shown() == DARK and board.lamp == 0, "after a bad load and a power cycle:", board.shown())
        done += 2
    return done


def long_records(text):
    """The same image in records as long as they can be, with CR LF."""
    image = b"".join(bytes.fromhex(line[9:-2].decode()) for line in text.split() if line[7:9] == b"00")
    said = b""
    for at in range(0, len(image), 255):
        record = bytes([len(image[at : at + 255]), at >> 8, at & 255, 0]) + image[at : at + 255]
        said += b":" + (record + bytes([-sum(record) & 255])).hex().upper().encode() + b"\r\n"
    must(max(map(len, lines_of(said))) == 523, "the longest line")
    return said + b":00000001FF\r\n"


def lines_and_power(old, new):
    """The power goes after each line of a load, and after its end; the emulator is killed and started again."""
    steps = [b"L\n", *lines_of(new), b"E\n"]
    for count in range(len(steps) + 1):
        board = Board()
        must(board.load(old) == expected(old)[0], "a good load before the power goes")
        for line in steps[:count]:
            board.ask(line)
        if 0 < count < len(steps):
            must(board.shown() == [DARK[0], "level 2 loading"] and board.lamp == 0, "while a text comes, at line", count)
        board.lose_power()
        must((memory[SEAL_AT:PAGE_SIZE] == SEAL) == (count in (0, len(steps))), "the seal after", count, "lines")
        board = Board()
        right = expected(old)[1] if count == 0 else expected(new)[1] if count == len(steps) else DARK
        must(board.shown() == right, "after a power cycle at line", count, "not", right)
        board.lose_power()
    return len(steps) + 1


def words_and_power(board, old, new):
    """The power goes while each word of the page changes, before it does and with half of its bits changed; and after the last one."""
    must(board.load(old) == expected(old)[0], "a good load")
    page = memory[0:PAGE_SIZE]
    switch(1 << 30, 0)
    must(board.load(new) == expected(new)[0], "a good load")
    words = (1 << 30) - struct.unpack("<I", memory[POWER : POWER + 4])[0]
    kept = memory[0:PAGE_SIZE]
    for word in range(1, words + 1):
        for bits in (0, 0xFFFF, 0xFFFFFFFF) if word == words else (0, 0xFFFF):
            memory[0:PAGE_SIZE] = page
            switch(word, bits)
            said = board.load(new)
            must(said.startswith("boot "), "no power cycle at word", word, "but", said)
            untouched, whole = (word, bits) == (1, 0), (word, bits) == (words, 0xFFFFFFFF)
            must((memory[SEAL_AT:PAGE_SIZE] == SEAL) == (untouched or whole), "the seal at word", word)
            must(memory[0:PAGE_SIZE] == page or not untouched, "the page before the first word")
            must(memory[0:PAGE_SIZE] == kept or not whole, "the page after the last word")
            right = expected(old)[1] if untouched else expected(new)[1] if whole else DARK
            must(board.shown() == right, "after a power cycle at word", word, "not", right)
    return words


def damaged_pages(board, new):
    """One bit of the page changes while the power is off."""
    must(board.load(new) == expected(new)[0], "a good load")
    page = memory[0:PAGE_SIZE]
    places = [*range(struct.unpack("<I", page[4096:4100])[0]), *range(4096, PAGE_SIZE)]
    for place in places:
        memory[place] ^= 1 << place % 8
        reboot(board)
        must(board.lamp == 0 and board.ask(READING) == DARK[0], "a reading by a damaged page, at", place)
        memory[0:PAGE_SIZE] = page
    reboot(board)
    must(board.shown() == expected(new)[1], "the page mended")
    return len(places)


def stack(board, path, low, high):
    """How much of the painted memory between bss and stack top is no longer painted, from the top down."""
    with socket.socket(socket.AF_UNIX) as monitor:
        monitor.connect(path)
        said = monitor.makefile("rw")
        saved = os.path.join(SCRATCH, "saved")
        for command in ({"execute": "qmp_capabilities"}, {"execute": "pmemsave", "arguments": {"val": low, "size": high - low, "filename": saved}}):
            said.write(json.dumps(command) + "\n")
            said.flush()
            while "return" not in (answer := json.loads(said.readline())):
                must("error" not in answer, answer)
    with open(saved, "rb") as file:
        left = file.read()
    return len(left.lstrip(b"\x5a"))


def measured(new, bad):
    """Flash, memory and stack, of a board that has loaded, read and refused."""
    names = {name: int(at, 16) for at, _, name in
             (line.split() for line in subprocess.check_output(["arm-none-eabi-nm", PROGRAM], text=True).splitlines())}
    sizes = subprocess.check_output(["arm-none-eabi-size", PROGRAM], text=True).split()[6:9]
    low, high = names["bss_end"], names["stack_top"]
    paint, path = os.path.join(SCRATCH, "paint"), os.path.join(SCRATCH, "monitor")
    with open(paint, "wb") as file:
        file.write(b"\x5a" * (high - low))
    board = Board("-device", f"loader,file={paint},addr={low},force-raw=on", "-qmp", f"unix:{path},server=on,wait=off")
    for text in (new, bad, long_records(new), new):
        must(board.load(text) == expected(text)[0], "a load that is measured")
        board.shown()
    deepest = stack(board, path, low, high)
    board.lose_power()
    must(deepest < 2048, "the stack took", deepest, "bytes")
    return f"{int(sizes[0]) + int(sizes[1])} bytes of flash, {int(sizes[1]) + int(sizes[2])} of memory, {deepest} of stack"


def main():
    old, new = example("format"), example("typical")
    board = Board()
    print("firmware:", loads(board), "loads, good and bad, and each with a power cycle after it", flush=True)
    print("firmware: the power lost while each of", words_and_power(board, old, new), "words changes in a load", flush=True)
    print("firmware: a bit changed at each of", damaged_pages(board, new), "places of the page", flush=True)
    board.lose_power()
    print("firmware: the power lost at", lines_and_power(old, new), "places between the lines of a load", flush=True)
    print("firmware:", measured(new, example("damaged")))


main()
