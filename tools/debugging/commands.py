"""The commands: their words, abbreviations and arguments."""
import os
import re

from contents import content_of

from . import calls, showing
from .runs import NEVER, Refused
from .session import MANY
from .values import count_of, register_of

HELP = """PLACE is a name, an octal number or a register, with + and -; @PLACE is the word
there, and (R5) an address. N is decimal. The beginning of a command is enough.
b break PLACE [N]          stop at PLACE: always, or only the Nth time
b break PLACE if R2=5      stop if a register or a word is = # < > <= >= a value
d delete NUMBER|PLACE|all  remove breaks; break alone lists them
g go, c continue           to the next break, or to the end; run: from the start
s step [N]  o over  u out  N steps; a step or a whole call; out of the call
k back [N]                 back N steps; back over, back out: to before the call
k back break               to the last break
k back PLACE, back R4      to before the last change of a word, of a register
t to N                     to where N steps were made
w watch PLACE, watch R4    to after the next change of it
e examine A[:B] or A/N     words from A to B, or N of them (octal); -b: bytes,
                           -a: text, -m: instructions, -l: lines of listings
r registers  . where       registers, condition codes; the next instruction
l last [N]  calls          the last N steps; the calls that are open
i input "TEXT\\r"<15>       what the console reads next; input end: no more,
                           input forget: to the start, without what was typed
output [N]  = PLACE        what the console has printed; a value
save FILE  source FILE     write the commands so far; make those of a file
h help  q quit             ;P  A;B  A/ of ODT: go, break A, examine A
Each state is that of m11-trace, so nothing can be changed."""

LETTERS = {"b": "break", "d": "delete", "g": "go", "c": "continue", "s": "step", "o": "over", "u": "out", "k": "back", "t": "to", "w": "watch",
           "e": "examine", "r": "registers", "l": "last", "i": "input", "h": "help", "?": "help", "q": "quit", ".": "where", "n": "step", "=": "evaluate"}
OTHERS = {"continue": "go", "proceed": "go", "exit": "quit", "bye": "quit", "stack": "calls", "frames": "calls", "breakpoint": "break", "nobreak": "delete",
          "next": "over", "finish": "out", "do": "source"}
NOT_HERE = {"deposit": "each state is that of the run, so nothing can be changed: change the source, or the input",
            "load": "the tape is that of the command line"}
# What ODT's forms mean here: PLACE/ PLACE;B ;P ;G
ODT = ((re.compile(r"\$([0-7])/$"), r"evaluate R\1"), (re.compile(r"([^\s/;]+)/$"), r"examine \1"), (re.compile(r"([^\s/;]+);[Bb]$"), r"break \1"),
       (re.compile(r";[PpGg]$"), "go"))
# The most characters of a command: the time that its parts are looked for in grows faster than its length.
LONGEST = 4096
PIECE = re.compile(r'\s*(?:"((?:[^"\\]|\\.)*)"|<([0-7]{1,3})>)')
ESCAPES = {"r": "\r", "n": "\n", "t": "\t", "e": "\33", "b": "\b", "0": "\0"}


class Commands:
    """The commands of a session. `names` are all of them, for completion; `inputs` are the files that the session reads."""

    def __init__(self, session, about, inputs=()):
        self.session, self.out, self.about, self.inputs, self.done, self.depth = session, session.out, about, inputs, [], 0
        self.is_over = False
        self.calls = {"break": self.do_break, "delete": self.do_delete, "go": self.do_go, "step": self.do_step, "over": self.do_over, "out": self.do_out,
                      "back": self.do_back, "to": self.do_to, "run": self.do_run, "watch": self.do_watch, "examine": self.do_examine,
                      "registers": self.do_registers, "where": self.do_where, "last": self.do_last, "calls": self.do_calls, "input": self.do_input,
                      "output": self.do_output, "evaluate": self.do_evaluate, "save": self.do_save, "source": self.do_source, "help": self.do_help,
                      "quit": self.do_quit}
        self.names = sorted([*self.calls, *OTHERS])

    def run(self, text):
        """Makes a command. Empty lines and comments, after a semicolon, do nothing."""
        text = text.strip()
        if len(text) > LONGEST:
            raise Refused(f"a command has at most {LONGEST} characters, and this one has {len(text)}; -i gives longer inputs")
        for form, command in ODT:
            text = form.sub(command, text)
        if not text or text.startswith(";"):
            return
        word, rest = re.match(r"([A-Za-z]+|\S)\s*(.*)$", text).groups()
        name = self.command_of(word)
        self.calls[name](rest)
        if name not in ("save", "source", "help", "quit"):
            self.done.append(text)

    def command_of(self, word):
        """The command that a word or a beginning of one means."""
        word = word.lower()
        if word in LETTERS or word in self.calls or word in OTHERS:
            name = LETTERS.get(word, word)
            return OTHERS.get(name, name)
        if word in NOT_HERE:
            raise Refused(f"{word}: {NOT_HERE[word]}")
        found = [name for name in self.calls if name.startswith(word)] or [name for name in OTHERS if name.startswith(word)]
        meant = {OTHERS.get(name, name) for name in found}
        if len(meant) != 1:
            raise Refused(f"{word}: {' or '.join(found) + ' begin so' if found else 'no command begins so; help lists them'}")
        return meant.pop()

    def nothing(self, rest):
        if rest:
            raise Refused(f"{rest} isn't understood here")

    def do_break(self, rest):
        if rest:
            self.session.add_break(rest)
        else:
            self.session.list_breaks()

    def do_delete(self, rest):
        if not rest:
            raise Refused("delete which break? delete all removes all")
        self.session.delete(rest)

    def do_go(self, rest):
        self.nothing(rest)
        self.session.go()

    def do_step(self, rest):
        count = count_of(rest, "number of steps") if rest else 1
        self.session.step(count)

    def do_over(self, rest):
        self.nothing(rest)
        self.session.over()

    def do_out(self, rest):
        self.nothing(rest)
        self.session.leave()

    def do_back(self, rest):
        self.session.back(rest)

    def do_to(self, rest):
        self.session.to(count_of(rest, "number of a step"))

    def do_run(self, rest):
        self.nothing(rest)
        self.session.time.arrive(0)
        self.session.go()

    def do_watch(self, rest):
        self.session.watch(rest)

    def do_registers(self, rest):
        self.nothing(rest)
        self.out(showing.registers_line(self.session.time.registers(self.session.now)))

    def do_where(self, rest):
        self.nothing(rest)
        self.out(f"AFTER {self.session.now} STEPS")
        self.session.show_place()

    def do_last(self, rest):
        count = min(MANY, count_of(rest, "number of steps") if rest else 16)
        now = self.session.now
        for line in self.session.time.lines(now - count + 1, now):
            self.out(showing.shown_line(line, self.session.names))

    def do_calls(self, rest):
        """The open calls, the innermost first: those of the lines, and after them those that the stack seems to have."""
        self.nothing(rest)
        time, names = self.session.time, self.session.names
        frames = calls.open_calls(time)
        for frame in frames:
            self.out(f"{showing.place(frame.routine, names)}, called at {showing.place(frame.place, names)} in step {frame.step}")
        link = frames[-1].link if frames else time.register("SP", time.now) - 2
        for place, at in calls.likely_calls(time, link):
            self.out(f"by the word at {at:06o} of the stack: called at {showing.place(place, names)}")
        if not frames and not calls.likely_calls(time, link):
            self.out("no call is open here, as far as JSR and RTS and the stack tell")

    def do_examine(self, rest):
        found = re.match(r"(?:-([bamlo])\s+)?(.*)$", rest, re.I)
        switch, text = (found[1] or "o").lower(), found[2].strip()
        if not text:
            text = "PC"
            switch = found[1] and switch or "m"
        if switch == "o" and register_of(text):
            self.out(f"{register_of(text)} {self.session.time.register(register_of(text), self.session.now):06o}")
            return
        if text.lower() == "state":
            self.do_registers("")
            return
        self.show_memory(switch, *self.session.values.range(text))

    def show_memory(self, switch, first, last, count):
        """Shows memory from one address to another, or so many words, bytes, instructions or lines; without either one of them, or a text to its NUL."""
        time = self.session.time
        end = 2 * len(time.states[0].memory) - 1
        if switch in "oml" and first & 1:
            raise Refused(f"{first:06o} is odd: a word has an even address")
        if first > end:
            raise Refused(f"no memory is at {first:06o}")
        if last is not None and last < first:
            raise Refused(f"{last:06o} is before {first:06o}")
        show = {"o": self.show_words, "b": self.show_bytes, "a": self.show_text, "m": self.show_instructions, "l": self.show_sources}[switch]
        show(first, end if last is None else min(last, end), count, last is not None)

    def show_words(self, first, last, count, is_range):
        end = last if is_range else min(last, first + 2 * (count or 1) - 2)
        for line in showing.words_lines(first, self.session.words(first, end), self.session.names):
            self.out(line)

    def content(self, first, last):
        """The bytes of memory from one address to another."""
        words = self.session.words(first & ~1, last)
        return b"".join(word.to_bytes(2, "little") for word in words)[first & 1:][:last - first + 1]

    def show_bytes(self, first, last, count, is_range):
        end = last if is_range else min(last, first + (count or 1) - 1)
        for line in showing.bytes_lines(first, self.content(first, end), self.session.names):
            self.out(line)

    def show_text(self, first, last, count, is_range):
        end = last if is_range else min(last, first + (count or 256) - 1)
        content = self.content(first, end)
        if not is_range and not count and b"\0" in content:
            content = content[:content.index(b"\0") + 1]
        self.out(f"{showing.place(first, self.session.names):21} {showing.text_of(content)}")

    def show_instructions(self, first, last, count, is_range):
        """Instructions, each with its line of a listing."""
        most = (last - first) // 2 + 1 if is_range else count or 1
        words = self.session.words(first, min(last, first + (0 if is_range else 6 * most)) if not is_range else last)
        names = self.session.names
        for address, text in self.session.time.runs.instructions(first, words)[:most]:
            self.out(f"{showing.place(address, names):21} {showing.named(text, names)}")

    def show_sources(self, first, last, count, is_range):
        """Lines of listings, each with its words in memory, which end where the next line begins."""
        names, shown = self.session.names, 0
        addresses = [at for at in range(first, last + 1, 2) if names.source(at)]
        if not addresses or addresses[0] != first:
            raise Refused(f"no listing has a line for {first:06o}: examine shows words, examine -m instructions")
        for at, after in zip(addresses, [*addresses[1:], addresses[-1] + 6]):
            if shown >= (len(addresses) if is_range else count or 1):
                break
            words = " ".join(f"{word:06o}" for word in self.session.words(at, min(after, at + 6) - 2))
            self.out(f"{showing.place(at, names):21} {words:21} {names.source(at)}")
            shown += 1

    def do_evaluate(self, rest):
        value = self.session.values.of(rest, self.session.now)
        signed = value - 0o200000 if value & 0o100000 else value
        self.out(f"{showing.place(value, self.session.names)} = {value}." + (f" or {signed}." if signed < 0 else ""))

    def do_output(self, rest):
        count = count_of(rest, "number of bytes") if rest else NEVER
        output = self.session.time.output(self.session.now) if self.session.now else b""
        self.out(f"the console printed {len(output)} bytes by now" + (":" if output else ""))
        for text in showing.texts_of(output[-count:] if count else b""):
            self.out("  " + text)

    def do_input(self, rest):
        given = self.session.time.runs.input
        if not rest:
            self.out(f"the console reads {len(given.content)} bytes" + (", and then its end" if given.is_all else "") + (":" if given.content else ""))
            for text in showing.texts_of(given.content):
                self.out("  " + text)
        elif rest == "end":
            given.is_all = True
            self.session.time.forget_input()
        elif rest == "forget":
            self.session.time.forget_all()
            self.session.search.reached.clear()
            self.session.show_place()
        elif given.is_all:
            raise Refused("the input has its end: input forget begins anew")
        else:
            given.content += typed(rest)
            self.session.time.forget_input()

    def do_save(self, rest):
        if not rest:
            raise Refused("save into which file?")
        for path in self.inputs:
            if os.path.isfile(rest) and os.path.exists(path) and os.path.samefile(path, rest):
                raise Refused(f"the commands would be written over {path}, which this session reads")
        text = "".join(line + "\n" for line in [f"; {self.about}", *self.done])
        try:
            with open(rest, "w", encoding="utf-8", errors="surrogateescape") as file:
                file.write(text)
        except (OSError, ValueError) as error:
            raise Refused(f"{rest}: {getattr(error, 'strerror', None) or error}", 3) from error

    def do_source(self, rest):
        """Makes the commands of a file, each shown after its prompt; a refused one is reported, and the others follow."""
        if not rest:
            raise Refused("the commands of which file?")
        if self.depth >= 8:
            raise Refused(f"{rest}: files of commands are nested too deep")
        try:
            lines = content_of(rest).decode("utf-8", "surrogateescape").splitlines()
        except (OSError, ValueError) as error:
            raise Refused(f"{rest}: {getattr(error, 'strerror', None) or error}", 3) from error
        self.depth += 1
        try:
            for line in lines:
                if not self.is_over:
                    self.make_shown(line)
        finally:
            self.depth -= 1

    def make_shown(self, line):
        self.out(f"{self.session.now}> {line}".rstrip())
        try:
            self.run(line)
        except Refused as refusal:
            self.out(str(refusal))

    def do_help(self, rest):
        self.nothing(rest)
        self.out(HELP)

    def do_quit(self, rest):
        self.nothing(rest)
        self.is_over = True


def typed(text):
    """The bytes of texts in quotes, with backslashes as in C, and of octal codes in brackets."""
    content, at = b"", 0
    while at < len(text.rstrip()):
        found = PIECE.match(text, at)
        if not found or found[2] and int(found[2], 8) > 255:
            raise Refused('input "TEXT\\r": a text in quotes, or the octal code of a byte, as <15>')
        if found[1] is not None:
            plain = re.sub(r"\\([0-7]{1,3}|.)", lambda one: chr(int(one[1], 8) & 255) if one[1][0] in "01234567" else ESCAPES.get(one[1], one[1]), found[1])
            content += plain.encode("utf-8", "surrogateescape") if not plain.isascii() and max(plain) > "\xff" else plain.encode("latin-1", "replace")
        else:
            content += bytes([int(found[2], 8)])
        at = found.end()
    return content
