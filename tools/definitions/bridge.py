"""From the words of a command to the definitions, and back to files and lines: what `asm`, `link` and `sim` say of a command whose devices don't fail.

The relations of a pass, of an object's items and of a load are computed by functions of which laws say that they are these relations."""
import os

from names import Meaning
from reader import Fault
from runtime import NIL, Record, Value, forget, items, of_items
from writer import Program

ASM = """m11_asm.Written.program_writes m11_asm.Written.written m11_asm.Written.flagged_count m11_asm.Program.program_of m11_asm_passes.Lines.givens
    m11_scan_line_laws.Readings.reading_of m11_asm_outcome_laws.PassesOver.pass_over m11_asm_rules.Meanings.empty_map
    m11_asm_lines.Counting.none_used m11_asm_passes.Lines.table_at"""
LINK = """m11_link_laws.ItemsOf.items_of m11_link.Objects.outcome m11_link_text.Findings.findings_of m11_link.Written.link_writes
    m11_link.Written.counted m11_cli_tasks.Commands.default_bottom"""
SIM = """m11_cpu_laws.LoadedTapes.tape_load m11_cpu_machine.Machine.new_machine m11_cpu.Loading.stored m11_cpu.Simulation.started
    m11_cpu.Simulation.text_at_stop m11_cli_tasks.Commands.default_steps m11_cli_tasks.Commands.most_words"""
ALL = "m11_cli.FaultLines.line_of m11_cli.Outcome.status_of m11_cli_reports.Lines.open_line"


class Definitions:
    """The definitions that a command needs, each as an attribute with its name."""

    def __init__(self, project, roots, remembers=True):
        program = Program(project, remembers)
        found = {}
        for root in (roots + " " + ALL).split():
            crate, module, name = root.split(".")
            meaning = Meaning("definition", f"Rattle.{crate}.specs.{module}", name)
            if project.file(meaning.path) is None or name not in project.file(meaning.path).declarations:
                raise Fault(f"there is no definition {root}, from which this command begins")
            found[name] = program.want(meaning)
        program.write()
        for name, python in found.items():
            setattr(self, name, program.loaded[python])


class Machinery:
    """The definitions of each command, written when it is first asked for."""

    def __init__(self, project):
        self.project, self.written = project, {}

    def of(self, command):
        if command not in self.written:
            self.written[command] = Definitions(self.project, {"asm": ASM, "link": LINK, "sim": SIM}[command], command != "sim")
        return self.written[command]


class Outcome:
    """What a command leaves: its status, standard error, and the bytes of each output that it writes."""

    def __init__(self, status, messages=b"", outputs=None):
        self.status, self.messages, self.outputs = status, messages, outputs or {}


def bytes_of(some):
    return bytes(items(some))


def written_to(output, writes):
    """The bytes that these writes add to an output."""
    return b"".join(bytes_of(write.bytes) for write in items(writes) if write.output.tag == output)


def ended(definitions, command, result, messages=b"", outputs=None):
    """The outcome of a command with this result; the line of its fault, if it has one, comes last."""
    outcome = Value(command, (result,))
    return Outcome(definitions.status_of(outcome), messages + bytes_of(definitions.line_of(outcome)), outputs)


def ok(**fields):
    return Value("Ok", (Record(fields),))


# ---- asm

# Reading is defined byte by byte, each with all lines before it.
MOST_SOURCE = 200000


def assembled(definitions, sources):
    """The result of an assembly of these texts, all its writes, the program of the first pass, and the live lines of the second."""
    reading = definitions.reading_of(of_items([of_items(list(source)) for source in sources]))
    first = definitions.pass_over(definitions.empty_map(), definitions.none_used(), reading)
    if first.result.tag == "Err":
        return first.result, NIL, None, NIL
    program = definitions.program_of(definitions.givens(first.lines))
    second = definitions.pass_over(program.map, Value("Definitions"), reading)
    lines = second.lines
    if second.result.tag == "Err":
        return second.result, definitions.written(program, lines), program, lines
    end = second.result.parts[0]
    return ok(flagged=definitions.flagged_count(program, lines, end.has_end)), definitions.program_writes(program, lines, end), program, lines


def asm(definitions, options, texts):
    """The outcome of an assembly of these sources."""
    if sum(map(len, texts)) > MOST_SOURCE:
        raise Fault(f"sources of more than {MOST_SOURCE} bytes would take hours here")
    result, writes, _, _ = assembled(definitions, texts)
    outputs = {options[word]: written_to(output, writes) for word, output in (("-o", "Product"), ("-l", "Report")) if word in options}
    return ended(definitions, "Asm", result, written_to("Messages", writes), outputs)


# ---- link

def link(definitions, options, texts):
    """The outcome of a link of these objects."""
    bottom = options.get("-b", definitions.default_bottom())
    parts = definitions.outcome(bottom, of_items([item for text in texts for item in items(definitions.items_of(of_items(list(text))))]))
    if parts.tag == "Err":
        return ended(definitions, "Link", parts, outputs={options[word]: b"" for word in ("-o", "-m") if word in options})
    writes = definitions.link_writes(definitions.findings_of(bottom, parts.parts[0]), parts.parts[0])
    outputs = {options[word]: written_to(output, writes) for word, output in (("-o", "Product"), ("-m", "Report")) if word in options}
    return ended(definitions, "Link", ok(messages=definitions.counted(0, writes)), written_to("Messages", writes), outputs)


# ---- sim

def load(definitions, data, size):
    """The blocks and the start of a tape, or the fault of its load into a memory of this size."""
    found = definitions.tape_load(size, of_items(list(data)))
    return ((found.blocks, found.result.parts[0]), None) if found.result.tag == "Ok" else (None, found.result.parts[0])


def play(dialogue, ask, send):
    """`Does` of m11_cpu_machine/specs/Dialogue.antt, with a console that doesn't fail: the value of a dialogue."""
    while dialogue.tag != "Comes":
        if dialogue.tag == "Asks":
            byte = ask()
            dialogue = dialogue.parts[0](Value("Ends") if byte is None else Value("Gives", (byte,)))
        else:
            send(dialogue.parts[0])
            dialogue = dialogue.parts[1](True)
    return dialogue.parts[0]


# The definition of a run needs stack for each of its steps.
MOST_STEPS = 300000


def sim(definitions, options, texts, ask, send):
    """The outcome of a run of a tape."""
    words, limit, start = options.get("-k", definitions.most_words()), options.get("-n", definitions.default_steps()), options.get("-s")
    machine = definitions.new_machine(words)
    loaded, fault = load(definitions, texts[0], 2 * words)
    if fault is not None:
        return ended(definitions, "Sim", Value("Err", (Value("Load", (fault,)),)))
    blocks, transfer = loaded
    machine = machine.but({"memory": definitions.stored(blocks, machine.memory)})
    ran, machine = play(definitions.started(transfer if start is None else start, min(limit, MOST_STEPS), machine), ask, send)
    if ran.steps == MOST_STEPS < limit:
        raise Fault(f"the program still runs after {MOST_STEPS} steps, and here a run has no more; -n sets a limit")
    return ended(definitions, "Sim", ok(stop=ran.stop), bytes_of(definitions.text_at_stop(ran, machine)))


# ---- words

OPTIONS = {"asm": ("-o", "-l"), "link": ("-o", "-m", "-b"), "sim": ("-n", "-s", "-k")}
# Of an option with a number: its base, the least and the greatest, and whether it must be even.
NUMBERS = {"-b": (8, 0, 0o157776, True), "-s": (8, 0, 0o157776, True), "-k": (10, 4096, 28672, False), "-n": (10, 0, 10 ** 9, False)}


def number(option, text):
    """The value of an option with a number."""
    base, least, greatest, is_even = NUMBERS[option]
    is_number = text.isascii() and text.isdigit() and not (base == 8 and set(text) & {"8", "9"})
    if not is_number or not least <= int(text, base) <= greatest or is_even and int(text, base) % 2:
        raise Fault(f"`{option} {text}` isn't read here")
    return int(text, base)


def words_of(command, words):
    """The options of a command's words, and its files."""
    options, files, waiting = {}, [], list(words)
    while waiting:
        word = waiting.pop(0)
        if word in OPTIONS[command] and waiting and word not in options:
            options[word] = number(word, waiting.pop(0)) if word in NUMBERS else waiting.pop(0)
        elif word.startswith("-") and word != "-":
            raise Fault(f"`{command} {' '.join(words)}`: these words aren't read here; `{word}` is no option of {command}, is there twice, or lacks its value")
        else:
            files.append(word)
    if not files or command == "sim" and len(files) > 1 or command != "sim" and "-o" not in options:
        raise Fault(f"`{command} {' '.join(words)}`: these words aren't read here; {command} needs {'one tape' if command == 'sim' else '-o and its files'}")
    return options, files


def run(machinery, command, words, read, ask=lambda: None, send=lambda byte: None):
    """The outcome of a command. `read` gives the bytes of a file, or None if there is none, `ask` the next byte of the console or None, and `send` takes
    one."""
    options, files = words_of(command, words)
    definitions = machinery.of(command)
    try:
        texts = []
        for file in files:
            texts.append(read(file))
            if texts[-1] is None:
                line = definitions.open_line(of_items(list(os.fsencode(file))))
                return Outcome(definitions.status_of(Value("NotOpened")), bytes_of(line))
        if command == "sim":
            return sim(definitions, options, texts, ask, send)
        return {"asm": asm, "link": link}[command](definitions, options, texts)
    finally:
        forget()
