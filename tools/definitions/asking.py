"""What the definitions say of single lines of a source: the location, the words and the flags of each."""
import bridge
from names import Meaning
from runtime import items
from writer import Program

FLAGS, PIECES = ("m11_asm.Written", "flags_at"), ("m11_asm_rules.Lines", "pieces")
LETTERS, SPELLED = ("m11_scan.ErrorFlags", "flags_text"), ("m11_obj.Pieces", "content_bytes")


def functions(project):
    """The definitions beside those of an assembly that are asked: a line's flags, its pieces, and their bytes."""
    program, found = Program(project), []
    for module, name in (FLAGS, PIECES, LETTERS, SPELLED):
        crate, module = module.split(".")
        found.append(program.value(Meaning("definition", f"Rattle.{crate}.specs.{module}", name)))
    return found


def octal_words(location, numbers):
    """Bytes from a location on as text: words where they are even, and single bytes."""
    texts, place = [], 0
    while place < len(numbers):
        if (location + place) % 2 == 0 and place + 1 < len(numbers):
            texts.append(f"{numbers[place] + 256 * numbers[place + 1]:06o}")
            place += 2
        else:
            texts.append(f"{numbers[place]:03o}")
            place += 1
    return " ".join(texts)


def lines_of(project, lines):
    """A line for each live line of a source: its location, its words, its flags, and its text."""
    definitions = bridge.Machinery(project).of("asm")
    flags_at, pieces, letters, content_bytes = functions(project)
    source = "".join(line.replace("\\t", "\t") + "\n" for line in lines)
    result, _, program, live = bridge.assembled(definitions, [source.encode("latin-1", "replace")])
    if program is None:
        return [bridge.bytes_of(bridge.ended(definitions, "Asm", result).messages).decode("latin-1")]
    told = ["location  words                         flags  line"]
    for place, line in enumerate(items(live)):
        before = live.__class__((live[0], live[1], live[1] + place))
        table = definitions.table_at(program.map, before)
        given = items(pieces(program.map)(table)(line.given))
        numbers = [byte for piece in given for byte in items(content_bytes(piece.content))]
        location = given[0].location if given else None
        flags = bridge.bytes_of(letters(flags_at(program)(before)(line))).decode()
        text = bridge.bytes_of(line.given.live.line.text).decode("latin-1")
        shown = f"{location:06o}" if given else ""
        told.append(f"{shown:8}  {octal_words(location or 0, numbers):28}  {flags or '-':5}  {text}")
    return told
