"""Checks of tools/definitions: its lists and functions, the library's definitions at their edges, what it refuses, and its answers. CHECKS lists them for
tools/test.py. tools/test_definitions.py compares it with the suite and the program."""
import os
import random
import subprocess
import sys
import tempfile

FOLDER = os.path.join(os.path.dirname(os.path.dirname(os.path.realpath(__file__))), "definitions")
sys.path.insert(0, FOLDER)
# pylint: disable=wrong-import-position
import library  # noqa: E402
import runtime  # noqa: E402
import shown  # noqa: E402
from names import Project  # noqa: E402
from reader import Fault  # noqa: E402


def changed_list(rng, first, second, new=range(6)):
    """A list and Python's own list, changed in the same way; `new` are the items that are added."""
    (one, own), (other, its_own), number = first, second, rng.randrange(6)
    ways = [lambda: (runtime.cons(new[number], one), [new[number], *own]), lambda: (runtime.append(one, other), own + its_own),
            lambda: (runtime.append(one, runtime.single(new[number])), [*own, new[number]]), lambda: (runtime.take(number, one), own[:number]),
            lambda: (runtime.drop(number, one), own[number:]),
            lambda: (runtime.set_at(one, number, 9), [9 if place == number else item for place, item in enumerate(own)]),
            lambda: (runtime.tail(one), own[1:]) if own else first]
    return rng.choice(ways)()


def check_lists():
    """Random changes of lists, short and long, that share their items; each older list stays as it was. Lists of records share more."""
    records = [runtime.Record({"number": number}) for number in range(600)]
    wrong = wrong_lists(list(range(600)), range(6)) + wrong_lists(records, records[:6])
    runtime.forget()
    return wrong


def wrong_lists(long, new):
    """Sentences on lists that aren't what they should be, after random changes of an empty list and a long one."""
    rng = random.Random(1)
    pool = [(runtime.NIL, []), (runtime.of_items(list(long)), list(long))]
    for _ in range(4000):
        found = changed_list(rng, rng.choice(pool), rng.choice(pool), new)
        if len(found[1]) < 2000:
            pool.append(found)
    wrong = [own for some, own in pool if runtime.items(some) != own or runtime.length(some) != len(own)]
    wrong += [own for some, own in pool if own and (runtime.head(some), runtime.at(some, len(own) - 1)) != (own[0], own[-1])]
    return [f"a list is not {own[:9]}.." for own in wrong[:3]]


def gone_over(start, own):
    """What `step` yields for a list of Python's own: the outputs and the last state; and whether all of them are odd."""
    state, outputs, all_odd = start, [], True
    for item in own:
        all_odd = all_odd and (state[0] + item) % 2 == 1
        outputs += [state[0], item][:item % 3]
        state = (2 * state[0] + item,)
    return outputs, state, all_odd


def step(state, item):
    return (2 * state[0] + item,), runtime.of_items([state[0], item][:item % 3])


def odd_step(state, item):
    return (2 * state[0] + item,), (state[0] + item) % 2 == 1


def has_rest(rest, item):
    return item % 3 == rest


def wrong_place(rng, some, own):
    """A sentence if the first item of a list that passes a test, or that doesn't, isn't found where it is."""
    rest, wanted = rng.randrange(3), rng.random() < 0.5
    place = next((place for place, item in enumerate(own) if has_rest(rest, item) == wanted), len(own))
    found = runtime.first_place(runtime.Function(has_rest, 1, (rest,)), wanted, some)
    return [] if found == place else [f"in {own[:9]}.. the first is found at {found}, and not at {place}"]


def check_growths():
    """What is kept for the beginnings of lists, which share their items with others, and whose outputs are lists that others grow from."""
    rng, wrong = random.Random(2), []
    pool = [(runtime.NIL, []), (runtime.of_items([1, 3, 2, 4]), [1, 3, 2, 4])]
    for _ in range(3000):
        some, own = changed_list(rng, rng.choice(pool), rng.choice(pool))
        start = (rng.randrange(2),)
        outputs, state, all_odd = gone_over(start, own)
        found, after = runtime.collected("tried", start, step, some)
        wrong += [] if (runtime.items(found), after) == (outputs, state) else [f"{own[:9]}.. yields {runtime.items(found)[:9]}.., and not {outputs[:9]}.."]
        wrong += [] if runtime.folded("last", start, step, some) == state else [f"the state after {own[:9]}.. isn't {state}"]
        wrong += [] if runtime.all_hold("odd", start, odd_step, some) == all_odd else [f"whether all of {own[:9]}.. are odd isn't {all_odd}"]
        wrong += wrong_place(rng, some, own)
        if len(own) < 200:
            pool += [(some, own), (found, outputs)]
    runtime.forget()
    return wrong[:3] + [f"a list is not {own[:9]}.." for some, own in pool if runtime.items(some) != own][:3]


# A definition of the library, its arguments and its value, at its edges.
EDGES = (
    ("◌-◌", (3, 5), 0), ("◌-◌", (5, 3), 2), ("◌/◌", (7, 0), 0), ("◌/◌", (7, 2), 3), ("◌%◌", (7, 0), 7), ("◌%◌", (7, 2), 1), ("◌^◌", (0, 0), 1),
    ("suc", (0,), 1), ("negsuc", (0,), -1), ("negsuc", (6,), -7), ("neg_ℤ", (0,), 0), ("neg_ℤ", (-3,), 3), ("unsigned_abs", (-3,), 3), ("int_div", (-7, 2), -3),
    ("int_div", (7, -2), -3), ("int_div", (-7, -2), 3), ("int_div", (-7, 0), 0), ("int_rem", (-7, 2), -1), ("int_rem", (7, -2), 1), ("int_rem", (-7, 0), -7),
    ("int_lt", (-1, 0), True), ("int_le", (0, -1), False), ("int_div_euclid", (-7, 2), -4), ("int_div_euclid", (-7, -2), 4), ("int_div_euclid", (7, -2), -3),
    ("int_div_euclid", (-8, 2), -4), ("int_div_euclid", (-1, 0), -1), ("int_div_euclid", (5, 0), 0), ("cast_signed", (8, 127), 127),
    ("cast_signed", (8, 128), -128), ("cast_signed", (8, 256), 0), ("cast_signed", (16, 65535), -1), ("cast_unsigned", (8, -1), 255),
    ("cast_unsigned", (16, 65536), 0), ("from_bool", (True,), 1), ("bit_and", (12, 10), 8), ("bit_or", (12, 10), 14), ("bit_xor", (12, 10), 6),
    ("min", (2, 3), 2), ("max", (2, 3), 3), ("nat_lt", (3, 3), False), ("nat_le", (3, 3), True), ("digit_value", (57,), 9), ("digit_value", (65,), 10),
    ("digit_value", (122,), 35), ("digit_value", (47,), 36), ("digit_value", (200,), 36), ("decimal", (0,), [48]), ("decimal", (120,), [49, 50, 48]),
    ("digits_value", (10, []), 0), ("digits_value", (8, [49, 55]), 15), ("without_leading_plus", ([43, 43],), [43]), ("without_leading_plus", ([],), []),
    ("little_bytes", (2, 65537), [1, 0]), ("bytes_eq", ([1], [1]), True), ("bytes_eq", ([1], [1, 2]), False), ("take", (5, [1, 2]), [1, 2]),
    ("drop", (5, [1, 2]), []), ("get_or", ([1], 1, 7), 7), ("slice_index", ([], 0), 0), ("slice_set", ([1], 1, 5), [1]), ("slice_set", ([1, 2], 1, 5), [1, 5]),
    ("replicate", (0, 5), []), ("sum", ([],), 0), ("join_with_byte", (44, []), []), ("join_with_byte", (44, [[1], [], [2]]), [1, 44, 44, 2]),
    ("concat", ([[1], [], [2]],), [1, 2]), ("enumerate_from", (3, [7, 8]), [(3, 7), (4, 8)]), ("keys_of", ([(1, 2), (3, 4)],), [1, 3]),
)
FIVE, NONE, OK, ERR = library.some(5), library.NONE, runtime.Value("Ok", (5,)), runtime.Value("Err", (6,))
ONES = (
    ("zero", (), 0), ("true", (), True), ("false", (), False), ("[]", (), []), ("w8", (), 8), ("w16", (), 16), ("w32", (), 32), ("pos", (0,), 0),
    ("◌+◌", (0, 0), 0), ("◌*◌", (0, 5), 0), ("◌+ℤ◌", (-5, 2), -3), ("◌-ℤ◌", (2, 5), -3), ("◌*ℤ◌", (-2, 3), -6), ("◌==◌", (2, 2), True),
    ("nat_eq", (2, 3), False), ("int_eq", (-2, -2), True), ("beq", (False, False), True), ("not", (False,), True), ("◌&&◌", (True, False), False),
    ("◌||◌", (False, True), True),
    ("cond", (True, 1, 2), 1), ("if◌then◌else◌", (False, 1, 2), 2), ("nat_cmp", (2, 3), "Less"), ("nat_cmp", (3, 3), "Equal"), ("nat_cmp", (4, 3), "Greater"),
    ("ordering_then", (library.EQUAL, library.LESS), "Less"), ("ordering_then", (library.GREATER, library.LESS), "Greater"), ("unwrap_or", (FIVE, 1), 5),
    ("unwrap_or", (NONE, 1), 1), ("option_or", (NONE, FIVE), "Some 5"), ("option_or", (FIVE, NONE), "Some 5"), ("option_to_list", (NONE,), []),
    ("option_to_list", (FIVE,), [5]), ("is_some", (FIVE,), True), ("is_some", (NONE,), False), ("is_none", (NONE,), True), ("is_ok", (OK,), True),
    ("is_ok", (ERR,), False), ("result_unwrap_or", (OK, 1), 5), ("result_unwrap_or", (ERR, 1), 1), ("cons_option", (NONE, [1]), [1]),
    ("cons_option", (FIVE, [1]), [5, 1]), ("length", ([],), 0), ("slice_index_or", ([1], 5, 9), 9), ("◌∷◌", (1, []), [1]),
    ("◌++◌", ([], [1]), [1]), ("◌++◌", ([1], []), [1]), ("string_bytes", ([1],), [1]), ("codes", ("A\n",), [65, 10]), ("codes", ("",), []),
)
ODD = runtime.Function(lambda number: number % 2 == 1, 1)
SAME = runtime.Function(lambda one, other: one == other, 2)
HALVES = runtime.Function(lambda number: runtime.of_items([number] * (number // 2)), 1)
HALF = runtime.Function(lambda number: library.some(number // 2) if number % 2 == 0 else library.NONE, 1)
ADDED = runtime.Function(lambda one, other: 2 * one + other, 2)
HALF_OR_ONE = runtime.Function(lambda number: number // 2 if number % 2 == 0 else 1, 1)
COMPARED = runtime.Function(library.compared, 2)
WITH_FUNCTIONS = (
    ("map", (ODD, [1, 2]), [True, False]), ("filter", (ODD, [2, 1, 3]), [1, 3]), ("find", (ODD, [2]), "None"), ("find", (ODD, [2, 5, 7]), "Some 5"),
    ("position", (ODD, [2, 5]), "Some 1"), ("position", (ODD, []), "None"), ("position_or_len", (ODD, [2, 4]), 2), ("prefix_len", (ODD, [1, 3, 2, 1]), 2),
    ("list_any", (ODD, []), False), ("list_all", (ODD, []), True), ("count_by", (ODD, [1, 2, 3]), 2), ("fold", (ADDED, 1, [2, 3]), 11),
    ("fold", (ADDED, 1, []), 1), ("before_first", (ODD, [2, 1, 4]), [2]), ("after_first", (ODD, [2, 1, 4]), [4]), ("after_first", (ODD, [2]), []),
    ("lookup", (ODD, [(2, 0), (3, 8), (5, 9)]), "Some 8"), ("insert_key", (SAME, [1, 2], 2), [1, 2]), ("insert_key", (SAME, [1], 2), [1, 2]),
    ("insert_entry", (SAME, [(1, 5), (2, 6)], 1, 7), [(1, 7), (2, 6)]), ("insert_entry", (SAME, [], 1, 7), [(1, 7)]), ("slice_get", ([4], 1), "None"),
    ("flat_map", (HALVES, [1, 4, 0, 2]), [4, 4, 2]), ("filter_map", (HALF, [1, 4, 2]), [2, 1]), ("sum_by", (HALF_OR_ONE, []), 0),
    ("sum_by", (HALF_OR_ONE, [4, 3]), 3), ("option_map", (ODD, FIVE), "Some True"), ("option_map", (ODD, NONE), "None"),
    ("option_and_then", (HALF, FIVE), "None"), ("option_and_then", (HALF, NONE), "None"), ("option_map_or", (ODD, FIVE, 7), True),
    ("option_map_or", (ODD, NONE, 7), 7), ("insert_all", (SAME, [1, 2], [3, 2, 3]), [1, 2, 3]),
)


def as_list(value):
    """Lists of Python's own as lists of the definitions, all the way down."""
    return runtime.of_items([as_list(item) for item in value]) if isinstance(value, list) else value


def as_python(value):
    if isinstance(value, runtime.List):
        return [as_python(item) for item in runtime.items(value)]
    return f"{value.tag} {value.parts[0]}".strip() if isinstance(value, runtime.Value) and value.parts else getattr(value, "tag", value)


def library_value(python, arguments):
    """The value of a row of the library, which is a function or a text with places for the arguments."""
    if callable(python):
        return python(*arguments)
    places = [f"given[{place}]" for place in range(len(arguments))]
    return eval(python.format(*places), {**vars(runtime), "given": arguments})  # pylint: disable=eval-used


def check_library():
    """The library's definitions at their edges. Those of `insert_key` that keep an order have another module."""
    wrong, rows = [], {}
    for path, (count, python) in library.TABLE.items():
        if "BTreeSet" not in path and ("insert_all" not in path or "IndexSet" in path):
            rows.setdefault(path.split(".specs.")[1].rsplit(".", 1)[1], (count, python))
    wrong += [f"{name} isn't tested" for name in rows.keys() - {row[0] for row in ONES + EDGES + WITH_FUNCTIONS}]
    for name, arguments, wanted in ONES + EDGES + WITH_FUNCTIONS:
        count, python = rows[name]
        found = as_python(library_value(python, [as_list(argument) for argument in arguments]))
        if count != len(arguments) or found != wanted:
            wrong.append(f"{name} {arguments} is {found}, and not {wanted}")
    ordered = library.TABLE["Rattle.std.specs.BTreeSet.insert_key"][1]
    for keys, key, wanted in (([1, 3], 2, [1, 2, 3]), ([1, 3], 3, [1, 3]), ([], 1, [1])):
        wrong += [] if as_python(ordered(COMPARED, as_list(keys), key)) == wanted else [f"insert_key in order, {keys} {key}"]
    return wrong


# Definitions that are refused, each with a part of the sentence. They follow a head that has the library's names.
HEAD = """use Rattle.std.specs.Prelude.{ℕ, ◌+◌, ◌==◌, ◌≡◌, ◌<◌, if◌then◌else◌, zero, suc, List, [], ◌∷◌, length, take, drop, sum}
use Rattle.m11_other.specs.Other.{five}
"""
REFUSED = (
    ("value : ℕ\nvalue = length {A = ℕ} (1 ∷ [])\n", "an implicit argument stands in a term"), ("value : ℕ\nvalue = nowhere\n", "isn't the name of anything"),
    ("five : ℕ\nfive = 6\n\nvalue : ℕ\nvalue = five\n", "is the name of 2 things"),
    ("strange words of no form\n\nvalue : ℕ\nvalue = 5\n", "none of those that are known"),
    ("add : ℕ → ℕ → ℕ\nadd x [] = 1\nadd x = λ y. x\n\nvalue : ℕ\nvalue = add 1 2\n", "has clauses of 1 and 2 arguments"), ("value : ℕ\n", "has no clause"),
    ("value : ℕ\nvalue = (1 + 2\n", "`)` was expected"), ("value : ℕ\nvalue = 1 +\n", "the text ends too early"),
    ("value : ℕ\nvalue = 1 2 ∷\n", "the text ends too early"),
    ("use Rattle.std.specs.Prelude.{unheard_of}\nvalue : ℕ\nvalue = unheard_of 1\n", "library.py doesn't have"),
    ("data Two : Type 0 where\n  One : ℕ → Two\n\nvalue : Two\nvalue = One 1 2\n", "has 1 arguments, and here 2"),
    ("value : Type 0\nvalue = ℕ\n", "`ℕ` isn't a fact that runs"),
    ("value : Type 0\nvalue = (x : ℕ) × (x ≡ 1)\n", "it has a quantifier"),
    ("record value : Type 0 where\n  pub x : ℕ\n", "is a record, which has no value"),
)
ACCEPTED = (
    ("infixl 10 ◌⊕◌\n◌⊕◌ : ℕ → ℕ → ℕ\nx ⊕ y = x + y + 1\n\nvalue : ℕ\nvalue = 1 ⊕ 2 ⊕ 3\n", "0o10"), ("value : ℕ\nvalue = let x = five in x + x\n", "0o12"),
    ("after : ℕ → List ℕ → ℕ\nafter n [] = n\nafter n (x ∷ xs) = after (n + n + x) xs\n\nvalue : ℕ\nvalue = after 1 (1 ∷ 2 ∷ [])\n", "0o10"),
    ("value : Type 0\nvalue = (1 ∷ [] ≡ 1 ∷ []) × (five < 6)\n", "true"), ("value : Type 0\nvalue = five < 5\n", "false"),
    ("value : List ℕ\nvalue = elim (1 ∷ 2 ∷ []) [ [] ↦ [] | x ∷ xs ↦ xs ]\n", "[2]"),
)


# Clauses of `f : ℕ → List ℕ → ℕ`, and the values of `f 1`, `f 2` and `f 3` for the list 1, 2, 4. Those of the first alone look at no more of the list than
# the number says.
COUNTED = (
    ("f zero xs = 0\nf (suc n) xs = sum (take (suc n) xs) + sum (take n xs) + f n xs", "[1, 5, 0o17]"),
    ("f zero xs = length xs\nf (suc n) xs = f n xs", "[3, 3, 3]"),
    ("f zero xs = sum xs\nf (suc n) xs = f n (drop 1 xs)", "[6, 4, 0]"),
    ("f zero xs = 0\nf (suc n) xs = sum (take (n + 2) xs) + f n xs", "[3, 0o12, 0o21]"),
    ("f zero xs = 0\nf (suc n) xs = sum (drop n xs) + f n xs", "[7, 0o15, 0o21]"),
    ("f zero xs = 0\nf (suc n) xs = (λ n. sum (take n xs)) 5 + f n xs", "[7, 0o16, 0o25]"),
    ("f zero xs = 0\nf (suc n) xs = let n = 2 in sum (take n xs)", "[3, 3, 3]"),
    ("f zero xs = 0\nf (suc n) xs = elim xs [ [] ↦ 0 | y ∷ ys ↦ sum ys ]", "[6, 6, 6]"),
    ("f zero xs = 0\nf (suc n) (x ∷ xs) = sum xs", "[6, 6, 6]"),
    ("f zero xs = 0\nf (suc n) xs = if n == 0 then f 6 xs else sum (take n xs)", "[7, 1, 3]"),
    ("f zero xs = 0\nf (suc n) xs = g n xs\n\ng : ℕ → List ℕ → ℕ\ng n xs = sum xs", "[7, 7, 7]"),
    ("f n xs = g n xs []\n\ng : ℕ → List ℕ → List ℕ → ℕ\ng zero xs ys = sum ys\ng (suc n) xs ys = g n xs xs", "[7, 7, 7]"),
)


def value_in(text):
    """What `value` of a definition file is, or the sentence on it."""
    with tempfile.TemporaryDirectory() as folder:
        for crate, name, content in (("m11_tried", "Tried", HEAD + text), ("m11_other", "Other", "use Rattle.std.specs.Prelude.{ℕ}\nfive : ℕ\nfive = 5\n")):
            os.makedirs(os.path.join(folder, "crates", crate, "specs"))
            with open(os.path.join(folder, "crates", crate, "specs", f"{name}.antt"), "w", encoding="utf-8") as file:
                file.write(content)
        try:
            return shown.show(Project(folder), "value", [])
        except Fault as fault:
            return str(fault)


def check_strictness():
    """What the language has and the tool doesn't know is refused with a sentence; what it knows is computed."""
    wrong = [f"{text!r}: {value_in(text)}, and not {part}" for text, part in REFUSED if part not in value_in(text)]
    wrong += [f"{text!r}: {value_in(text)}, and not {value}" for text, value in ACCEPTED if value_in(text) != value]
    ones = "f 1 some ∷ f 2 some ∷ f 3 some ∷ []"
    for clauses, value in COUNTED:
        text = f"f : ℕ → List ℕ → ℕ\n{clauses}\n\nvalue : List ℕ\nvalue = let some = 1 ∷ 2 ∷ 4 ∷ [] in {ones}\n"
        wrong += [f"{clauses!r}: {value_in(text)}, and not {value}"] if value_in(text) != value else []
    return wrong


# Words of `run`, the status, and a part of what it prints.
ANSWERS = (
    (("show", "instruction_of", "0o012701"), 0, "(Double Mov Word { mode = Autoincrement; register = Pc } { mode = Register; register = R1 })\n"),
    (("show", "attributes_text", "0o144"), 0, 'codes "RW,I,GBL,REL,OVR"\n'), (("list", "offset_after"), 0, "1 definition\n"),
    (("statement", "--counts", "has_bits"), 0, "has_bits: 1 definitions in 1 files"), (("statement", "has_bits"), 0, "==== crates/m11_obj/specs/Gsd.antt"),
    (("statement", "m11_cli.Driver.Obeys"), 0, "pub trait Sink {"),
    (("show", "IsHeld", "(Branch Br 127)"), 0, "true\n"), (("show", "IsHeld", "(Branch Br 128)"), 0, "false\n"),
    (("show", "AsmRuns", *"12345"), 2, "has a quantifier"),
    (("show", "register_number", "Pc"), 0, "7\n"), (("show", "nowhere"), 2, "run: no definition has the name `nowhere`"),
    (("show", "Machine"), 2, "run: "), (("show", "IsTape", "1"), 2, "run: `IsTape` is a data type"),
    (("show", "offset_after", "0o40"), 2, "has 2 arguments, and here 1"),
    (("show", "offset_after", "0o40", "1 ∷"), 2, "the text ends too early"), (("show", "offset_after", "0o40", "true"), 2, "aren't of the types"),
    (("show", "offset_after", "0o40", "[1"), 2, "was expected"), (("sim", "nowhere.TAP"), 3, "?M11 OPEN nowhere.TAP\n"),
    (("asm", "P.MAC"), 2, "these words aren't read here"), (("sort",), 2, "these words aren't known"),
)


def check_tape():
    """A tape that ends after the header of a block outside memory isn't whole; that its address is outside memory isn't reached."""
    with tempfile.TemporaryDirectory() as folder:
        tape = os.path.join(folder, "H.TAP")
        with open(tape, "wb") as file:
            file.write(b"\1\0\7\0\377\377")
        done = subprocess.run([os.path.join(FOLDER, "run"), "sim", tape], capture_output=True, text=True, timeout=60, check=False)
    said = done.returncode, done.stdout, done.stderr
    return [] if said == (4, "", "?M11 SIM 2 Truncated\n") else [f"a tape of a header alone gives {said}"]


def check_answers():
    """What `run` prints: values, and sentences without a traceback."""
    wrong = []
    for words, status, part in ANSWERS:
        done = subprocess.run([os.path.join(FOLDER, "run"), *words], capture_output=True, text=True, timeout=60, check=False)
        said = done.stdout + done.stderr
        if done.returncode != status or part not in said or "Traceback" in said:
            wrong.append(f"run {words} leaves {done.returncode} and says {said}, and not {part}")
    return wrong


CHECKS = [("definitions-lists", check_lists, ()), ("definitions-growths", check_growths, ()), ("definitions-library", check_library, ()),
          ("definitions-strictness", check_strictness, ()), ("definitions-tape", check_tape, ()), ("definitions-answers", check_answers, ())]
