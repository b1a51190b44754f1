"""The library's definitions that those of `specs/` use, by their full names, as Python.

A row has the modules that pass the name on, the name, the number of arguments, and Python: a function, or a text with a place for each argument. `test.py`
tests each at its edges; where a kit is installed, it also compares them with the library's own definitions."""
import functools

from runtime import (NIL, Fixed, Function, List, Value, append, at, collected, cons, drop, first_place, folded, get_or, items, length, of_items, set_at,
                     single, take)

NONE = Value("None")
LESS, EQUAL, GREATER = Value("Less"), Value("Equal"), Value("Greater")

# The operators, with their precedence and side, and the types, which are None in what is written.
FIXITIES = {"→": (0, "r"), "×": (2, "r"), "≡": (4, "n"), "≢": (4, "n"), "⊎": (1, "r"), "↔": (0, "n"), "<": (50, "n"), "≤": (50, "n"), "==": (40, "n"),
            "∷": (67, "r"), "++": (65, "l"), "+": (65, "l"), "-": (65, "l"), "*": (70, "l"), "/": (70, "l"), "%": (70, "l"), "^": (75, "r"),
            "&&": (35, "l"), "||": (30, "l"), "+ℤ": (6, "l"), "-ℤ": (6, "l"), "*ℤ": (7, "l"), "≤ℤ": (50, "n"), "<ℤ": (50, "n")}
TYPES = frozenset("◌≡◌ ◌≢◌ ◌<◌ ◌≤◌ ◌<ℤ◌ ◌≤ℤ◌ ◌↔◌ ℕ ℤ Bool List Option Result Vec String Ordering Type Unit ⊤ ⊥ → × Global Bor ArrayVec ◌⊎◌ ◌→◌ ◌×◌".split())
BUILT_IN = {"tt": "UNIT"}
CONSTRUCTORS = {"Some": 1, "None": 0, "Ok": 1, "Err": 1, "Less": 0, "Equal": 0, "Greater": 0}


def some(value):
    return Value("Some", (value,))


# ---- numbers

def quotient(dividend, divisor):
    """Rounded towards zero; 0 by 0."""
    if divisor == 0:
        return 0
    size = abs(dividend) // abs(divisor)
    return size if (dividend < 0) == (divisor < 0) else -size


def euclidean(dividend, divisor):
    """The quotient whose remainder isn't negative; by 0 it is 0, and -1 for a negative dividend."""
    if divisor == 0:
        return -(dividend < 0)
    return (dividend - dividend % abs(divisor)) // divisor


def signed(bits, number):
    number %= 1 << bits
    return number - (1 << bits) if number >> (bits - 1) else number


def compared(one, other):
    return LESS if one < other else EQUAL if one == other else GREATER


def decimal(number):
    return codes(str(number))


@functools.lru_cache(None)
def codes(text):
    """The characters of a text as numbers."""
    return List((Fixed([ord(one) for one in text]), 0, len(text)))


def digit(code):
    """The value of a digit or a letter; 36 for anything else."""
    found = "0123456789abcdefghijklmnopqrstuvwxyz".find(chr(code).lower()) if code < 128 else -1
    return 36 if found < 0 else found


def digits_value(radix, digits):
    return functools.reduce(lambda value, code: value * radix + digit(code), items(digits), 0)


def little_bytes(count, number):
    return of_items([number >> 8 * place & 255 for place in range(count)])


# ---- lists

def is_of_numbers(many):
    return many[1] == many[2] or at(many, 0).__class__ is int


def stepper(output):
    """The step of a function that yields something for each item, and keeps no state but the function that it was given."""
    return lambda function, item: (function, output(function, item))


MAP = stepper(lambda function, item: single(function(item)))
FILTER = stepper(lambda function, item: single(item) if function(item) else NIL)
FLAT_MAP = stepper(lambda function, item: function(item))


def kept(option):
    return single(option.parts[0]) if option.tag == "Some" else NIL


FILTER_MAP = stepper(lambda function, item: kept(function(item)))


def map_all(function, many):
    if is_of_numbers(many):
        return of_items([function(one) for one in items(many)])
    return collected("map", function, MAP, many)[0]


def filter_all(test, many):
    if is_of_numbers(many):
        return of_items([one for one in items(many) if test(one)])
    return collected("filter", test, FILTER, many)[0]


def flat_map(function, many):
    if is_of_numbers(many):
        return of_items([inner for one in items(many) for inner in items(function(one))])
    return collected("flat_map", function, FLAT_MAP, many)[0]


def filter_map(function, many):
    return collected("filter_map", function, FILTER_MAP, many)[0]


def fold(function, start, many):
    return folded(("fold", function), start, lambda state, item: (function(state)(item), None), many)


def sum_by(function, many):
    return sum([function(one) for one in items(many)])


def prefix_length(test, many):
    """How many items pass before the first that doesn't."""
    return place_where(test, False, many)


def place_of(test, many):
    """The place of the first item that passes; the length if none does."""
    return place_where(test, True, many)


def place_where(test, wanted, many):
    if not is_of_numbers(many):
        return first_place(test, wanted, many)
    return next((place for place, one in enumerate(items(many)) if test(one) == wanted), length(many))


def position(test, many):
    place = place_of(test, many)
    return some(place) if place < length(many) else NONE


def find(test, many):
    place = place_of(test, many)
    return some(at(many, place)) if place < length(many) else NONE


def item_at(many, place):
    return some(at(many, place)) if place < length(many) else NONE


def lookup(test, entries):
    for entry in items(entries):
        if test(entry[0]):
            return some(entry[1])
    return NONE


def insert_entry(same, entries, key, value):
    """A key that is there keeps its place, and gets the value; a new key goes last."""
    has_key = same(key)
    for place, entry in enumerate(items(entries)):
        if has_key(entry[0]):
            return set_at(entries, place, (entry[0], value))
    return append(entries, single((key, value)))


def insert_key(same, keys, key):
    return keys if any(map(same(key), items(keys))) else append(keys, single(key))


def insert_entries(same, entries, more):
    return functools.reduce(lambda done, entry: insert_entry(same, done, *entry), items(more), entries)


def insert_keys(same, keys, more):
    return functools.reduce(lambda done, key: insert_key(same, done, key), items(more), keys)


def insert_in_order(compare, keys, key):
    """The keys in their order, with this one among them."""
    found = items(keys)
    for place, other in enumerate(found):
        order = compare(key)(other).tag
        if order != "Greater":
            return keys if order == "Equal" else of_items([*found[:place], key, *found[place:]])
    return append(keys, single(key))


def joined(code, texts):
    found = items(texts)
    parts = [inner for text in found for inner in (code, *items(text))]
    return of_items(parts[1:]) if found else NIL


def keys_of(entries):
    return map_all(KEY, entries)


KEY = Function(lambda entry: entry[0], 1)
SAME = Function(lambda value: value, 1)
ROWS = (
    # numbers
    ("Prelude", "◌+◌", 2, "({} + {})"), ("Prelude", "◌-◌", 2, "max(0, {} - {})"), ("Prelude", "◌*◌", 2, "({} * {})"),
    ("Prelude", "◌/◌", 2, lambda one, other: one // other if other else 0), ("Prelude", "◌%◌", 2, lambda one, other: one % other if other else one),
    ("Prelude", "◌^◌", 2, "({} ** {})"), ("Prelude", "suc", 1, "({} + 1)"), ("Prelude", "zero", 0, "0"), ("Prelude", "min", 2, "min({}, {})"),
    ("Prelude", "max", 2, "max({}, {})"), ("Prelude", "nat_eq", 2, "({} == {})"), ("Prelude", "◌==◌", 2, "({} == {})"), ("Prelude", "nat_lt", 2, "({} < {})"),
    ("Prelude", "nat_le", 2, "({} <= {})"), ("Prelude", "pos", 1, "{}"), ("Prelude", "negsuc", 1, "(-{} - 1)"), ("Prelude", "◌+ℤ◌", 2, "({} + {})"),
    ("Prelude", "◌-ℤ◌", 2, "({} - {})"), ("Prelude", "◌*ℤ◌", 2, "({} * {})"), ("Prelude", "neg_ℤ", 1, "(-{})"), ("Prelude", "unsigned_abs", 1, "abs({})"),
    ("Prelude", "int_lt", 2, "({} < {})"), ("Prelude", "int_le", 2, "({} <= {})"), ("Prelude", "int_div", 2, quotient),
    ("Prelude", "int_rem", 2, lambda one, other: one - other * quotient(one, other)), ("Int", "int_div_euclid", 2, euclidean),
    ("Prelude Int.RustNames", "bit_and", 2, "({} & {})"), ("Prelude Int.RustNames", "bit_or", 2, "({} | {})"),
    ("Prelude Int.RustNames", "bit_xor", 2, "({} ^ {})"), ("Int", "w8", 0, "8"), ("Int", "w16", 0, "16"), ("Int", "w32", 0, "32"),
    ("Int", "cast_signed", 2, signed), ("Int", "cast_unsigned", 2, lambda bits, number: number % (1 << bits)), ("Int", "from_bool", 1, "int({})"),
    ("Ordering", "nat_cmp", 2, compared), ("Ordering", "int_eq", 2, "({} == {})"),
    ("Ordering", "ordering_then", 2, lambda one, other: other if one.tag == "Equal" else one), ("Char", "digit_value", 1, digit),
    # truth values
    ("Prelude", "true", 0, "True"), ("Prelude", "false", 0, "False"), ("Prelude", "not", 1, "(not {})"), ("Prelude", "◌&&◌", 2, "({} and {})"),
    ("Prelude", "◌||◌", 2, "({} or {})"), ("Prelude", "cond", 3, "({1} if {0} else {2})"), ("Prelude", "if◌then◌else◌", 3, "({1} if {0} else {2})"),
    ("Bool", "beq", 2, "({} == {})"),
    # options and results
    ("Prelude Option", "unwrap_or", 2, lambda option, default: option.parts[0] if option.parts else default),
    ("Prelude Option", "option_map", 2, lambda function, option: some(function(option.parts[0])) if option.parts else option),
    ("Prelude Option", "option_and_then", 2, lambda function, option: function(option.parts[0]) if option.parts else option),
    ("Option", "option_map_or", 3, lambda function, option, default: function(option.parts[0]) if option.parts else default),
    ("Option", "option_or", 2, lambda option, other: option if option.parts else other),
    ("Option", "option_to_list", 1, kept), ("Prelude Option", "is_some", 1, "({}.tag == 'Some')"), ("Prelude Option", "is_none", 1, "({}.tag == 'None')"),
    ("Prelude", "is_ok", 1, "({}.tag == 'Ok')"),
    ("Result", "result_unwrap_or", 2, lambda result, default: result.parts[0] if result.tag == "Ok" else default),
    # lists
    ("Prelude", "[]", 0, "NIL"), ("Prelude", "◌∷◌", 2, cons), ("Prelude", "◌++◌", 2, append), ("Prelude", "length", 1, length),
    ("Prelude", "take", 2, take), ("Prelude", "drop", 2, drop), ("Prelude", "get_or", 3, get_or), ("Prelude", "slice_index_or", 3, get_or),
    ("Prelude", "slice_index", 2, "get_or({}, {}, 0)"), ("Prelude", "slice_set", 3, set_at), ("Prelude List", "slice_get", 2, item_at),
    ("Prelude", "replicate", 2, lambda count, value: of_items([value] * count)), ("Prelude", "map", 2, map_all), ("Prelude List", "filter", 2, filter_all),
    ("Prelude List", "filter_map", 2, filter_map), ("Prelude List", "flat_map", 2, flat_map), ("Prelude List", "find", 2, find), ("Prelude", "fold", 3, fold),
    ("Prelude", "sum_by", 2, sum_by), ("Prelude", "sum", 1, lambda many: sum(items(many))), ("Prelude", "count_by", 2, sum_by),
    ("Prelude", "position", 2, position), ("List", "position_or_len", 2, place_of), ("List", "prefix_len", 2, prefix_length),
    ("List", "list_any", 2, lambda test, many: place_of(test, many) < length(many)),
    ("List", "list_all", 2, lambda test, many: prefix_length(test, many) == length(many)),
    ("List", "cons_option", 2, lambda option, many: cons(option.parts[0], many) if option.parts else many),
    ("List", "enumerate_from", 2, lambda first, many: of_items(list(enumerate(items(many), first)))),
    ("List", "concat", 1, lambda many: flat_map(SAME, many)), ("List", "join_with_byte", 2, joined),
    ("List", "after_first", 2, lambda test, many: drop(place_of(test, many) + 1, many)),
    ("List", "before_first", 2, lambda test, many: take(place_of(test, many), many)),
    ("Map", "lookup", 2, lookup), ("Map", "keys_of", 1, keys_of), ("indexmap IndexMap", "insert_entry", 4, insert_entry),
    ("indexmap IndexMap", "insert_all", 3, insert_entries), ("indexmap IndexSet", "insert_key", 3, insert_key),
    ("indexmap IndexSet", "insert_all", 3, insert_keys), ("BTreeSet", "insert_key", 3, insert_in_order),
    # texts
    ("Prelude", "codes", 1, codes), ("Fmt", "decimal", 1, decimal), ("Str", "bytes_eq", 2, lambda one, other: items(one) == items(other)),
    ("Str.Parse", "digits_value", 2, digits_value), ("Prelude", "string_bytes", 1, "{}"), ("byteorder Endian", "little_bytes", 2, little_bytes),
    ("Str.Parse", "without_leading_plus", 1, lambda text: drop(int(get_or(text, 0, 0) == 43), text)),
)

# The facts of which relations are made: of each argument whether it is a fact, a value or a function to facts; and the Python of whether it holds.
FACTS = {"◌×◌": ("ff", "({} and {})"), "◌⊎◌": ("ff", "({} or {})"), "◌→◌": ("ff", "(not {} or {})"), "◌↔◌": ("ff", "({} == {})"),
         "◌≡◌": ("vv", "is_same({}, {})"), "◌≢◌": ("vv", "(not is_same({}, {}))"), "◌<◌": ("vv", "({} < {})"), "◌≤◌": ("vv", "({} <= {})"),
         "◌<ℤ◌": ("vv", "({} < {})"), "◌≤ℤ◌": ("vv", "({} <= {})"), "⊤": ("", "True"), "⊥": ("", "False"), "Unit": ("", "True"), "IsTrue": ("v", "{}"),
         "FitsSigned": ("vv", "fits_signed({}, {})"), "IsSome": ("v", "({}.tag == 'Some')"), "IsErr": ("v", "({}.tag == 'Err')"),
         "AllByRecursion": ("pv", "all(map({}, items({})))")}


def table():
    """The rows by full names: the number of arguments and the Python of each."""
    found = {}
    for modules, name, count, python in ROWS:
        *crate, names = modules.split(" ", 1) if modules.split()[0].islower() else (modules,)
        for module in names.split():
            found[f"Rattle.{crate[0] if crate else 'std'}.specs.{module}.{name}"] = (count, python)
    return found


TABLE = table()
