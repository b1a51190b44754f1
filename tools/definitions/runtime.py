"""What the written Python stands on: lists, constructors, records, functions as values, and memories of calls.

ℕ and ℤ are integers, Bool is bool, a pair is a tuple, and a type is None."""
import ctypes
import functools
import gc
import sys
import threading
import traceback

UNIT = ()
STACK = 1 << 30


class NoClause(Exception):
    """No clause of a definition fits its arguments."""


# What happens if a definition gets a value of another type, such as a record without the field that it asks for: types aren't checked here.
WRONG_TYPE = (AttributeError, TypeError, IndexError, KeyError, ValueError)


def sentence_on(error):
    """A sentence on NoClause or WRONG_TYPE, with the definition in which it happened."""
    if isinstance(error, NoClause):
        return f"no clause of `{error}` fits"
    names = [frame.name for frame in traceback.extract_tb(error.__traceback__) if frame.filename == "<definitions>"]
    return f"`{names[-1].split('__in_')[0] if names else '?'}` gets a value of another type than it asks for: {error}"


# ---- lists

class Store:
    """The items of lists that share them: `back` from place 0 on, `front` before it, the last first. Both only grow."""
    __slots__ = ("back", "front")

    def __init__(self, back):
        self.back, self.front = back, []


class Fixed(Store):
    """A store whose lists don't grow in place, since it is kept from one command to the next, or is an array of versions."""
    __slots__ = ()


class List(tuple):
    """A list: a store, and the places where it begins and ends. Head, tail and an item in front or behind take a constant time."""
    __slots__ = ()

    def __repr__(self):
        return repr(items(self))


NIL = List((Fixed([]), 0, 0))
SINGLE, COPIED = {}, {}


def of_items(values):
    """The list with these items, which must be a list of Python's own that nobody changes."""
    return List((Store(values), 0, len(values))) if values else NIL


def items(some):
    """The items as a new list of Python's own."""
    store, low, high = some
    if low >= 0:
        return store.back[low:high]
    size = len(store.front)
    front = store.front[max(0, -high):-low] if -low <= size else store.front
    return front[::-1] + (store.back[:high] if high > 0 else [])


def at(some, place):
    """The item with this index, which must exist."""
    place += some[1]
    return some[0].back[place] if place >= 0 else some[0].front[-1 - place]


def head(some):
    store, low, _ = some
    return store.back[low] if low >= 0 else store.front[-1 - low]


def tail(some):
    store, low, high = some
    return List((store, low + 1, high))


def length(some):
    return some[2] - some[1]


def single(value):
    """The list of one item. Equal calls for a record share a store, so that lists that grow from them do, too."""
    if value.__class__ is not Record and value.__class__ is not Value:
        return List((Store([value]), 0, 1))
    found = SINGLE.get(value)
    if found is None:
        found = SINGLE[value] = List((Store([value]), 0, 1))
    return found


def cons(value, some):
    """The list with an item in front: in the same store, if that has room or already this item."""
    store, low, high = some
    if low == high:
        return single(value)
    place = low - 1
    if place >= 0:
        if store.back[place] is value:
            return List((store, place, high))
    elif low == -len(store.front) and store.__class__ is Store:
        store.front.append(value)
        return List((store, place, high))
    elif -place <= len(store.front) and store.front[-1 - place] is value:
        return List((store, place, high))
    return of_items([value, *items(some)])


def grown_behind(first, more):
    """`first ++ more` in the store of `first`, if that has room or already these items."""
    store, low, high = first
    back, size = store.back, more[2] - more[1]
    if high < 0:
        return None
    if high == len(back) and store.__class__ is Store:
        back.extend(items(more))
    elif high + size > len(back) or any(back[high + place] is not at(more, place) for place in range(size)):
        return None
    return List((store, low, high + size))


def grown_before(first, more):
    """`first ++ more` in the store of `more`, if that has room."""
    store, low, high = more
    if low != -len(store.front) or low > 0 or store.__class__ is not Store:
        return None
    front = items(first)
    store.front.extend(front[::-1])
    return List((store, low - len(front), high))


def append(first, more):
    """`first ++ more`, in the store of one of them, if that has room; the shorter one is copied."""
    if first[1] == first[2]:
        return more
    if more[1] == more[2]:
        return first
    if first[2] - first[1] >= more[2] - more[1]:
        found = grown_behind(first, more)
    else:
        found = grown_before(first, more) or (grown_behind(first, more) if first[2] == len(first[0].back) else None)
    return found or copied(first, more)


def copied(first, more):
    """`first ++ more` in a store of its own. Equal calls for records share it, as in `single`."""
    if head(more).__class__ is not Record and head(more).__class__ is not Value:
        return of_items(items(first) + items(more))
    found = COPIED.get((first, more))
    if found is None:
        found = COPIED[(first, more)] = of_items(items(first) + items(more))
    return found


def take(count, some):
    store, low, high = some
    return List((store, low, min(low + count, high)))


def drop(count, some):
    store, low, high = some
    return List((store, min(low + count, high), high))


def get_or(some, place, default):
    return at(some, place) if place < some[2] - some[1] else default


class Version:
    """The items of a long list after some changes. The newest version has them all; an older one knows the next newer, and what it changed. So a
    change takes a constant time, and the older list stays as it was."""
    __slots__ = ("array", "newer", "place", "value")
    front = ()

    def __init__(self, array):
        self.array = array

    @property
    def back(self):
        if self.array is None:
            self.become_newest()
        return self.array

    def become_newest(self):
        """Turns the versions from here to the newest one around."""
        path, version = [], self
        while version.array is None:
            path.append(version)
            version = version.newer
        array = version.array
        for older in reversed(path):
            version.newer, version.place, version.value = older, older.place, array[older.place]
            array[older.place], version.array = older.value, None
            version = older
        self.array = array


LONG = 256


def set_at(some, place, value):
    """The list with another value at a place; the same list if it has no such place."""
    store, low, high = some
    if place >= high - low:
        return some
    if high - low < LONG:
        values = items(some)
        values[place] = value
        return of_items(values)
    if store.__class__ is not Version or low or high != len(store.back):
        store = Version(items(some))
    array, newest = store.back, Version(None)
    store.newer, store.place, store.value, store.array = newest, place, array[place], None
    array[place], newest.array = value, array
    return List((newest, 0, high - low))


# ---- constructors and records

class Value:
    """What a constructor makes of its arguments."""
    __slots__ = ("tag", "parts")

    def __init__(self, tag, parts=()):
        self.tag, self.parts = tag, parts


class Record:
    """A record; fields whose names are numbers are those of a tuple."""

    def __init__(self, fields):
        self.__dict__ = fields

    def but(self, fields):
        """The record with other values of these fields."""
        return Record({**self.__dict__, **fields})

    def __getitem__(self, place):
        return self.__dict__[f"_{place}"]


def is_same(one, other):
    """Whether two values are equal, part by part."""
    if isinstance(one, List):
        return length(one) == length(other) and all(map(is_same, items(one), items(other)))
    if isinstance(one, tuple):
        return all(map(is_same, one, other))
    if isinstance(one, Value):
        return one.tag == other.tag and all(map(is_same, one.parts, other.parts))
    if isinstance(one, Record):
        return all(is_same(part, getattr(other, name)) for name, part in vars(one).items())
    if isinstance(one, Function):
        raise NoClause("an equation of functions")
    return one == other


def fits_signed(bits, number):
    return -(1 << bits - 1) <= number < 1 << bits - 1


# ---- functions as values

class Function:
    """A function of Python's own that lacks some of its arguments; it takes them one by one. Two are equal if they are made of equal parts."""
    __slots__ = ("function", "missing", "given")

    def __init__(self, function, missing, given=()):
        self.function, self.missing, self.given = function, missing, given

    def __call__(self, value):
        if self.missing == 1:
            return self.function(*self.given, value)
        return Function(self.function, self.missing - 1, (*self.given, value))

    def __hash__(self):
        return hash((self.function, self.given))

    def __eq__(self, other):
        return other.__class__ is Function and self.function is other.function and self.given == other.given


# ---- memories of calls

FORGET = []
GROWN = {}
LOOKED = {}


def remembered(function):
    """The function with a memory: a call with the same arguments isn't made again. Definitions repeat calls where a program has a variable."""
    memory = functools.lru_cache(None)(function)
    FORGET.append(memory.cache_clear)
    return memory


def constant(function):
    """A definition without arguments, which is computed at most once."""
    return functools.lru_cache(None)(function)


def forget():
    """Forgets all calls, between two commands."""
    for clear in FORGET:
        clear()
    GROWN.clear()
    LOOKED.clear()
    SINGLE.clear()
    COPIED.clear()


class Growth:
    """What a function that goes over a list from left to right yields after each item, so that a list with further items behind needs only these.
    `states` are the arguments beside the list after each item, `ends` how many items of `output` there are then."""
    __slots__ = ("states", "ends", "output")

    def __init__(self, state):
        self.states, self.ends, self.output = [state], [0], Store([])

    def add(self, state, output):
        """Adds the state after a further item, and what that item yields. A list that grew from the output may have put the same items behind it, and
        then shares them; if it has put others there, the output goes on in a store of its own."""
        self.states.append(state)
        if output is not None and output[1] != output[2]:
            before = List((self.output, 0, self.ends[-1]))
            if grown_behind(before, output) is None:
                self.output = Store(items(before) + items(output))
        self.ends.append(self.ends[-1] + (0 if output is None else length(output)))


def growth_of(key, state, step, some):
    """The growth after all items of a list. `step` maps a state and an item to the state after it and to a list of outputs, or None."""
    growth = GROWN.get(key)
    if growth is None:
        growth = GROWN[key] = Growth(state)
    states, count = growth.states, some[2] - some[1]
    while len(states) <= count:
        done = len(states) - 1
        after, output = step(states[done], at(some, done))
        if len(states) == done + 1:
            growth.add(after, output)
    return growth


def folded(name, state, step, some):
    """The state after all items of a list."""
    if some[1] == some[2]:
        return state
    return growth_of((name, state, some[0], some[1]), state, step, some).states[some[2] - some[1]]


def collected(name, state, step, some):
    """All outputs for the items of a list, one after another, and the state after them."""
    if some[1] == some[2]:
        return NIL, state
    growth, count = growth_of((name, state, some[0], some[1]), state, step, some), some[2] - some[1]
    return List((growth.output, 0, growth.ends[count])), growth.states[count]


def all_hold(name, state, step, some):
    """Whether what `step` says holds for all items of a list. Nothing is asked of items behind one for which it doesn't."""
    count = some[2] - some[1]
    growth = GROWN.get((name, state, some[0], some[1]))
    if growth is None:
        growth = GROWN[(name, state, some[0], some[1])] = Growth(state)
    states = growth.states
    while len(states) <= count and states[-1] is not None:
        done = len(states) - 1
        after, holds = step(states[done], at(some, done))
        if len(states) == done + 1:
            states.append(after if holds else None)
    return len(states) > count and states[count] is not None


def first_place(test, wanted, some):
    """The place of the first item of a list for which a test has the wanted value, or the length if there is none. How many items were looked at is kept,
    so that for a list with further items behind only these are tested; and where the first is, once it is known."""
    key = (test, wanted, some[0], some[1])
    looked, is_there = LOOKED.get(key, (0, False))
    count = some[2] - some[1]
    while looked < count and not is_there:
        is_there = test(at(some, looked)) == wanted
        looked += not is_there
    LOOKED[key] = looked, is_there
    return min(looked, count)


# ---- large stacks

class Late(BaseException):
    """A call took longer than it may."""


def started(call):
    """A thread that makes a call, with as large a stack as the system gives."""
    for size in (STACK, STACK // 4, STACK // 16):
        threading.stack_size(size - 4096)
        thread = threading.Thread(target=call, daemon=True)
        try:
            thread.start()
            return thread
        except RuntimeError:
            continue
    raise MemoryError


def with_large_stack(function, *given, seconds=None):
    """Calls a function where recursion may be deep, and returns or raises what it does. After some seconds, if they are given, it raises Late."""
    done = []

    def call():
        try:
            done.append((function(*given), None))
        except BaseException as raised:  # whatever it is, the caller gets it
            done.append((None, raised))

    # there are no cycles among values, and to look for some takes a fifth of the time
    gc.disable()
    sys.setrecursionlimit(10 ** 7)
    thread = started(call)
    thread.join(seconds)
    if thread.is_alive():
        ctypes.pythonapi.PyThreadState_SetAsyncExc(ctypes.c_ulong(thread.ident), ctypes.py_object(Late))
        thread.join()
    if done[0][1] is not None:
        raise done[0][1]
    return done[0][0]
