"""Local arrays: one is lent out of its local as soon as it is made, and is a slice of the walk up to a `return`."""
import mir
import operands
from plan import Slice, Value
from refusal import Refused
from script import Context
from terms import bare, enclosed, list_of, subscript, words_of
from value_types import Type


def made_in(statements):
    """The locals that hold an array, in the order of the code."""
    found = []
    for node in mir.nodes(statements):
        if node[0] == "assign" and node[2][0] == "repeat" and mir.local_of(node[1]) not in found:
            found.append(mir.local_of(node[1]))
    return found


def make(walk, local, right, rest, state, behind):
    """`let a = [x; n];` and what is behind it."""
    if not rest:
        raise Refused("an array that is made by the last statement of an arm")
    if state.locals.get(local) is not None or walk.loop:
        raise Refused("an array that is made twice, or in a turn: let a function of its own do the turn")
    element = walk.local_types[local].element
    if element.kind not in ("num", "struct", "enum"):
        raise Refused("a local array whose elements are no numbers, structs or enums")
    length = right[2]
    text, value, _ = operands.operand(walk, right[1], state)
    if words_of(value.term) & {name for name, _ in state.scope}:
        raise Refused("a local array that begins with something other than numbers that are written out")
    name = name_of(walk, local, state)
    walk.array_lemmas.setdefault(name, beginning(name, element, length, value.term))
    times = f"{length} times {value.term}"
    walk.author.note(name, f"the list that _{local} begins with, {times}; n-{name} : length {name} ≡ {length}")
    write_loan(walk, local, name, element, length, text, enclosed(value.relation), walk.position(local, state))
    slice_type = Type("slice", element=element, mutable=True)
    state.slices[name] = Slice(name, slice_type, local=local, length=length, same_length=f"n-{name}")
    state.order.insert(0, name)
    state.locals[local] = Value(Type("array", element=element, length=length), refers_to=name)
    walk.run(rest, state, behind)
    walk.script.close()


def name_of(walk, local, state):
    """The source's name of an array, where it is clear which one that is and no other thing has it."""
    in_source = walk.function.local_arrays
    is_clear = len(in_source) == len(walk.array_locals)
    name = in_source[walk.array_locals.index(local)] if is_clear else f"a{local}"
    is_taken = in_source.count(name) > 1 or any(name == other for other, _ in state.scope)
    return f"{name}-{local}" if is_taken or walk.names.are_reserved(name) else name


def beginning(name, element, length, term):
    """The list that an array begins with, and its length."""
    return (
        f"abbrev each-{name} : {element.denotation}\neach-{name} = {bare(term)}\n\n"
        f"abbrev {name} : List {element.denotation}\n{name} = replicate {length} each-{name}\n\n"
        f"n-{name} : length {name} ≡ {length}\nn-{name} = length-replicate {length} each-{name}\n")


def write_loan(walk, local, name, element, length, text, relation, position):
    """The array is made, and lent: its token and its slice come to the head, and the local keeps its place."""
    row, each, mark = element.row, f"each-{name}", subscript(local)
    machine = element.machine_value(each)
    repeated = f"(repeats {row} {length} {each} ({machine}) {relation})"
    typed = f"(Array-Typed {row} ({element.lawful}) {length} {name} _ {repeated}).0"
    walk.script.write(f"assigns ! (rep ! {length} {text}) (from ! (stop !)) (init ! {position} refl {typed}) $")
    walk.script.write(f"-- {name} is lent")
    walk.script.write(
        f"move ! ({position} ∷ []) $ lend_array ! tt {row} tt ({element.makes}) {length} {each} ({machine}) l{mark} "
        f"{relation} (lit< tt, lit< tt) (λ ν′{mark} δ′{mark}.")
    if position:
        walk.script.write(f"move ! ({list_of(map(str, [0, 1, *range(3, 3 + position)]))}) $")


def give_back(walk, state):
    """Before a `return`: each array is in its local again, which is then empty. How many brackets are left open."""
    lent = [each for each in state.slices.values() if each.local is not None]
    if not lent:
        return 0
    context = Context(labels(walk, state))
    for array in lent:
        mark, cell, element = subscript(array.local), f"cell {array.local}", array.type.element
        move = context.bring(f"token {array.name}", f"slice {array.name}", cell)
        walk.script.write(
            f"{move}back_array ! tt {element.row} ({element.spelled}) ({element.tells}) {array.length} "
            f"l{mark} ν′{mark} δ′{mark} {enclosed(array.list)} {enclosed(array.same_length)} (")
        context.replace(3, cell)
        state.locals[array.local] = None
        state.order.remove(array.name)
        del state.slices[array.name]
    wanted = labels(walk, state)
    count = 0       # of the items that have to be moved for the others to stand in order
    while [label for label in context.labels if label not in wanted[:count]] != wanted[count:]:
        count += 1
    walk.script.write(context.bring(*wanted[:count]).strip())
    return len(lent)


def labels(walk, state):
    """The context of a state: the slices with their tokens, then the locals, the last one first."""
    slices = [f"{what} {name}" for name in state.order for what in ("token", "slice")]
    locals_ = reversed(range(len(walk.local_types)))
    return slices + [f"{what} {local}" for local in locals_ for what in ("cell", "end")]
