"""Places, operands and right sides of the MIR: how a walk finds and reads them, and what value they have."""
from collections import namedtuple

import mir
from plan import Value
from refusal import Refused
from terms import enclosed, part, tuple_of
from value_types import Type

# the text of the step, and the value; before: a line that the step needs in front of it
Step = namedtuple("Step", "text value before", defaults=("",))

TESTS = {"lt": "ltb {} {}", "le": "leb {} {}", "eq": "eqb {} {}", "ne": "not (eqb {} {})"}
CONSTANTS = {"int": "lit ! tt", "int_neg": "neg_lit ! tt", "int_big": "big_lit ! (record { fits = lit< tt })"}
ARITHMETIC = {"add": "{} + {}", "mul": "{} * {}", "sub": "{} - {}"}


# ---- operands
def operand(walk, tree, state, ahead=0):
    """An operand; ahead: how many items stand in the context before those of the state."""
    kind = mir.kind_of(tree)
    if kind == "copy":
        return loaded(walk, tree[1], state, ahead)
    if kind in CONSTANTS:
        return constant(kind, mir.bits_of(tree[1]), int(tree[2]))
    if kind in ("opd_true", "opd_false"):
        name = kind[len("opd_"):]
        return Step(f"({name}_lit !)", Value(Type("bool"), name, "refl"))
    if kind == "opd_unit":
        return Step("(unit_lit !)", Value(Type("unit"), "tt"))
    raise Refused(f"an operand {mir.shown(tree)}")


def joined(steps):
    """Several operands as one."""
    text = "(no_more !)"
    for step in reversed(steps):
        text = f"(and_then ! {step.text} {text})"
    return text


def constant(kind, bits, number):
    """A constant, which the MIR counts from the upper end of its width where that is nearer."""
    if kind == "int_neg":
        number = 2 ** bits - number
    return Step(f"({CONSTANTS[kind]})", Value(Type("num", f"u{bits}"), str(number), "(lit< tt)"))


def loaded(walk, place, state, ahead):
    """What a place holds."""
    local, steps = mir.local_of(place), mir.items(place[2])
    value = state.locals.get(local)
    position = walk.position(local, state) + ahead
    if not steps:
        return Step(f"(load ! (from ! (stop !)) (look ! {position} refl))", value)
    hops, part, look = [], "(whole !)", "look_in"
    while steps:
        step = steps.pop(0)
        if step[0] == "field":
            index = int(step[1])
            hops.append("fld ! refl")
            part = f"(sub ! {index} refl {part})"
            value = field(walk, value, index, state)
        elif step[0] == "variant":
            index = int(steps.pop(0)[1])
            hops += ["vrt ! refl", "fld ! refl"]
            if index == 0:
                value, look = Value(Type("other", "tag"), tag_of=value), "look_tag"
                break
            if value.variant is None:
                raise Refused("a variant's field is read where the variant is not known")
            part = f"(in_variant ! {step[1]} {index - 1} refl refl {part})"
            value = value.fields[index - 1]
        else:
            raise Refused(f"a place with the step {step[0]}: let another function do this")
    way = "(stop !)"
    for hop in reversed(hops):
        way = f"({hop} {way})"
    return Step(f"(load ! (from ! {way}) ({look} ! {position} {part}))", value)


def field(walk, value, index, state):
    """A field of a struct, or the length of a slice."""
    if value.type.kind == "slice":
        if value.front:
            raise Refused("a part of a slice that is kept: lend it to a call at once")
        if index == 1:
            return Value(Type("num", "usize"), state.slices[value.refers_to].length, f"({value.room})")
        return Value(Type("other", "pointer"))
    if value.fields is not None:
        return value.fields[index]
    name, type_ = walk.types.fields(value.type.name)[index]
    proof = owed(value.type, enclosed(value.term), enclosed(value.proof), index, type_)
    return Value(type_, f"{enclosed(value.term)}.{name}", proof)


def owed(declared, term, proof, index, type_):
    """That a part of a declared type's value is what its own type says."""
    proofs = f"({declared.law('owed')} {term} _ {proof})"
    return part(proofs, index) + (".1" if type_.kind == "num" else "")


# ---- right sides
def right_side(walk, tree, local, state):
    """What is assigned to a local."""
    kinds = {"rv_opd": copied, "op2": binary, "op1": unary, "addr_of": address, "aggregate": aggregate}
    if tree[0] not in kinds:
        raise Refused(f"a right side {tree[0]}")
    return kinds[tree[0]](walk, tree, local, state)


def copied(walk, tree, local, state):
    text, value, _ = operand(walk, tree[1], state)
    return Step(f"(of_opd ! {text})", value)


def binary(walk, tree, local, state):
    """A test of two numbers, a sum, a product or a difference."""
    left_text, left, _ = operand(walk, tree[2], state)
    right_text, right, _ = operand(walk, tree[3], state)
    operation = mir.kind_of(tree[1])
    forms = {**TESTS, **ARITHMETIC}
    if operation not in forms or "signed" in tree[1] or left.type.kind != "num":
        raise Refused(f"the operation {operation} in a walked function: let another function do it")
    term = forms[operation].format(enclosed(left.term), enclosed(right.term))
    if operation in TESTS:
        return Step(f"(bin ! {left_text} {right_text} tt)", Value(Type("bool"), term, "refl"))
    if walk.loop and local == walk.loop.counter and operation == "add" and right.term == "1":
        fits = walk.loop.next_fits
    else:
        number = walk.number("fit")
        fits = walk.author.proves(f"fits.{number}", f"{term} < 2 ^ {left.type.bits}", state.scope)
    allowed = f"(record {{ fits = {fits} }})"
    if operation == "sub":
        allowed = walk.author.proves(f"under.{number}", f"{right.term} ≤ {left.term}", state.scope)
    return Step(f"(bin ! {left_text} {right_text} {allowed})", Value(left.type, f"({term})", fits))


def unary(walk, tree, local, state):
    """A negation, or a cast of a number without a sign."""
    text, value, _ = operand(walk, tree[2], state)
    operation = tree[1]
    if operation == "bit_not" and value.type.kind == "bool":
        return Step(f"(un ! {text} tt)", Value(Type("bool"), f"not ({value.term})", "refl"))
    if operation[:3] == ["cast", "unsigned", "unsigned"] and value.type.kind == "num":
        before, after = value.type.bits, mir.bits_of(operation[3])
        if before == after:
            fits = value.proof
        elif before < after:
            fits = f"(widen_{before}_{after} {value.proof})"
        else:
            fits = walk.author.proves(f"fits.{walk.number('fit')}", f"{value.term} < 2 ^ {after}", state.scope)
        return Step(f"(un ! {text} (record {{ fits = {fits} }}))", Value(walk.local_types[local], value.term, fits))
    raise Refused(f"the operation {mir.shown(operation)} in a walked function: let another function do it")


def address(walk, tree, local, state):
    """A reference to what a slice refers to, or to a local array."""
    source, steps = mir.local_of(tree[1]), mir.items(tree[1][2])
    value = state.locals.get(source)
    kind = value and value.type.kind
    if kind == "array" and not steps:
        return Step("(addr ! (from ! (stop !)))", Value(Type("ref"), refers_to=value.refers_to, room="lit< tt"))
    if kind == "slice" and len(steps) == 2:
        pointer = f"(look_in ! {walk.position(source, state)} (sub ! 0 refl (whole !)))"
        reference = Value(Type("ref"), refers_to=value.refers_to, room=value.room)
        return Step(f"(addr ! (from ! (fld ! refl (hop ! {pointer} (stop !)))))", reference)
    raise Refused("a reference to something other than a whole slice or a whole local array")


def aggregate(walk, tree, local, state):
    """A struct, an enum or a slice that is put together."""
    parts = [operand(walk, item, state) for item in mir.items(tree[1])]
    text = f"(agg ! {joined(parts)})"
    values = [step.value for step in parts]
    type_ = walk.local_types[local]
    if type_.kind == "slice":
        return Step(text, reference_of(*values, type_, state))
    if type_.kind == "struct":
        fields = zip(walk.types.fields(type_.name), values)
        term = f"record {{ {'; '.join(f'{name} = {value.term}' for (name, _), value in fields)} }}"
        return built(walk, text, type_, term, values)
    if type_.kind == "enum":
        variant = int(values.pop(0).term)
        name, _ = walk.types.variants(type_.name)[variant]
        return built(walk, text, type_, " ".join([name, *(enclosed(value.term) for value in values)]), values, variant)
    raise Refused(
        "an array or a tuple that is written out, as `[1, 2]`: begin with `[0; 2]`, and let another function fill it")


def reference_of(pointer, count, type_, state):
    """A reference to a slice, or to its first records, as many as count says."""
    name = pointer.refers_to
    if count.term == state.slices[name].length:
        return Value(type_, refers_to=name, room=pointer.room)
    if not type_.mutable:
        raise Refused("a part of a slice that is lent as `&`: lend it as `&mut`")
    return Value(type_, refers_to=name, room=count.proof, front=count.term)


def built(walk, text, type_, term, fields, variant=None):
    """A declared type's value that the walk builds: that it is one is bound by a `let`."""
    term, name = enclosed(term), f"made-{walk.number('made')}"
    relations = tuple_of([value.relation for value in fields])
    before = f"let {name} : {type_.is_spelled(term)} = {type_.law('owes')} {term} {relations} in"
    return Step(text, Value(type_, term, name, fields=fields, variant=variant), before)
