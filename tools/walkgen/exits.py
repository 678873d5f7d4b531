"""A `return`: the locals are freed, and the lists and the result are what the contract ensures."""
import arrays
from terms import enclosed, list_of, subscript


def leave(walk, state, behind):
    number = walk.number("exit")
    result = state.locals.get(0)
    brackets = arrays.give_back(walk, state)
    walk.script.write(f"{returns(walk, behind)} (look ! {walk.position(0, state)} refl) $")
    free_locals(walk, state)
    keep_slices(walk, state)
    changed = [state.slices[name] for name, type_ in walk.slice_parameters if type_.mutable]
    type_ = walk.local_types[0]
    parts = ["exits"]
    if type_.kind != "unit":
        parts += [f"({type_.machine_value(result.term)})", enclosed(result.term)]
    parts += [enclosed(each.list) for each in changed] + [enclosed(each.same_length) for each in changed]
    if walk.function.ensures:
        lists = {name: each.list for name, each in state.slices.items()}
        goal = walk.own_clause(walk.function.ensures, lists, result.term)
        parts.append(walk.author.proves(f"exit.{number}", goal, state.scope))
    if type_.kind != "unit":
        parts.append(enclosed(result.proof) if type_.is_declared else result.relation)
    walk.script.write(f"by ! ({' '.join(parts)}){')' * brackets}")


def returns(walk, behind):
    """The rule of a `return` at this place."""
    if walk.loop:
        return "returns_within ! Post (turn_returns 𝓤 𝓛.H _ _)"
    return "returns_within ! Post refl" if behind.within else "returns !"


def free_locals(walk, state):
    """The cells are emptied and freed, all in one step."""
    heads = list_of(["_"] * (2 * len(walk.slice_parameters)))
    cells = []
    for local in range(len(walk.local_types)):
        content = "none" if state.locals.get(local) is None else "some _"
        cells.append(f"(_, (l{subscript(local)}, {content}))")
    walk.script.write(f"frees_all ! {enclosed(heads)} ({list_of(cells)}) $")


def keep_slices(walk, state):
    """Of the slices the tokens are kept, and the changed ones themselves, in the signature's order."""
    kept = []
    for name, type_ in walk.slice_parameters:
        place = 2 * state.order.index(name)
        kept += [place, place + 1] if type_.mutable else [place]
    if kept != list(range(2 * len(walk.slice_parameters))):
        walk.script.write(f"keep ! ({list_of(map(str, kept))}) $")
