"""What a walk knows at one place of a function: the values in its locals, its slices, and what runs behind."""
from terms import enclosed, list_of, subscript


class Value:
    """What a local holds.

    term: the value in the logic. proof: of a number, that it fits its width; of a declared type's value, that it is
    what the type says. fields, variant: of a struct or an enum that was built here or matched on. refers_to: of a
    reference, the name of the slice, with room, the proof that its length is a u64; front: how many of the slice's
    first records it refers to, where these are not all. tag_of: of an enum's tag, the enum.
    """

    def __init__(self, type_, term=None, proof=None, fields=None, variant=None, refers_to=None, room=None, front=None,
                 tag_of=None):
        self.type, self.term, self.proof = type_, term, proof
        self.fields, self.variant, self.front, self.tag_of = fields, variant, front, tag_of
        self.refers_to, self.room = refers_to, room or refers_to and f"room-{refers_to}.0"

    @property
    def relation(self):
        """The relation of the value to its machine value, as a field or an argument asks for it."""
        if self.type.kind == "num":
            return f"(refl, {self.proof})"
        return "refl" if self.type.kind == "bool" else self.proof

    @property
    def typed(self):
        """That the machine value is of its type."""
        kind = self.type.kind
        if kind == "num":
            return f"(tt, record {{ fits = {self.proof} }})"
        if kind in ("bool", "unit", "ref"):
            return "(tt, tt)"
        if kind == "slice":
            return f"(tt, (tt, (record {{ fits = {self.room} }}, tt)))"
        term = enclosed(self.term)
        return f"({self.type.lawful} {term} ({self.type.law('vals')} {term}) {enclosed(self.proof)}).0"


class Slice:
    """A slice of the walk: a parameter, by its index among the slices, or an array in a local.

    list, same_length: its list now, and the proof that this is as long as length says. The names of its block,
    offset, ghost name, lifetime and share are those that the walk's text binds.
    """

    def __init__(self, name, type_, index=None, local=None, length=None, same_length="refl"):
        self.name, self.type, self.index, self.local = name, type_, index, local
        self.list, self.length, self.same_length = name, length or f"length {name}", same_length
        mark = subscript(index if local is None else local)
        if local is None:
            self.block, self.offset, self.ghost = f"b{mark}", f"o{mark}", f"γ{mark}"
            self.lifetime, self.share = f"κ{mark}", f"q{mark}"
        else:
            self.block, self.offset, self.ghost = f"l{mark}", "0", f"δ′{mark}"
            self.lifetime, self.share = f"(ν′{mark} ∷ [])", "full_share"

    def copy(self):
        other = Slice(self.name, self.type, self.index, self.local, self.length, self.same_length)
        other.list = self.list
        return other

    @property
    def machine_value(self):
        return f"slice_val ({self.block}, {self.offset}) {enclosed(self.length)}"

    @property
    def owned(self):
        """The slice as an item of the context."""
        kind, number = "MutSlice" if self.type.mutable else "ShrSlice", self.index or 0
        place = f"{self.block} {self.offset}"
        reference = f"ref {place} {self.ghost} {self.list}" if self.type.mutable else f"seen {place} {self.list}"
        owner = f"({kind} (named {number}) {self.lifetime} {self.type.element.row})"
        return f"‵ ({owner}.own_val ({reference}) ({self.machine_value} ∷ []))"


class State:
    """A place of the walk.

    locals: {number: Value}, with None at a local that is empty again. slices: {name: Slice}. order: the slices as
    they stand at the head of the context, each with its token. scope: the variables of the text, [(name, type)].
    """

    def __init__(self):
        self.locals, self.slices, self.order, self.scope = {}, {}, [], []

    def copy(self):
        other = State()
        other.locals = dict(self.locals)
        other.slices = {name: one.copy() for name, one in self.slices.items()}
        other.order, other.scope = list(self.order), list(self.scope)
        return other

    def bring(self, names):
        """The `move` that brings slices to the head in this order, or nothing where they stand so."""
        if self.order[:len(names)] == names:
            return ""
        places = [2 * self.order.index(name) + item for name in names for item in (0, 1)]
        self.order = names + [name for name in self.order if name not in names]
        return f"move ! ({list_of(map(str, places))}) $"


class Behind:
    """What runs behind the last statement of a body.

    within: whether a `return` leaves an arm or a turn. Behind an arm there are statements, reached by the rule that
    the arm was handed, and what is behind those in turn.
    """

    def __init__(self, within, ends_turn=False, statements=None, rule=None, outer=None):
        self.within, self.ends_turn = within, ends_turn
        self.statements, self.rule, self.outer = statements, rule, outer

    @staticmethod
    def function():
        return Behind(False)

    @staticmethod
    def turn():
        return Behind(True, ends_turn=True)

    def arm(self, statements, rule):
        """Behind an arm of a branch that has statements behind it."""
        return Behind(True, statements=statements, rule=rule, outer=self)

    def last_arm(self):
        """Behind an arm of a branch that is the last statement itself."""
        return Behind(True, self.ends_turn, self.statements, self.rule, self.outer)
