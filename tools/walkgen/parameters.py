"""The parameters of a walked function, as the statements around its steps write them."""
from terms import part, subscript


class Parameter:
    """A parameter; slice_index is a slice's place among the slices, which number the lifetimes."""

    def __init__(self, name, type_, index, slice_index):
        self.name, self.type, self.index = name, type_, index
        self.slice_index, self.mark = slice_index, subscript(slice_index)
        self.is_slice = type_.kind == "slice"
        self.is_changed = self.is_slice and type_.mutable
        self.on_exit = f"{name}'"

    @property
    def row(self):
        return self.type.element.row if self.is_slice else self.type.row

    @property
    def denotation(self):
        return f"List {self.type.element.denotation}" if self.is_slice else self.type.denotation

    # ---- in the signature
    @property
    def plain(self):
        return f"plain (λ _. {self.row})"

    @property
    def slot(self):
        if not self.is_slice:
            return self.plain
        return f"{'mut' if self.is_changed else 'shr'}_slice_of ({self.slice_index} ∷ []) tt ({self.plain})"

    @property
    def stays(self):
        """What is left of it on exit: a changed slice, or nothing."""
        if self.is_changed:
            return f"stay_slice ({self.slice_index} ∷ []) tt ({self.plain})"
        return f"stay_dropped ({self.slot}) yes"

    def goes(self, slices):
        """That it goes from the entry to what stays; slices: how many there are."""
        if self.is_changed:
            return f"Goes-slice 𝓛 {slices} {self.slice_index} tt ({self.plain})"
        return f"Goes-dropped 𝓛 {slices} ({self.slot}) yes (λ κs x f. refl)"

    # ---- on entry
    @property
    def binder(self):
        place = f"(b{self.mark} o{self.mark} : ℕ) " if self.is_slice else ""
        ghost = f"(γ{self.mark} : GName) " if self.is_changed else ""
        return f"{place}{ghost}({self.name} : {self.denotation})"

    @property
    def argument_type(self):
        if not self.is_slice:
            return self.denotation
        return f"{'Mut' if self.is_changed else ''}Bor ({self.denotation})"

    @property
    def argument(self):
        return self.reference(self.name) if self.is_slice else self.name

    def reference(self, elements):
        place = f"b{self.mark} o{self.mark}"
        return f"ref {place} γ{self.mark} {elements}" if self.is_changed else f"seen {place} {elements}"

    @property
    def machine_value(self):
        if self.is_slice:
            return f"slice_val (b{self.mark}, o{self.mark}) (length {self.name})"
        return self.type.machine_value(self.name)

    @property
    def token(self):
        return f"‵ (flft κ{self.mark} q{self.mark})"

    @property
    def owned_type(self):
        """The type of which it is owned on entry."""
        if not self.is_slice:
            return self.row
        return f"{'Mut' if self.is_changed else 'Shr'}Slice (named {self.slice_index}) κ{self.mark} {self.row}"

    @property
    def owned_on_exit(self):
        return f"‵ (({self.owned_type}).own_val ({self.reference(self.on_exit)}) ({self.machine_value} ∷ []))"

    # ---- from the contract's arguments
    @property
    def spelled(self):
        if not self.is_slice:
            return self.type.spelled
        return "mut_slice_vals" if self.is_changed else "shr_slice_vals"

    @property
    def tells(self):
        if not self.is_slice:
            return self.type.tells
        law = "mut_slice_Tells" if self.is_changed else "shr_slice_Tells"
        return f"{law} (named {self.slice_index}) {part('κs', self.slice_index)} {self.row}"

    @property
    def handed(self):
        """The parts of the argument tuple that the walk is handed for it."""
        argument = part("a", self.index)
        if not self.is_slice:
            return argument
        ghost = f"{argument}.ghost_name " if self.is_changed else ""
        return f"{argument}.ref_ptr.0 {argument}.ref_ptr.1 {ghost}{argument}.now"

    @property
    def handed_fact(self):
        """The fact about it, which the walk is handed too."""
        fact = part("are", self.index)
        if self.is_slice:
            return f"{fact}.0.1"
        return f"{fact}.1" if self.type.kind == "num" else fact
