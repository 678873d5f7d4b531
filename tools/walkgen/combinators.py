"""The call combinators: one for each shape of a call, by which a walk passes a call in one step.

A shape is a word with a letter for each slice of the callee, in order; plain parameters follow the slices.
    s   the callee takes a `&[R]`, and the caller's own is a `&[R]`
    v   the callee takes a `&[R]`, and the caller's own is a `&mut [R]`
    m   the callee takes a `&mut [R]`, and the caller's own is one
    f   the callee takes a `&mut [R]`, and gets the first records of the caller's own, `&mut own[..m]`
A `+` at the end is a call that is the last statement of an arm or of a turn.
"""
import re

from script import Context
from terms import part, subscript, tuple_of

LETTERS = {"s": "shr", "v": "view", "m": "mut", "f": "front"}
OPEN = (
    "module _ {M : Type 1} {𝓤 : Ura M} {𝓛 : Logic 𝓤} {K : Type 0} {Γ : List (Item 𝓤)} {E : Env 𝓤 𝓛.H} {C : Calls 𝓤 𝓛.H} "
    "{f : Callee} {xs : List Operand} {Λ : Loops 𝓤 𝓛.H} {p : Post 𝓤 𝓛.H} {d : Place} {rest : Body} where\n"
    "  open 𝓛 use {H}\n\n")
DOC = "--     front      as mut, of the first records of the slice; the others stand behind the callee's last list\n"
FRONT = (
    "use @LIBRARY@Front.{front, refronted, front_size, LentFront, lend_front, back_front}\n")


def name_of(shape):
    """The name of a shape's combinator."""
    slices = "_".join(LETTERS[letter] for letter in shape.rstrip("+")) or "plain"
    return f"calls_{slices}{'_last' if shape.endswith('+') else ''}"


def shapes_named(text):
    """The shapes whose combinators a text names."""
    letters = {word: letter for letter, word in LETTERS.items()} | {"plain": "", "last": "+"}
    return {"".join(letters[word] for word in name.split("_")) for name in re.findall(r"\bcalls_([a-z_]+)(?![\w-])", text)}


def file_text(template, shapes):
    """The file of the combinators for shapes; template: its beginning, with gaps."""
    shapes = sorted(shapes, key=lambda shape: (len(shape), shape))
    last = [shape for shape in shapes if shape.endswith("+")]
    inner = [shape for shape in shapes if shape not in last]
    text = template.replace("@SETTLES@", ", settles" if last else "")
    text = text.replace("@LAST@", ", calls_at_last" if last else "")
    has_fronts = any("f" in shape for shape in shapes)
    text = text.replace("@LE@", ", ◌≤◌" if has_fronts else "")
    text = text.replace("@DOC@", DOC if has_fronts else "")
    text = text.replace("@FRONT@", FRONT if has_fronts else "")
    text += "\n".join(signature_text(taken) for taken in dict.fromkeys(map(taken_by, shapes)))
    text += "\n" + OPEN + "\n".join(Combinator(shape).text() for shape in inner)
    if last:
        text += "\n" + OPEN.replace(" {rest : Body}", "") + "\n".join(Combinator(shape).text() for shape in last)
    return text


# ---- the callee's signature
def taken_by(shape):
    """How the callee takes the slices, whatever the caller's own are: `s` or `m` for each."""
    return shape.rstrip("+").replace("v", "s").replace("f", "m")


def signature_name(taken):
    return ("_".join(LETTERS[letter] for letter in taken) or "plain") + "_ended"


def signature_text(taken):
    """The signature of a callee that takes slices so."""
    count, name = len(taken), signature_name(taken)
    rows = "".join(f"R{subscript(index)} " for index in range(count))
    slots = "".join(f"{LETTERS[letter]}_slice_of ({index} ∷ []) tt (plain (λ _. R{subscript(index)})) ∷ "
                    for index, letter in enumerate(taken))
    signature = f"record {{ lifetimes = {count}; outlives = []; params = {slots}ss; result = plain (λ _. Q) }}"
    return (
        f"abbrev pub {name} : ({rows}Q : RattleType) (ss : List (Slot {count})) → Kepts ss → Ended\n"
        f"{name} {rows}Q ss ks = record {{ signature = {signature}; kept = {tuple_of(['yes'] * count, 'ks')} }}\n")


class Passed:
    """A slice of a call. The variables of it end in its index."""

    def __init__(self, index, letter):
        self.index, self.mark = index, subscript(index)
        self.is_shared, self.is_front = letter == "s", letter == "f"
        self.is_changed = letter == "m" or self.is_front
        # labels of the context
        self.token, self.slice = f"token {index}", f"slice {index}"
        self.kept, self.final = f"kept {index}", f"final {index}"
        # the lifetime and the share that the callee gets; of a `&mut [R]` it gets a ghost name too
        self.lifetime = f"κ{self.mark}" if self.is_shared else f"ν{self.mark} ∷ []"
        self.share = f"q{self.mark}" if self.is_shared else "full_share"
        self.value = f"slice_val (b{self.mark}, o{self.mark}) n{self.mark}"
        # what the callee gets of it: its machine value, its list and its length
        self.lent_size = f"m{self.mark}" if self.is_front else f"n{self.mark}"
        self.lent_value = f"slice_val (b{self.mark}, o{self.mark}) {self.lent_size}"
        self.lent_list = f"(front m{self.mark} ys{self.mark})" if self.is_front else f"ys{self.mark}"
        self.lifetime_variable = part("κs", index)
        self.last_list = part("ws", index)

    def marked(self, text):
        """The text with the index behind each `#`."""
        return text.replace("#", self.mark)

    @property
    def lent(self):
        """The reference that the callee gets."""
        return self.marked(f"ref b# o# δ# {self.lent_list}" if self.is_changed else "seen b# o# ys#")

    @property
    def variables(self):
        """What a combinator is given of the caller's own: where it lies, its ghost name and its list, as binders."""
        name = "" if self.is_shared else "(γ# : GName) "
        size = " → (m# : ℕ) → m# ≤ n#" if self.is_front else ""
        text = "{κ# : Lft} {q# : Share} (b# o# : ℕ) " + name + "(ys# : List R#.Denot) (n# : ℕ) → length ys# ≡ n#" + size
        return self.marked(text + "".join(f" → {law}" for _, law in self.laws))

    @property
    def given(self):
        """The names of these."""
        name = "" if self.is_shared else "γ# "
        size = "m# le# " if self.is_front else ""
        laws = "".join(f"{law} " for law, _ in self.laws)
        return self.marked("{κ#} {q#} b# o# " + name + "ys# n# en# " + size + laws)

    @property
    def laws(self):
        """What is asked of the elements' type, [(name, statement)]: that what a `&` holds can be had twice, or be made."""
        if self.is_shared:
            return [("laws#", "RowLaws R#")]
        if self.is_changed:
            return []
        return [("shares#", "Shares 𝓛 R# R#.lives"), ("within#", "Incl κ# R#.lives")]

    def owned(self, kind, lifetime, reference, value=None):
        return f"({kind} (named 0) {lifetime} R{self.mark}).own_val ({reference}) ({value or self.value} ∷ [])"

    def of_caller(self, elements):
        """The caller's slice, with its token."""
        kind = "ShrSlice" if self.is_shared else "MutSlice"
        elements = "(refronted m# ys# zs#)" if self.is_front and elements == "zs" else f"{elements}#"
        reference = f"seen b# o# {elements}" if self.is_shared else f"ref b# o# γ# {elements}"
        owned = self.owned(kind, self.marked("κ#"), self.marked(reference))
        return self.marked(f"‵ (flft κ# q#) ∷ ‵ ({owned}) ∷ ")

    def of_callee(self):
        """The slice that the callee gets."""
        kind = "MutSlice" if self.is_changed else "ShrSlice"
        return self.owned(kind, self.lifetime_variable, self.lent, self.lent_value)

    def kept_back(self):
        """What the caller keeps while the callee has the slice."""
        if self.is_shared:
            return f"‵ ({self.owned('ShrSlice', self.marked('κ#'), self.marked('seen b# o# ys#'))}) ∷ "
        if self.is_front:
            return self.marked(f"‵ (LentFront R# κ# {self.lifetime_variable} q# γ# b# o# δ# m# ys#) ∷ ")
        if self.is_changed:
            return self.marked(f"‵ (LentAgain R# κ# {self.lifetime_variable} q# γ# b# o# δ# ys#) ∷ ")
        return self.marked(f"‵ (Viewed R# κ# {self.lifetime_variable} q# γ# b# o# ys#) ∷ ")

    def lend(self):
        """The step that lends it."""
        if self.is_shared:
            return self.marked(f"lend_shr t R# laws# (seen b# o# ys#) ({self.value} ∷ []) (")
        if self.is_front:
            return self.marked("lend_front t tt R# b# o# γ# ys# n# en# m# le# (λ ν# δ# room#.")
        if self.is_changed:
            return self.marked("lend_mut t tt R# b# o# γ# ys# n# en# (λ ν# δ# room#.")
        return self.marked("lend_view t tt R# b# o# γ# ys# n# en# shares# within# (λ ν# room#.")

    def take_back(self):
        """The step that has it back, from the callee's token and what was kept."""
        if self.is_front:
            return self.marked(f"back_front t tt R# b# o# γ# ys# n# en# m# ν# δ# room# {self.last_list} l# (")
        if self.is_changed:
            return self.marked(f"back_mut t tt R# b# o# γ# ys# n# en# ν# δ# room# {self.last_list} l# (")
        return self.marked("back_view t tt R# b# o# γ# ys# n# en# ν# room# (")


class Combinator:
    """The statement and the proof of a shape's combinator."""

    def __init__(self, shape):
        self.name, self.is_last = name_of(shape), shape.endswith("+")
        self.slices = [Passed(index, letter) for index, letter in enumerate(shape.rstrip("+"))]
        self.changed = [each for each in self.slices if each.is_changed]
        self.count = len(self.slices)
        self.rows = "".join(f"R{each.mark} " for each in self.slices)
        self.signature = f"({signature_name(taken_by(shape))} {self.rows}Q ss ks)"
        self.contract = f"contract_of 𝓛 {self.signature} c"
        # what depends on the lifetimes and the ghost names that the callee gets: over variables, and at this call
        deltas = "".join(f" δ{each.mark}" for each in self.changed)
        self.binder = f"(κs : Lfts {self.count}) "
        self.binders = self.binder + (f"({deltas.strip()} : GName) " if self.changed else "")
        self.at = f"κs{deltas}"
        self.lifetimes = tuple_of([each.lifetime for each in self.slices])
        self.here = self.lifetimes + deltas
        # the arguments: the slices, and the plain ones behind them
        plain, plain_values = ("a κs", "vss κs") if self.slices else ("(a κs)", "(vss κs)")
        self.arguments = tuple_of([each.lent for each in self.slices], plain)
        machine_values = tuple_of([f"{each.lent_value} ∷ []" for each in self.slices], plain_values)
        shares = tuple_of([each.share for each in self.slices])
        self.ghost = f"((κs, {shares}, tt, {self.arguments}, {machine_values}), g {self.at})"
        self.promise = "ψ r" + "".join(f" {each.last_list}" for each in self.changed)

    def text(self):
        return "\n".join([*self.statement(), *self.proof(), "    where", *self.definitions()]) + "\n"

    # ---- the statement
    def context(self, changed_to):
        slices = [each.of_caller(changed_to if each.is_changed else "ys") for each in self.slices]
        return f"({''.join(slices)}Γ)" if self.slices else "Γ"

    def for_changed(self, text, of_front=None):
        return "".join(each.marked(of_front if of_front and each.is_front else text) for each in self.changed)

    def statement(self):
        end, arguments, binder, binders, at = self.signature, self.arguments, self.binder, self.binders, self.at
        kept = "‵ ftrue ∷ " * (self.count - 1) + "".join(each.kept_back() for each in self.slices)
        values = "".join(f"{each.lent_value} ∷ " for each in self.slices) + "flat (types_at ss κs) (vss κs)"
        if self.is_last:
            lands, code = "settles E d u p", "(call f xs d)"
        else:
            lands, code = "lands C Λ E d u rest p", "(seq (call f xs d) rest)"
        return [
            f"  pub {self.name} : K → FmC 𝓤 H 𝓛.laws C → ({self.rows}Q : RattleType) "
            f"(ss : List (Slot {self.count})) (ks : Kepts ss) (c : Clauses 𝓤 {end}) → Triple 𝓤 (C f) ({self.contract})",
            *(f"      → {each.variables}" for each in self.slices),
            f"      → (a : {binder}→ Denots (types_at ss κs)) (vss : {binder}→ Valss (types_at ss κs)) "
            f"→ ({binder}→ ent 𝓤 (emp 𝓤) (sem 𝓛 (owns (types_at ss κs) (a κs) (vss κs))))",
            f"      → (g : {binders}→ (c κs {arguments}).ghost) "
            f"→ ({binders}→ ent 𝓤 (emp 𝓤) ((c κs {arguments}).requires (g {at})))",
            f"      → (ψ : Q.Denot → {self.for_changed('List R#.Denot → ')}Type 0) "
            f"→ ({binders}(r : Q.Denot) (ws : Lasts {end} κs {arguments}) "
            f"→ ent 𝓤 ((c κs {arguments}).ensures (g {at}) r (at_exit {end} κs {arguments} ws)) "
            f"(fact 𝓤 ({self.promise})))",
            f"      → ({binders}→ Opds K 𝓛 (raw (({self.contract}).pre {self.ghost}) ∷ {kept}Γ) E xs ({values}))",
            f"      → ((u : Val) (r : Q.Denot) {self.for_changed('(zs# : List R#.Denot) ')}"
            f"→ {self.for_changed('length zs# ≡ n# → ', 'length zs# ≡ m# → ')}ψ r{self.for_changed(' zs#')} "
            f"→ Is Q r (u ∷ []) "
            f"→ Seq K 𝓛 {self.context('zs')} ({lands}))",
            f"      → Seq K 𝓛 {self.context('ys')} (runs C Λ E {code} p)",
        ]

    # ---- the proof
    def proof(self):
        """The slices are lent, the callee's contract is used, and the slices are had back."""
        own = "".join(each.given for each in self.slices)
        context = Context([label for each in self.slices for label in (each.token, each.slice)], "t")
        lines = [*self.lending(context), *self.calling(context), self.answer(context), self.taking_back(context)]
        open_brackets = sum(line.count("(") - line.count(")") for line in lines)
        return [
            f"  {self.name} t fm {self.rows}Q ss ks c known {own}a vss own g req ψ ens os k =",
            *(f"      {line}" for line in lines[:-1]),
            f"      {lines[-1]}{')' * open_brackets}",
        ]

    def lent(self):
        """What the callee gets, in the order of its precondition."""
        return [each.token for each in self.slices] + [each.slice for each in self.slices]

    def lending(self, context):
        """The loans, and all that is lent joined to the callee's precondition."""
        if not self.slices:
            context.labels.insert(0, "before")
            return ["use0 𝓛 (raw (pre tt)) (goes tt) $"]
        lines = []
        for each in self.slices:
            lines.append(context.bring(each.token, each.slice) + each.lend())
            context.labels.insert(context.labels.index(each.slice) + 1, each.kept)
        lent = self.lent()
        line = context.bring(*reversed(lent)) + "move t (1 ∷ 0 ∷ []) $ fjoin t $ " * (len(lent) - 1)
        context.replace(len(lent), "before")
        line += f"use1 𝓛 (raw (pre {self.here})) (goes {self.here}) $ "
        # with these as many items are in front of the locals as before the call, so that a local has one position
        pads = [f"pad {index}" for index in range(self.count - 1)]
        line += "nothing t $ " * len(pads)
        context.replace(0, *reversed(pads))
        line += context.bring("before", *pads, *(each.kept for each in self.slices))
        return [*lines, line.rstrip()]

    def calling(self, context):
        """The call, and what the contract says behind it."""
        end, arguments, here, lifetimes = self.signature, f"(args {self.here})", self.here, self.lifetimes
        tokens = "‵ ftrue"
        for each in reversed(self.slices):
            lifetime = each.lifetime if each.is_shared else f"({each.lifetime})"
            tokens = f"(‵ (flft {lifetime} {each.share}) ⊛ {tokens})"
        ensured = f"raw (ensured 𝓛 {end} c {lifetimes} {arguments} (g {here}) r)"
        at_exit = f"raw ((c {lifetimes} {arguments}).ensures (g {here}) r (at_exit {end} {lifetimes} {arguments} ws))"
        last_lists = f"‵ (lasts {end} {lifetimes} {arguments} ws)"
        context.replace(1, "lists", "answer")
        return [
            f"calls_at{'_last' if self.is_last else ''} t fm ({self.contract}) known (y {here}) (os {here}) (λ u.",
            f"use1 𝓛 (later (some (λ (r : Q.Denot). ({tokens} ⊛ ‵ (Q.own_val r (u ∷ []))) ⊛ {ensured}))) (id⊢ 𝓤 _) $ "
            "await t tt $ pick t (λ r. split t $ move t (1 ∷ []) $",
            f"use1 𝓛 (some (λ (ws : Lasts {end} {lifetimes} {arguments}). {last_lists} ⊛ {at_exit})) (id⊢ 𝓤 _) $ "
            "pick t (λ ws. split t $ move t (1 ∷ []) $",
            f"use1 𝓛 (raw (fact 𝓤 ({self.promise}))) (ens {here} r ws) $ heard t ({self.promise}) (λ e.",
        ]

    def answer(self, context):
        """The last lists, that the result is what its type says, and the tokens."""
        line = ""
        for each in self.slices:
            line += context.bring("lists") + "fsplit t $ "
            if each.is_changed:
                # what is left of it: its last list, the list's length, and the borrow that it was
                line += each.marked("fsplit t $ fsplit t $ move t (1 ∷ []) $ feq_l t (λ l#. move t (1 ∷ []) $ drop t $ ")
                context.replace(1, each.final, "lists")
            else:
                line += "drop t $ "
        line += context.bring("lists") + "drop t $ "
        context.replace(1)
        line += context.bring("answer") + "split t $ move t (1 ∷ []) $ "
        line += "peeks t Q (Is Q) (shows 𝓛 Q) r (u ∷ []) (λ is. drop t $ "
        context.replace(1, "tokens")
        for each in self.slices:
            line += context.bring("tokens") + "split t $ "
            context.replace(1, each.token, "tokens")
        line += context.bring("tokens") + "drop t $"
        context.replace(1)
        return line

    def taking_back(self, context):
        """The slices are had back, in the order that they had before the call, and what is behind it goes on."""
        line = ""
        for each in self.slices:
            if each.is_shared:
                context.labels[context.labels.index(each.kept)] = each.slice
                continue
            loan = [each.token, each.kept, each.final] if each.is_changed else [each.token, each.kept]
            line += context.bring(*loan) + each.take_back()
            context.replace(len(loan), each.token, each.slice)
        for index in range(self.count - 1):
            line += context.bring(f"pad {index}") + "drop t $ "
            context.replace(1)
        line += context.bring(*(label for each in self.slices for label in (each.token, each.slice)))
        lists = "".join(f" {each.last_list}" for each in self.changed)
        lengths = self.for_changed(" (l# ∙ en#)", " (l# ∙ front_size m# ys# n# en# le#)")
        return f"{line}k u r{lists}{lengths} e is"

    # ---- what the proof names
    def definitions(self):
        """The callee's arguments, its precondition, and that what is lent makes it."""
        binders, at = self.binders, self.at
        return [
            f"      args : {binders}→ Args {self.signature}.signature κs",
            f"      args {at} = {self.arguments}",
            "",
            f"      y : {binders}→ ({self.contract}).Ghost",
            f"      y {at} = {self.ghost}",
            "",
            f"      pre : {binders}→ SProp 𝓤",
            f"      pre {at} = ({self.contract}).pre (y {at})",
            "",
            *self.going(),
        ]

    def going(self):
        """That the tokens, the slices, the plain arguments and the fact that is required make the precondition."""
        context = Context([])
        if self.slices:
            formulas = [f"flft {each.lifetime_variable} {each.share}" for each in self.slices]
            formulas += [each.of_callee() for each in self.slices]
            formula = formulas.pop()
            for other in reversed(formulas):
                formula = f"fsep ({other}) ({formula})"
            claim, begin = f"{self.binders}→ ent 𝓤 (sem 𝓛 ({formula}))", f"qed 𝓛 (‵ ({formula}) ∷ []) ∵ "
            *others, last = self.lent()
            context.labels = ["joined"]
            for label in others:
                begin += context.bring("joined") + "fsplit ! $ "
                context.replace(1, label, "joined")
            context.labels[context.labels.index("joined")] = last
        else:
            claim, begin = "(κs : Lfts 0) → ent 𝓤 (emp 𝓤)", "qed 𝓛 [] ∵ "
        line = f"use0 𝓛 (raw ((c κs {self.arguments}).requires (g {self.at}))) (req {self.at}) $ "
        line += "use0 𝓛 (‵ (owns (types_at ss κs) (a κs) (vss κs))) (own κs) $ "
        context.replace(0, "plain", "required")
        for each in reversed(self.slices):
            line += context.bring(each.slice, "plain") + "fjoin ! $ "
            context.replace(2, "plain")
        line += "nothing ! $ "
        context.replace(0, "tokens")
        for each in reversed(self.slices):
            line += context.bring(each.token, "tokens") + "join ! $ "
            context.replace(2, "tokens")
        line += context.bring("tokens", "plain", "required") + "join ! $ frame ! $ done !"
        return [
            f"      goes : {claim} (pre {self.at})",
            f"      goes {self.at} =",
            f"          {begin.rstrip()}",
            f"          {line}",
        ]
