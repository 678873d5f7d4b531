"""The file of a walk: what is said of the function before its steps, and how the contract follows from them."""
import combinators
from parameters import Parameter
from script import Context
from terms import list_of, part, subscript, tuple_of

GIVEN = "{𝓤 : Ura M} (𝓛 : Logic 𝓤) (mem : Memory → SProp 𝓤) (run : Routine → Fun 𝓤)"
RUNS = "(WpFn 𝓤 𝓛.H 𝓣.C 𝓣.Λ code.function)"
TABLES = "(tables 𝓤 𝓛.H 𝓜 𝓡 𝓡.env)"


def first_line(function):
    """The line by which a file says that walkgen writes it."""
    return (f"-- `{function.crate}::{function.name}` meets its contract: a walk of its MIR, written by walkgen from "
            "`walk.txt`, beside this file.")


class Proof:
    """The text of a Proof.antt, of a walk whose steps are written."""

    def __init__(self, walk):
        self.walk, self.function, self.sources = walk, walk.function, walk.sources
        self.name = walk.function.name
        self.face = f"{walk.sources.tag(walk.function)}-F"
        self.clauses = f"({self.face}.clauses 𝓛 mem run)"
        self.parameters, slices = [], 0
        for index, (name, type_) in enumerate(walk.parameters):
            self.parameters.append(Parameter(name, type_, index, slices))
            slices += type_.kind == "slice"
        self.slices = [each for each in self.parameters if each.is_slice]
        self.changed = [each for each in self.slices if each.is_changed]
        self.lifetimes = tuple_of([f"κ{each.mark}" for each in self.slices])
        self.shares = tuple_of([f"q{each.mark}" for each in self.slices])
        self.machine_values = list_of(each.machine_value for each in self.parameters)
        self.result = walk.local_types[0]
        self.has_result = self.result.kind != "unit"

    def text(self):
        """The whole file."""
        author, lines = self.walk.author, []
        for heading, texts in (
                ("-- ---- what the local arrays begin with", self.walk.array_lemmas.values()),
                (None, author.file.lemmas),
                ("-- ---- what the author says, at each place", author.lemmas.values())):
            block = "\n".join(texts).strip("\n")
            if block:
                lines += [heading, block, ""] if heading else [block, ""]
        lines += [*self.entry(), *self.exits(), *self.steps(), *self.meets(), *self.statement()]
        text = "\n".join(lines) + "\n"
        uses = self.walk.names.lines(text, self.walk.types.imports(), self.uses())
        return f"{first_line(self.function)}\n-- Assumes nothing.\n{uses}\n{text}"

    def uses(self):
        """The `use` lines of the combinators, of the callees and of the function itself."""
        own = self.sources.modules(self.sources.crate, "proofs")
        steps = sorted({combinators.name_of(shape) for shape in self.walk.shapes})
        lines = [f"{self.sources.library}Calls.{{contract_of, {', '.join(steps)}}}"]     # `use ..Calls.{}`, if there is no call
        for callee in self.walk.callees:
            contract = f"{self.sources.modules(callee.crate, 'specs')}contracts.{callee.dotted}"
            module = self.sources.modules(callee.crate, "proofs") + callee.dotted
            tag, symbol = self.sources.tag(callee), self.sources.symbol(callee)
            lines += [f"{contract} as {tag}-F", f"{module}.Symbol.{{name as {symbol}}}", f"{module}.Met as {tag}-thm"]
        contract = f"{self.sources.modules(self.sources.crate, 'specs')}contracts.{self.function.dotted}"
        module, symbol = own + self.function.dotted, self.sources.symbol(self.function)
        lines += [f"{contract}.Key.{{name as {symbol}}}", f"{contract} as {self.face}"]
        return lines + [f"{module}.Statement as stated", f"{module}.Code as code"]

    # ---- what the walk starts from
    def entry(self):
        """The arguments and their machine values, and what the contract says on exit."""
        given = [f"{{M : Type 1}} {GIVEN}"]
        if self.slices:
            given.append(f"({' '.join(f'κ{each.mark}' for each in self.slices)} : Lft)")
            given.append(f"({' '.join(f'q{each.mark}' for each in self.slices)} : Share)")
        given += [each.binder for each in self.parameters]
        argument_type = "Unit {0}"
        for each in reversed(self.parameters):
            argument_type = f"{each.argument_type} × ({argument_type})"
        walked = f"walk_of 𝓛 {self.face}.ended stayed {self.clauses}"
        return [
            f"abbrev stayed : Stays {self.face}.ended.signature.params {self.face}.ended.kept",
            f"stayed = {tuple_of([each.stays for each in self.parameters])}",
            "",
            f"module _ {' '.join(given)} where",
            "  abbrev Arg : Type 0",
            f"  Arg = {argument_type}",
            "",
            "  abbrev args_of : Arg",
            f"  args_of = {tuple_of([each.argument for each in self.parameters])}",
            "",
            f"  abbrev vals_of : Vals {self.face}.signature {self.lifetimes}",
            f"  vals_of = {tuple_of([f'{each.machine_value} ∷ []' for each in self.parameters])}",
            "",
            f"  abbrev bound_of : ({walked}).Ghost",
            f"  bound_of = (({self.lifetimes}, {self.shares}, tt, args_of, vals_of), tt)",
            "",
            "  abbrev Post : Val → SProp 𝓤",
            f"  Post = ({walked}).post bound_of",
            "",
        ]

    def exits(self):
        """The lemma by which every `return` ends: from the lists and the result on exit to the postcondition."""
        variables = [f"({each.on_exit} : {each.denotation})" for each in self.changed]
        facts = [f"length {each.on_exit} ≡ length {each.name}" for each in self.changed]
        names = [each.on_exit for each in self.changed] + [f"n-{each.on_exit}" for each in self.changed]
        said = "empties ! $"
        if self.function.ensures:
            exits = {each.name: each.on_exit for each in self.changed}
            facts.append(self.walk.own_clause(self.function.ensures, exits, "r"))
            names.append("e")
            said = "says ! e $"
        answer, value = "vunit tt", "vunit"
        if self.has_result:
            variables = ["(u : Val)", f"(r : {self.result.denotation})", *variables]
            facts.append(f"Is {self.result.row} r (u ∷ [])")
            names = ["u", "r", *names, "is"]
            answer, value = "u r", "u"
        context = list_of(item for each in self.slices
                          for item in ([each.token, each.owned_on_exit] if each.is_changed else [each.token]))
        signature = "".join(f"{each} → " for each in ([" ".join(variables)] if variables else []) + facts)
        last = tuple_of([each.on_exit if each.is_changed else "tt" for each in self.parameters])
        lengths = tuple_of([f"n-{each.on_exit}" if each.is_changed else "tt" for each in self.parameters])
        ends = f"ends_at 𝓛 {self.face}.ended stayed {self.clauses} bound_of {answer} {last} {lengths}"
        return [
            f"  exits : {signature}ent 𝓤 (⋆ 𝓛 ({context})) (Post {value})",
            f"  {' '.join(['exits', *names])} =",
            f"      qed 𝓛 ({context}) ∵",
            f"      suffices ! _ ({ends}) $ {said}",
            f"      {self.gathered()}",
            "",
        ]

    def gathered(self):
        """On exit: the tokens are put together, then the slices, then the result."""
        context = Context(["tokens"])
        for each in self.slices:
            context.labels.append(f"token {each.name}")
            if each.is_changed:
                context.labels.append(f"slice {each.name}")
        text = "nothing ! $ "
        for each in reversed(self.slices):
            text += context.bring(f"token {each.name}", "tokens") + "join ! $ "
            context.replace(2, "tokens")
        text += "frame ! $ nothing ! $ "
        context.replace(1, "owned")
        for each in reversed(self.parameters):
            if each.is_changed:
                text += context.bring(f"slice {each.name}", "owned") + "fjoin ! $ "
                context.replace(2, "owned")
            else:
                text += "nothing ! $ fjoin ! $ "
        row = self.result.row
        result = f"owned ! {row} (Is {row}) ({self.result.makes}) r _ is" if self.has_result else (
            "feq_i ! (List Val) (vunit ∷ []) (vunit ∷ []) refl")
        return f"{text}frame ! $ {result} $ done !"

    # ---- the walk
    def contract_of(self, callee):
        tag, symbol = self.sources.tag(callee), self.sources.symbol(callee)
        return f"Triple 𝓤 (𝓣.C {symbol}) (contract_of 𝓛 {tag}-F.ended ({tag}-F.clauses 𝓛 mem run))"

    def steps(self):
        """The walk: its statement, the way into the function's body, and the steps."""
        tags = {self.sources.tag(callee): callee for callee in self.walk.callees}
        known = "".join(f" (known-{tag} : {self.contract_of(callee)})" for tag, callee in tags.items())
        facts = [(name, statement) for _, name, statement in self.walk.parameter_facts()]
        if self.walk.requires:
            facts.append(("req", self.walk.requires))
        entry = f"on_entry 𝓛 {self.face}.signature {self.lifetimes} {self.shares} args_of vals_of"
        goal = f"WpFn 𝓤 𝓛.H 𝓣.C 𝓣.Λ code.function ({self.machine_values}) Post"
        *lines, last = [*self.way_in(), *self.walk.script.lines]
        return [
            f"  module _ (𝓣 : Tables 𝓤 𝓛.H) (fm : FmC 𝓤 𝓛.H 𝓛.laws 𝓣.C){known} where",
            f"    walk : {''.join(f'{statement} → ' for _, statement in facts)}ent 𝓤 ({entry}) ({goal})",
            f"    {' '.join(['walk', *(name for name, _ in facts)])} =",
            *(f"        {line}" for line in lines),
            f"        {last}{')' * len(self.walk.local_types)}",
            "",
        ]

    def way_in(self):
        """The locals are allocated, the arguments passed, and the context is brought in its order."""
        tokens = "‵ ftrue"
        for each in reversed(self.slices):
            tokens = f"({each.token} ⊛ {tokens})"
        owned = f"‵ (owns ({list_of(each.owned_type for each in self.parameters)}) args_of vals_of)"
        count = len(self.walk.local_types)
        passed = []
        for each in self.parameters:
            value = self.walk.parameter_value(each.name, each.type)
            passed.append(f"pass1 ! (init ! {2 * (count - 2 - each.index)} refl {value.typed}) $")
        heads = "".join(f"{each.name}'s token; {each.name}; " for each in self.slices)
        return [
            f"qed 𝓛 ({tokens} ∷ {owned} ∷ []) ∵ enter ! 𝓣.C 𝓣.Λ code.function ({self.machine_values}) _ $",
            " ".join(f"alloc1 ! (λ l{subscript(local)}." for local in range(count)) + " alloc0 ! $ params1 ! $",
            " ".join([*passed, "pass0 ! $"]),
            self.apart(count),
            f"-- [{heads}_{count - 1}; …; _0; …]",
        ]

    def apart(self, count):
        """On entry: the slices are taken out of the parameters, and each token out of the tokens."""
        context = Context([f"cell {place}" for place in range(2 * count)] + ["tokens", "owned"])
        text = ""
        for each in self.parameters:
            text += context.bring("owned") + "fsplit ! $ "
            context.replace(1, f"slice {each.name}", "owned")
            if not each.is_slice:
                text += "drop ! $ "
                context.replace(1)
        text += context.bring("owned") + "drop ! $ "
        context.replace(1)
        for each in self.slices:
            text += context.bring("tokens") + "split ! $ "
            context.replace(1, f"token {each.name}", "tokens")
        text += context.bring("tokens") + "drop ! $ "
        context.replace(1)
        text += context.bring(*(f"{what} {each.name}" for each in self.slices for what in ("token", "slice")))
        return text.strip()

    # ---- to the contract
    def meets(self):
        """The walk at the contract's own arguments, and that the function meets its contract."""
        face, clauses, name = self.face, self.clauses, self.name
        arrows = "".join(f"{self.contract_of(callee)} → " for callee in self.walk.callees)
        known = [f"known-{self.sources.tag(callee)}" for callee in self.walk.callees]
        spelled = tuple_of([each.spelled for each in self.parameters])
        tells = tuple_of([each.tells for each in self.parameters])
        handed = ["𝓛 mem run"]
        handed += [part(variable, each.slice_index) for variable in ("κs", "qs") for each in self.slices]
        handed += [each.handed for each in self.parameters] + ["𝓣 (fm_of 𝓤 𝓛.H 𝓛.laws 𝓣)", *known]
        handed += [self.parameters[index].handed_fact for index, _, _ in self.walk.parameter_facts()]
        before = "needs 𝓤 _ _" if self.function.requires else "via 𝓤 _ (fst∗ 𝓤 _ (emp 𝓤))"
        goes = tuple_of([each.goes(len(self.slices)) for each in self.parameters])
        walks = " ".join([f"{name}-walks 𝓛 mem run 𝓣", *known])
        return [
            f"module _ {{M : Type 1}} {GIVEN} where",
            f"  {name}-walks : (𝓣 : Tables 𝓤 𝓛.H) → {arrows}Walks 𝓛 {face}.ended stayed {RUNS} {clauses}",
            f"  {' '.join([f'{name}-walks 𝓣', *known])} =",
            f"      walked 𝓛 {face}.ended stayed {clauses} {RUNS} (λ κs. {spelled}) (λ κs. {tells})",
            f"      (λ κs qs bounds a g are. {before} (walk {' '.join(handed)}))",
            "",
            f"{name}-meets : {{M : Type 1}} {GIVEN} (𝓣 : Tables 𝓤 𝓛.H) "
            f"→ {arrows}Meets 𝓛 {face}.signature {RUNS} ({face}.spec 𝓛 mem run)",
            f"{' '.join([f'{name}-meets {{𝓤 = 𝓤}} 𝓛 mem run 𝓣', *known])} =",
            f"    walk_Meets 𝓛 {face}.ended stayed {goes}",
            f"    {clauses} {RUNS} (WpFn-mono 𝓤 𝓛.H 𝓛.laws 𝓣 code.function) ({walks})",
            "",
        ]

    def statement(self):
        """What the checker asks for: the callees' theorems are cited, and the function is entered in the table."""
        name, face, symbol = self.name, self.face, self.sources.symbol(self.function)
        triple = f"(triple_of 𝓛 {face}.signature ({face}.spec 𝓛 𝓜.mem 𝓡.returns))"
        lines = [
            f"pub {name}_spec : {{M : Type 1}} → stated.statement M",
            "unfolding tables_of",
            f"{name}_spec 𝓤 𝓛 𝓜 𝓡 wired =",
            f"    entered 𝓤 𝓛.H {triple}",
            f"    {TABLES}.C {TABLES}.Λ {symbol} code.function (code.unfolded 𝓤 𝓛.H 𝓜 𝓡 wired)",
            f"    ({name}-meets 𝓛 𝓜.mem 𝓡.returns (tables_of 𝓤 𝓛.H 𝓜 {TABLES})",
        ]
        for callee in self.walk.callees:
            call = f"code.calls-{callee.path} 𝓡.env wired"
            lines.append(f"    ({self.sources.tag(callee)}-thm.met 𝓤 𝓛 𝓜 𝓡 ({call}))")
        return [*lines[:-1], f"{lines[-1]})"]
