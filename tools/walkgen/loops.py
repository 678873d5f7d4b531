"""A loop that counts, `while j < d { ..; j = j + 1; }`, by an invariant that the author gives.

The loop's rule wants the whole context as a function of a state x. The state is the counter, what a turn changes, and
the facts about these: (j, (carried .., (j ≤ d, (facts .., invariant)))). The text of a turn is written with the
author's names for the parts, which then give way to the projections of x.
"""
import mir
import operands
from plan import Behind, Value
from refusal import Refused
from terms import enclosed, part, replaced, subscript
from value_types import Type

NO_FACT = "Unit {0}"


class CarriedLocal:
    """A local that a turn changes."""

    def __init__(self, name, local, type_):
        self.name, self.source, self.local, self.type = name, f"_{local}", local, type_
        self.denotation = type_.denotation
        self.fact_name = f"{'is' if type_.is_declared else 'fit'}-{name}"
        if type_.is_declared:
            self.fact = type_.is_spelled(name)
        else:
            self.fact = f"{name} < 2 ^ {type_.bits}" if type_.kind == "num" else NO_FACT

    def term_in(self, state):
        return state.locals[self.local].term

    def proof_in(self, state):
        return "tt" if self.fact == NO_FACT else state.locals[self.local].proof

    def begin(self, state):
        """A turn begins with the state's own part."""
        state.locals[self.local] = Value(self.type, self.name, "refl" if self.fact == NO_FACT else self.fact_name)


class CarriedSlice:
    """A slice that a turn changes."""

    def __init__(self, name, changed):
        self.name, self.source = name, changed.name
        self.denotation = f"List {changed.type.element.denotation}"
        self.fact_name, self.fact = f"n-{name}", f"length {name} ≡ {changed.length}"

    def term_in(self, state):
        return state.slices[self.source].list

    def proof_in(self, state):
        return state.slices[self.source].same_length

    def begin(self, state):
        """A turn begins with the state's own part."""
        changed = state.slices[self.source]
        changed.list, changed.same_length = self.name, self.fact_name


class Loop:
    """A loop of a walk, from the state in front of it."""

    def __init__(self, walk, block, state):
        if walk.loop:
            raise Refused("a loop in a loop: let the inner one be a function of its own")
        self.walk = walk
        number = walk.number("loop")
        self.mark = "" if number == 1 else str(number)
        self.prefix, self.variable = f"loop{self.mark}.", f"x{self.mark}"
        self.turns_ended = 0
        self.forget_references(state)
        self.read(block)
        self.bound = self.read_bound(state)
        self.filled = [local for local, value in state.locals.items() if value is not None]
        self.order = [name for name, _ in walk.slice_parameters]
        self.order += [name for name in state.slices if name not in self.order]
        self.name_parts(state)
        self.state_facts()

    def forget_references(self, state):
        """Reborrows and units are given up in front of a loop."""
        texts = []
        for local in reversed(range(len(self.walk.parameters) + 1, len(self.walk.local_types))):
            value = state.locals.get(local)
            if value is not None and value.type.kind in ("ref", "unit", "slice"):
                texts.append(f"forget ! {self.walk.position(local, state)} refl $")
                state.locals[local] = None
        self.walk.script.write(" ".join(texts))

    # ---- reading
    def read(self, block):
        """The test, the turn and the counter."""
        inner = block[1]
        if mir.kind_of(inner) != "loop":
            raise Refused(
                "a block that is no loop, as a test of two parts makes (`a && b`, `a || b`): nest the `if`s, or let a "
                "function of its own answer the bool")
        statements = mir.statements(inner[1])
        self.test, self.turn = statements[0], statements[2:]
        if not (is_test(self.test) and self.turn and mir.kind_of(statements[1]) == "cond" and statements[1][2] == "skip"):
            raise Refused("a loop whose test is not `j < d` on two numbers in locals")
        self.counter = mir.local_of(self.test[2][2][1])

    def read_bound(self, state):
        tree = self.test[2][3]
        if mir.kind_of(tree) == "copy" and mir.local_of(tree[1]) in self.written():
            raise Refused("a loop whose bound is changed in a turn")
        return operands.operand(self.walk, tree, state).value

    def name_parts(self, state):
        """The counter and what a turn changes, by the author's names."""
        if state.locals[self.counter].term != "0":
            raise Refused("a loop whose counter does not begin at 0: count from 0, and add where it is used")
        self.count = self.walk.author.says(self.prefix + "count", f"j{self.mark}")
        in_source = {other: name for name, other in self.walk.proof_names.items()}
        changed = self.changed_slices(state)
        slices = {in_source.get(name, name): state.slices[name] for name in self.order if name in changed}
        held = [local for local in self.written() if state.locals.get(local) is not None and local != self.counter]
        names = self.chosen([*(f"_{local}" for local in held), *slices])
        later = f"-{self.mark}" if self.mark else ""
        self.carried = [CarriedLocal(names.get(f"_{local}", f"v{local}{later}"), local, state.locals[local].type)
                        for local in held]
        self.carried += [CarriedSlice(names.get(name, f"{own.name}-now{later}"), own) for name, own in slices.items()]
        self.names = [self.count, *(each.name for each in self.carried)]
        for name in self.names:
            if self.walk.names.are_reserved(name) or any(name == other for other, _ in state.scope):
                raise Refused(f"the loop's name {name} is taken: choose another")

    def chosen(self, changed):
        """{what a turn changes: its name}, as far as the author names it."""
        key = self.prefix + "carry"
        pairs = [pair.split() for pair in self.walk.author.says(key, "").split(",") if pair.strip()]
        for pair in pairs:
            if len(pair) != 2 or pair[0] not in changed:
                what = ", ".join(changed) or "nothing but the counter"
                raise Refused(f"{key} has `{' '.join(pair)}`, and a turn changes {what}")
        return dict(pairs)

    def written(self):
        """The locals that the test and a turn write."""
        places = {"assign": 1, "call": 3}
        nodes = [node for node in mir.nodes([self.test, *self.turn]) if node[0] in places]
        return sorted({mir.local_of(node[places[node[0]]]) for node in nodes})

    def changed_slices(self, state):
        """The slices that a turn passes on as `&mut`, each by a reborrow: an `addr_of`, then an `aggregate` of it."""
        sources, passed = {}, []
        for node in mir.nodes(self.turn):
            if node[0] == "assign" and node[2][0] == "addr_of":
                sources[mir.local_of(node[1])] = mir.local_of(node[2][1])
            elif node[0] == "assign" and node[2][0] == "aggregate":
                local = mir.local_of(node[1])
                if self.walk.local_types[local].kind == "slice":
                    pointer = mir.local_of(mir.items(node[2][1])[0][1])
                    sources[local] = sources.get(pointer, pointer)
            elif node[0] == "call":
                callee = self.walk.sources.callee(mir.callee_of(node))
                for (_, text), argument in zip(callee.parameters, mir.items(node[2])):
                    type_ = self.walk.types.in_source(text, callee)
                    if type_.kind == "slice" and type_.mutable:
                        passed.append(mir.local_of(argument[1]))
        values = [state.locals.get(sources.get(local, local)) for local in passed]
        return {value.refers_to for value in values if value is not None}

    def state_facts(self):
        """The facts of the state: the counter's, one of each carried part, and the invariant."""
        author, mark, variable = self.walk.author, self.mark, self.variable
        self.invariant = replaced(author.says(self.prefix + "inv", NO_FACT), author.meaning)
        self.facts = [(f"le{mark}", f"{self.count} ≤ {self.bound.term}")]
        self.facts += [(each.fact_name, each.fact) for each in self.carried]
        self.facts.append((f"inv{mark}", self.invariant))
        self.projections = {name: part(variable, index) for index, name in enumerate(self.names)}
        base = variable + ".1" * len(self.names)
        for index, (name, _) in enumerate(self.facts[:-1]):
            self.projections[name] = part(base, index)
        self.projections[f"inv{mark}"] = base + ".1" * (len(self.facts) - 1)
        # what the turn's text needs
        self.bound_fits = enclosed(self.bound.proof)
        self.next_fits = f"(below_word (next_le less{mark}) {self.bound_fits})"
        self.measure = f"(λ ({variable} : X{mark}). {variable}.0) {enclosed(self.bound.term)}"
        self.at = f"At{mark} {variable}"
        self.below = f"(Below 𝓛 (Nearer {self.measure}) {self.at}) _"

    # ---- the state
    def type_of_state(self):
        text = self.invariant
        for _, fact in reversed(self.facts[:-1]):
            text = f"({fact}) × ({text})"
        for each in reversed(self.carried):
            text = f"({each.name} : {each.denotation}) × ({text})"
        return f"({self.count} : ℕ) × ({text})"

    def state_at(self, state, counter_fact, key):
        """The state's term at a place: its parts, their facts, and the author's proof of the invariant for them."""
        terms = [state.locals[self.counter].term, *(each.term_in(state) for each in self.carried)]
        text = "tt"
        if self.walk.author.has(self.prefix + "inv"):
            goal = replaced(self.invariant, {name: enclosed(term) for name, term in zip(self.names, terms)})
            text = self.walk.author.proves(self.prefix + key, goal, state.scope)
        for term in reversed([*terms, counter_fact, *(each.proof_in(state) for each in self.carried)]):
            text = f"({term}, {text})"
        return text

    def head_of_turn(self, state):
        """The state at the head of a turn, in the names of its parts."""
        head = state.copy()
        fits = f"(below_word le{self.mark} {self.bound_fits})"
        head.locals[self.counter] = Value(state.locals[self.counter].type, self.count, fits)
        for each in self.carried:
            each.begin(head)
        head.scope += [(self.count, "ℕ"), *((each.name, each.denotation) for each in self.carried)]
        head.scope += [fact for fact in self.facts if fact[1] != NO_FACT]
        return head

    def context(self, head):
        """The items of the context: the slices with their tokens, and the locals."""
        items = []
        for own in (head.slices[name] for name in self.order):
            items += [f"‵ (flft {own.lifetime} {own.share})", own.owned]
        for local in reversed(range(len(self.walk.local_types))):
            cell = self.walk.local_types[local].cell
            items += [self.held(local, cell, head), f"‵ (fdies ({cell}) l{subscript(local)})"]
        return items

    @staticmethod
    def held(local, cell, head):
        """What a local holds, as an item of the context."""
        value, mark = head.locals.get(local), subscript(local)
        if value is None:
            return f"‵ (froom ({cell}) l{mark} 0)"
        if value.type.kind == "array":
            return f"‵ (flent (ν′{mark} ∷ []) (Held {value.type.element.row} {value.type.length} l{mark} 0 δ′{mark}))"
        is_slice = value.type.kind == "slice"
        content = head.slices[value.refers_to].machine_value if is_slice else value.type.machine_value(value.term)
        return f"‵ (fat full_share ({cell}) l{mark} 0 ({content}))"

    # ---- writing
    def write(self, rest, state, behind):
        """The loop, and what is behind it."""
        walk, mark, variable = self.walk, self.mark, self.variable
        write = walk.script.write
        begin = self.state_at(state, "zero-le", "start")
        write(state.bring(self.order))
        head = self.head_of_turn(state)
        carried = ", ".join(f"{each.source} as {each.name} : {each.denotation}" for each in self.carried)
        counts = f"counts {self.count} = _{self.counter} up to {self.bound.term}"
        walk.author.note("loop", f"{counts}; carried: {carried or 'nothing else'}")
        write(f"let X{mark} : Type 0 = {self.type_of_state()} in")
        items = replaced(" ∷ ".join(self.context(head)), self.projections)
        write(f"let At{mark} : X{mark} → List (Item 𝓤) = λ {variable}. {items} ∷ [] in")
        order = f"(Nearer {self.measure}) (Nearer_wf {self.measure})"
        write(f"while_loops ! 𝓣 {order} At{mark} (λ {variable} whiles{mark}.")
        first = len(walk.script.lines)
        self.write_test(head)
        self.write_turn(head)
        write(f"(λ done-h{mark}.")
        head.scope.append((f"all{mark}", f"{self.count} ≡ {self.bound.term}"))
        walk.run(rest, head, behind)
        self.project(first)
        walk.script.close(f")) {begin}")

    def write_test(self, head):
        walk, local = self.walk, mir.local_of(self.test[1])
        left, right = (operands.operand(walk, tree, head).text for tree in self.test[2][2:4])
        walk.script.write(f"assigns ! (bin ! {left} {right} tt) {walk.store(local, head, '(tt, tt)')}")
        head.locals[local] = Value(Type("bool"), f"ltb {self.count} {enclosed(self.bound.term)}", "refl")
        read = f"(load ! (from ! (stop !)) (look ! {walk.position(local, head)} refl))"
        walk.script.write(f"whiles{self.mark} _ _ {read}")

    def write_turn(self, head):
        walk, state = self.walk, head.copy()
        state.scope.append((f"less{self.mark}", f"{self.count} < {self.bound.term}"))
        walk.script.write(f"(λ less-h{self.mark}.")
        walk.loop = self
        walk.run(self.turn, state, Behind.turn())
        walk.loop = None
        walk.script.close()

    def end_turn(self, state):
        """The end of a turn: the next one begins, with a state that is nearer to the end."""
        walk, less = self.walk, f"less{self.mark}"
        if state.locals[self.counter].term != f"({self.count} + 1)":
            raise Refused("a turn that does not add 1 to the counter")
        self.turns_ended += 1
        key = "keep" if self.turns_ended == 1 else f"keep.{self.turns_ended}"
        following = self.state_at(state, f"(next_le {less})", key)
        made = [local for local in reversed(range(len(walk.local_types)))
                if state.locals.get(local) is not None and local not in self.filled]
        walk.script.write(" ".join(f"forget ! {walk.position(local, state)} refl $" for local in made))
        walk.script.write(state.bring(self.order))
        walk.script.write(f"again ! (Nearer {self.measure}) {self.at} {following} (next_nearer {less})")

    def project(self, first):
        """In the lines from first on the names of the parts become the projections of the state."""
        count, bound, mark = self.projections[self.count], enclosed(self.bound.term), self.mark
        at_most = self.projections[f"le{mark}"]
        meaning = {
            **self.projections,
            f"less{mark}": f"(ltb→lt {count} {bound} less-h{mark})",
            f"all{mark}": f"(le_antisymm {at_most} (nltb→le {count} {bound} done-h{mark}))",
        }
        lines = self.walk.script.lines
        lines[first:] = [replaced(line, meaning) for line in lines[first:]]


def is_test(tree):
    """Whether a statement is `t = j < d`, of two numbers without a sign and j a local."""
    if mir.kind_of(tree) != "assign" or tree[2][:2] != ["op2", ["lt", "unsigned"]]:
        return False
    left = tree[2][2]
    return mir.kind_of(left) == "copy" and not mir.items(left[1][2])
