"""The walk of one function's MIR: its statements in order, each arm of a branch and each way behind it.

The walk is written as it goes: the script's lines are the steps of the proof, and a State says what is known there.
Calls, loops, local arrays and returns have modules of their own.
"""
from collections import Counter

import arrays
import calls
import exits
import loops
import mir
import operands
from author import Author
from names import Names
from plan import Behind, Slice, State, Value
from refusal import Refused
from script import Script
from terms import clause_at, enclosed
from types_in_use import TypesInUse


class Walk:
    """A function, what is known of it, and the steps of its proof."""

    def __init__(self, sources, function, routines, walk_file):
        if function.has_other_clauses:
            raise Refused(f"{function.path} has two clauses of a kind, or a ghost clause: join them by ×")
        if function.path not in routines:
            raise Refused(f"the MIR has no {function.path}")
        routine = routines[function.path]
        self.sources, self.function = sources, function
        self.types = TypesInUse(sources)
        self.names = Names(sources, function, walk_file.uses)
        self.author = Author(walk_file)
        self.script = Script()
        self.counts = Counter()
        self.loop = None            # the loop whose turn is walked
        self.callees, self.shapes = [], set()
        self.array_lemmas = {}      # what each local array begins with
        self.local_types = [mir.type_of(tree, self.types) for tree in routine.local_types]
        statements = mir.statements(routine.body)
        self.array_locals = arrays.made_in(statements)
        self.read_signature()
        self.run(statements, self.entry(), Behind.function())
        self.names.refuse_clashes(self.types.imports())

    # ---- the signature
    def read_signature(self):
        """The source's types of the parameters and of the result tell `usize` from `u64`, which the MIR does not."""
        function = self.function
        self.proof_names = {name: self.proof_name(name) for name, _ in function.parameters}
        for name, other in self.proof_names.items():
            if name != other:
                self.author.meaning.update((kind + name, kind + other) for kind in ("", "fit-", "is-", "room-"))
        self.parameters = []
        for number, (name, text) in enumerate(function.parameters, 1):
            type_ = self.types.in_source(text, function)
            if type_.kind == "slice":
                type_.lifetime = self.local_types[number].lifetime
            if type_.kind in ("num", "slice"):
                self.local_types[number] = type_
            self.parameters.append((self.proof_names[name], self.local_types[number]))
        self.local_types[0] = self.types.in_source(function.result, function)
        self.slice_parameters = [(name, type_) for name, type_ in self.parameters if type_.kind == "slice"]
        self.requires = function.requires and self.own_clause(function.requires)

    def proof_name(self, name):
        return f"{name}'" if self.names.are_reserved(name) else name

    def own_clause(self, text, exits=None, result=None):
        """A clause of the function's own contract; exits: {slice: list on exit}, result: the result's term."""
        function, names = self.function, self.proof_names
        bound = ("result", result) if result else None
        exits = {name: exits[other] for name, other in names.items() if other in exits} if exits else {}
        return clause_at(self.names.clause(function, text), names, names, exits, bound)

    def entry(self):
        """The state on entry."""
        state = State()
        for number, (name, type_) in enumerate(self.parameters, 1):
            state.locals[number] = self.parameter_value(name, type_)
            if type_.kind == "slice":
                state.slices[name] = Slice(name, type_, index=len(state.slices))
                state.order.append(name)
                state.scope.append((name, f"List {type_.element.denotation}"))
            else:
                state.scope.append((name, type_.denotation))
        state.scope += [(fact, statement) for _, fact, statement in self.parameter_facts()]
        if self.requires:
            state.scope.append(("req", self.requires))
        return state

    @staticmethod
    def parameter_value(name, type_):
        if type_.kind == "slice":
            return Value(type_, refers_to=name)
        return Value(type_, name, {"num": f"fit-{name}", "bool": "refl"}.get(type_.kind, f"is-{name}"))

    def parameter_facts(self):
        """[(index, name, statement)]: what the walk is handed of each parameter but a bool."""
        facts = []
        for index, (name, type_) in enumerate(self.parameters):
            if type_.kind == "slice":
                facts.append((index, f"room-{name}", f"Room {type_.element.row} (length {name})"))
            elif type_.kind == "num":
                facts.append((index, f"fit-{name}", f"{name} < 2 ^ {type_.bits}"))
            elif type_.kind != "bool":
                facts.append((index, f"is-{name}", type_.is_spelled(name)))
        return facts

    # ---- numbers and places
    def number(self, what):
        """The next number of a call, a test, an exit and so on."""
        self.counts[what] += 1
        return self.counts[what]

    def position(self, local, state):
        """Where a local's cell stands in the context: behind the slices, the last local first, two items for each."""
        return 2 * len(state.order) + 2 * (len(self.local_types) - 1 - local)

    def store(self, local, state, typed):
        """The end of a step that writes a local: it is found, and begins to hold a value or holds another."""
        how = "init" if state.locals.get(local) is None else "store"
        return f"(from ! (stop !)) ({how} ! {self.position(local, state)} refl {typed}) $"

    # ---- statements
    def run(self, statements, state, behind):
        """Writes the walk of statements from state on, and of what is behind them."""
        statement, rest = statements[0], statements[1:]
        kind = mir.kind_of(statement)
        if kind == "return":
            exits.leave(self, state, behind)
        elif kind == "assign":
            self.assign(statement, rest, state, behind)
        elif kind == "skip":
            self.skip(state, behind)
        elif kind == "call":
            calls.Call(self, statement, rest, state, behind).write()
        elif kind == "cond":
            self.test(statement, rest, state, behind)
        elif kind == "switch":
            self.match(statement, rest, state, behind)
        elif kind == "block":
            loops.Loop(self, statement, state).write(rest, state, behind)
        else:
            raise Refused(f"a statement {kind}")

    def assign(self, statement, rest, state, behind):
        _, place, right = statement
        local = mir.local_of(place)
        if mir.items(place[2]):
            raise Refused("a store to a part of a local: build the struct anew in another function")
        if right[0] == "repeat":
            arrays.make(self, local, right, rest, state, behind)
            return
        text, value, before = operands.right_side(self, right, local, state)
        was = self.local_types[local]
        if value.type.kind == was.kind == "num" and value.type.width == was.width:
            self.local_types[local] = value.type
        self.script.write(before)
        store = self.store(local, state, value.typed)
        state.locals[local] = value
        if rest:
            self.script.write(f"assigns ! {text} {store}")
            self.run(rest, state, behind)
        elif behind.ends_turn:
            self.script.write(f"assigns_again ! {self.loop.below} {text} {store}")
            self.loop.end_turn(state)
        else:
            self.go_on(f"assigns_last ! {text} {store} ", state, behind)

    def skip(self, state, behind):
        """The end of an arm that does nothing more."""
        if behind.ends_turn:
            self.script.write(f"skips_again ! {self.loop.below} $")
            self.loop.end_turn(state)
        else:
            self.go_on("skips ! $ ", state, behind)

    def go_on(self, last, state, behind):
        """Behind the last step of an arm what is behind the arm runs."""
        if behind.rule is None:
            raise Refused("a function whose last statement is neither a `return` nor a branch")
        self.script.write(f"{last}{behind.rule} _ (")
        self.run(behind.statements, state, behind.outer)
        self.script.close()

    def test(self, statement, rest, state, behind):
        _, condition, *arms = statement
        text, value, _ = operands.operand(self, condition, state)
        number = self.number("test")
        fact, rule = f"h{number}", f"on{number}"
        outcomes = (f"T {enclosed(value.term)}", f"T (not {enclosed(value.term)})")
        self.author.note(fact, f"{outcomes[0]} on the first arm, {outcomes[1]} on the second")
        if rest:
            head, binder, behind_arm = "tests", f"(λ {fact} {rule}.", behind.arm(rest, rule)
        else:
            head, binder, behind_arm = "branches", f"(λ {fact}.", behind.last_arm()
        self.script.write(f"{head} ! {text}")
        for arm, outcome in zip(arms, outcomes):
            self.script.write(binder)
            there = state.copy()
            there.scope.append((fact, outcome))
            self.run(mir.statements(arm), there, behind_arm)
            self.script.close()

    def match(self, statement, rest, state, behind):
        """A match on what a call has just answered: the walk is in one variant, and one arm runs."""
        text, value, _ = operands.operand(self, statement[1], state)
        enum = value.tag_of
        if enum is None or enum.variant is None:
            raise Refused("a match on an enum whose variant is not known: match on what a call has just answered")
        arms = mir.arms(statement[2])
        body = next(body for keys, body in arms if keys is None or str(enum.variant) in keys)
        if rest:
            rule = f"on{self.number('test')}"
            self.script.write(f"matches ! {text} tt (λ {rule}.")
            self.run(mir.statements(body), state, behind.arm(rest, rule))
            self.script.close()
        else:
            self.script.write(f"matches_last ! {text} tt $")
            self.run(mir.statements(body), state, behind.last_arm())
