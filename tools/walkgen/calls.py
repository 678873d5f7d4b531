"""A call in a walk: one step by the combinator of its shape, and what is known of the answer behind it."""
import re

import combinators
import mir
import operands
from plan import Value
from refusal import Refused
from terms import clause_at, enclosed, list_of, replaced, subscript, tuple_of


class Call:
    """A call statement, with its arguments and its contract at these arguments."""

    def __init__(self, walk, statement, rest, state, behind):
        self.walk, self.rest, self.state, self.behind = walk, rest, state, behind
        self.callee = walk.sources.callee(mir.callee_of(statement))
        if self.callee.has_other_clauses:
            raise Refused(f"{self.callee.path} has two clauses of a kind, or a ghost clause: join them by ×")
        if self.callee not in walk.callees:
            walk.callees.append(self.callee)
        self.tag = walk.sources.tag(self.callee)
        self.number = walk.number("call")
        self.answer = f"r{self.number}"
        self.local = mir.local_of(statement[3])
        self.read_signature()
        self.read_arguments(mir.items(statement[2]))
        self.read_contract()

    # ---- reading
    def read_signature(self):
        in_source = self.walk.types.in_source
        parameters = [(name, in_source(text, self.callee)) for name, text in self.callee.parameters]
        self.slice_parameters = [(name, type_) for name, type_ in parameters if type_.kind == "slice"]
        self.plain_parameters = parameters[len(self.slice_parameters):]
        if any(type_.kind == "slice" for _, type_ in self.plain_parameters):
            raise Refused(f"{self.tag} has a slice after a plain parameter: let its slices stand first")
        self.result = in_source(self.callee.result, self.callee)

    def read_arguments(self, trees):
        """The operands; the slices that are passed on, and the plain values."""
        ahead = 0 if self.slice_parameters else 1
        steps = [operands.operand(self.walk, tree, self.state, ahead) for tree in trees]
        self.operands = operands.joined(steps)
        count = len(self.slice_parameters)
        self.slices = [self.state.slices[step.value.refers_to] for step in steps[:count]]
        self.fronts = [step.value.front for step in steps[:count]]
        self.values = [step.value for step in steps[count:]]
        if len({each.name for each in self.slices}) < count:
            raise Refused("a call that is passed one slice twice")
        self.shape, self.changed = "", []       # of a changed slice also the name of its list behind the call
        for (_, type_), own, front in zip(self.slice_parameters, self.slices, self.fronts):
            self.shape += "f" if front else "m" if type_.mutable else "v" if own.type.mutable else "s"
            if type_.mutable:
                self.changed.append((own, f"{own.name}{self.number}", front))
        self.shape += "" if self.rest else "+"
        self.walk.shapes.add(self.shape)

    def read_contract(self):
        """The contract's clauses at the arguments: a fact to show before the call, and one that holds behind it."""
        callee = self.callee
        lists = {name: f"(front {enclosed(front)} {enclosed(own.list)})" if front else own.list
                 for (name, _), own, front in zip(self.slice_parameters, self.slices, self.fronts)}
        plain = {name: value.term for (name, _), value in zip(self.plain_parameters, self.values)}
        changed = [name for name, type_ in self.slice_parameters if type_.mutable]
        exits = {name: new for name, (_, new, _) in zip(changed, self.changed)}
        bound = ("result", self.answer)
        self.requires = callee.requires and clause_at(self.clause(callee.requires), lists, plain)
        self.ensures = "Unit {0}"
        if callee.ensures:
            self.ensures = clause_at(self.clause(callee.ensures), lists, plain, exits, bound)

    def clause(self, text):
        """A clause in which each field of a struct that the walk built is the field's own term."""
        text = self.walk.names.clause(self.callee, text)
        for (name, type_), value in zip(self.plain_parameters, self.values):
            if type_.kind == "struct" and value.fields is not None:
                for (field, _), part in zip(self.walk.types.fields(type_.name), value.fields):
                    field_of = r"(?<![^\s(])" + re.escape(f"{name}.{field}") + r"(?![\w'-])"
                    text = re.sub(field_of, enclosed(part.term).replace("\\", r"\\"), text)
        return text

    # ---- the step
    def write(self):
        write, number = self.walk.script.write, self.number
        write(self.state.bring([each.name for each in self.slices]))
        needed = "id⊢ 𝓤 _"
        if self.requires:
            proof = self.walk.author.proves(f"call.{number}", self.requires, self.state.scope)
            needed = f"fact_i 𝓤 ({self.requires}) (emp 𝓤) {proof}"
        ensured = "id⊢ 𝓤 _" if self.callee.ensures else "fact_i 𝓤 (Unit {0}) (emp 𝓤) tt"
        self.walk.author.note(f"e{number}", self.ensures)
        deltas = "".join(f" δ{subscript(index)}" for index, letter in enumerate(self.shape) if letter in "mf")
        terms, machine, owned = self.plain_arguments()
        at = f"λ κs{deltas}."
        self.show_fronts()
        write(f"-- {self.callee.name if self.callee.crate == self.walk.sources.crate else self.callee.path}")
        write(self.head())
        write(f"(λ κs. {terms}) (λ κs. {machine}) (λ κs. {owned}) ({at} tt) ({at} {needed})")
        write(f"(λ {self.answer}{self.lists()}. {self.ensures}) (λ κs{deltas} {self.answer} ws. {ensured}) "
              f"({at} {self.operands})")
        for own, new, front in self.changed:
            if front:
                before = f"{enclosed(front)} {enclosed(own.list)}"
                own.same_length = (f"(front_length {before} {enclosed(own.length)} {enclosed(own.same_length)} "
                                   f"{self.fit[own.name]} {new} n-{new})")
                own.list = f"(refronted {before} {new})"
            else:
                own.list, own.same_length = new, f"n-{new}"
        if self.result.kind == "enum" and is_matched(self.local, self.rest, self.behind):
            self.write_variants()
        else:
            self.write_answer()

    def show_fronts(self):
        """That each part which is lent is no longer than its slice."""
        self.fit = {}       # {slice: proof}
        for own, front in zip(self.slices, self.fronts):
            if front:
                key = f"front.{self.walk.number('front')}"
                goal = f"{front} ≤ {own.length}"
                self.fit[own.name] = self.walk.author.proves(key, goal, self.state.scope)

    def head(self):
        """The combinator of the shape, with the callee's contract and the slices."""
        rows = " ".join([*(each.type.element.row for each in self.slices), self.result.row])
        slots = enclosed(list_of(f"plain (λ _. {type_.row})" for _, type_ in self.plain_parameters))
        text = f"{combinators.name_of(self.shape)} ! fm {rows} {slots} {tuple_of(['yes'] * len(self.values))}"
        text += f" ({self.tag}-F.clauses 𝓛 mem run) known-{self.tag}"
        for each, front, letter in zip(self.slices, self.fronts, self.shape):
            place = f"{each.block} {each.offset}" if letter == "s" else f"{each.block} {each.offset} {each.ghost}"
            text += f" {place} {enclosed(each.list)} {enclosed(each.length)} {enclosed(each.same_length)}"
            text += f" {enclosed(front)} {self.fit[each.name]}" if front else ""
            element = each.type.element
            text += {"s": f" ({element.row_laws})", "v": f" ({element.shares}) ({element.within(each.lifetime)})"}.get(letter, "")
        return text

    def plain_arguments(self):
        """The plain arguments' terms, their machine values, and that they are owned."""
        types = [type_ for _, type_ in self.plain_parameters]
        rows = enclosed(list_of(type_.row for type_ in types))
        terms = tuple_of([value.term for value in self.values])
        machine = tuple_of([f"{type_.machine_value(value.term)} ∷ []" for type_, value in zip(types, self.values)])
        makes = tuple_of([type_.makes for type_ in types])
        relations = tuple_of([value.relation for value in self.values])
        return terms, machine, f"owns_make 𝓛 {rows} (Ises {rows}) {makes} {terms} {machine} {relations}"

    def lists(self):
        return "".join(f" {new}" for _, new, _ in self.changed)

    def lengths(self):
        return "".join(f" n-{new}" for _, new, _ in self.changed)

    # ---- behind it
    def write_answer(self):
        """What is behind a call whose answer is no enum, or is not matched on."""
        number, answer = self.number, self.answer
        self.walk.script.write(f"(λ u{number} {answer}{self.lists()}{self.lengths()} e{number} is{number}.")
        self.state.scope += self.facts([(answer, self.result.denotation)], answer)
        if self.result.is_declared:
            value = Value(self.result, answer, self.told(answer))
        elif self.result.kind == "unit":
            value = Value(self.result, "tt")
        else:
            value = Value(self.result, answer, f"is{number}.1" if self.result.kind == "num" else "refl")
        self.land(self.state, answer, value)
        self.go_on(self.state)
        self.walk.script.close()

    def write_variants(self):
        """What is behind a call whose answer is matched on: the walk goes on in each variant."""
        walk, number = self.walk, self.number
        walk.script.write(f"(λ u{number}. elim [")
        for variant, (name, types) in enumerate(walk.types.variants(self.result.name)):
            names = [f"{self.answer}-{index}" for index in range(len(types))]
            pattern = " ".join([name, *names])
            term = enclosed(pattern)
            walk.script.write(f"  | {pattern} ↦ λ{self.lists()}{self.lengths()} e{number} is{number}.")
            walk.script.indent += 6
            fields = [Value(type_, field, operands.owed(self.result, term, f"is{number}", index, type_))
                      for index, (field, type_) in enumerate(zip(names, types))]
            there = self.state.copy()
            there.scope += self.facts([(field.term, field.type.denotation) for field in fields], term)
            meaning = walk.author.meaning
            walk.author.meaning = {**meaning, self.answer: term}
            self.land(there, term, Value(self.result, term, self.told(term), fields=fields, variant=variant))
            self.go_on(there)
            walk.author.meaning = meaning
            walk.script.indent -= 6
        walk.script.write("])")

    def facts(self, answers, term):
        """The variables that the text behind the call binds."""
        number, facts = self.number, [(f"u{self.number}", "Val"), *answers]
        for own, new, front in self.changed:
            length = front or own.length
            facts += [(new, f"List {own.type.element.denotation}"), (f"n-{new}", f"length {new} ≡ {length}")]
        facts.append((f"e{number}", replaced(self.ensures, {self.answer: term})))
        return facts + [(f"is{number}", f"Is {self.result.row} {term} (u{number} ∷ [])")]

    def told(self, term):
        """That a declared type's answer is what its type says."""
        how, name = "told" if self.result.kind == "struct" else "told_enum", self.result.name
        return f"({how} {name}-T.the_type {name}-L.the_laws {term} _ is{self.number})"

    def land(self, state, term, value):
        """The answer is written to its local, at the machine value that its type spells."""
        if self.rest:
            how = "land !"
        elif self.behind.ends_turn:
            how = f"lands_again ! {self.walk.loop.below}"
        else:
            how = "land_last !"
        text = f"{how} {self.walk.store(self.local, state, f'({self.result.lawful} {term} _ is{self.number}).0')}"
        if self.result.kind != "unit":
            cell = f"‵ (fat full_share ({self.result.cell}) l{subscript(self.local)} 0 w)"
            spelled = f"(ap only ({self.result.tells} {term} _ is{self.number}))"
            text += f" rewrite ! {self.walk.position(self.local, state)} (λ (w : Val). {cell}) {spelled} refl $"
        self.walk.script.write(text)
        state.locals[self.local] = value

    def go_on(self, state):
        if self.rest:
            self.walk.run(self.rest, state, self.behind)
        elif self.behind.ends_turn:
            self.walk.loop.end_turn(state)
        else:
            self.walk.go_on("", state, self.behind)


def is_matched(local, statements, behind):
    """Whether a match on what the local holds is behind this place."""
    for node in mir.nodes(statements):
        if node[0] == "switch" and node[1][0] == "copy" and mir.local_of(node[1][1]) == local:
            return True
    return behind.statements is not None and is_matched(local, behind.statements, behind.outer)
