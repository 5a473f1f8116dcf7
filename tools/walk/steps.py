"""The walk of one function: its code, step by step, with what is had before each step.

What is had is a list of entries, the context. An entry is
  ("token", j)      the caller's lifetime j is alive          ("fresh", n)     the n-th loan's lifetime is
  ("own", p)        what the slice parameter p owns           ("array", k)     what the local array k owns
  ("cell", k)       the local k, with its value or bare       "ends"           what says that the locals end
  and, while a call is made, the parts of what its callee asks and gives back.
A step names entries by their places, so the context is followed here, and each path of the code is walked by itself to its end."""
import re

import mir
import text
from kinds import BOOL, POINTER, UNIT, Type, integer

BIG = 1024  # from here on the code has a literal as a big one


def low(n):
    return "".join("₀₁₂₃₄₅₆₇₈₉"[int(digit)] for digit in str(n))


def dash(name):
    return name.replace("_", "-")


def nest(terms):
    return f"({terms[0]}, {nest(terms[1:])})" if terms else "tt"


def cons(terms):
    return "(" + " ∷ ".join(list(terms) + ["[]"]) + ")"


def path(i):
    """The i-th part of a tuple that ends in `tt`."""
    return " .1" * i + " .0"


class Value:
    """What a local holds: its type, what it denotes, and the proof that the machine value is that."""

    def __init__(self, type, d=None, proof=None, lends=None, array=None):
        self.type, self.d, self.proof, self.lends, self.array = type, d, proof, lends, array
        self.machine = type.machine(d) if d is not None and type.kind not in ("slice", "ptr", "array") else None
        self.case = None

    def fits(self):
        return self.proof[7:-1] if self.proof.startswith("(refl, ") else f"({self.proof}) .1"


class Turn:
    """The end of a loop's turn, among what is to come."""


class Steps:
    def __init__(self, program, function, cycle, answers):
        self.program, self.function, self.cycle, self.answers = program, function, cycle, answers
        self.name = function.short
        self.alias = "f-" + dash(self.name)
        self.loops = mir.has_loop(function.body)
        self.C, self.Λ = ("(𝓣 .C)", "(𝓣 .Λ)") if self.loops else ("C", "Λ")
        self.declared = program.source.function(function.name)
        self.params = self.declared.params
        self.types = [program.types.read(t) for t in function.locals]
        self.param_type = dict(zip(self.params, self.types[1:]))
        self.slices = [p for p in self.params if self.param_type[p].kind == "slice"]
        self.mutable = [p for p in self.slices if self.param_type[p].mutable]
        self.counts, self.callees, self.variants = {}, [], set()
        self.called, self.by_callee = {}, ""  # how often each function was called; the call at hand, by its callee
        self.lines, self.loans, self.has_local = [], 0, False
        self.opened = 0  # the brackets that the part at hand has opened
        self.matches = "['variant'" in str(function.body)
        self.context, self.values, self.arrays = [], [None] * len(self.types), {}
        self.lists = {p: (f"({p} .now)", f"is-{p} .0 .1", "refl", False) for p in self.slices}

    # ---- names: the members of a cycle stand in one file, each with its own
    def own(self, name):
        return f"{name}-{dash(self.name)}" if self.cycle else name

    def of_slice(self, letter, p):
        """T, Y or v of a slice: its type, its type in the code, its value."""
        return f"{self.own(letter)}-{p}"

    # ---- facts
    def key(self, kind):
        self.counts[kind] = self.counts.get(kind, 0) + 1
        return f"{kind}{self.counts[kind]}"

    def answer(self, key, by_callee=None):
        """by_callee is the key that a call's fact has by its callee's name."""
        term = self.answers.of(self.name, *filter(None, (key, by_callee, re.sub(r"\d+$", "*", key)))) or "?"
        return self.mark(by_callee or key, term)

    def mark(self, key, term):
        return text.marked(f"{self.name}.{key}", term) if self.answers.marks else term

    # Where a clause's term has another type the checker may say so of the whole, and of two clauses not which.
    def clause(self, key, by_callee=None):
        return self.mark(by_callee or key, f"factI 𝓤 _ (emp 𝓤) ({self.answer(key, by_callee)})")

    def both(self, one, two):
        return self.mark(f"{one[-1]} or {two[-1]}", f"Walk.says-both 𝓤 _ _ ({self.answer(*one)}) ({self.answer(*two)})")

    # ---- text
    def say(self, step):
        self.lines.append("        " + step)
        self.opened += step.count("(") - step.count(")")

    def rule(self, step):
        """A rule whose last argument is the rest of the walk."""
        self.say(step + " (")

    def part(self, walk):
        """A part of the walk: the brackets that it opens are closed at its end."""
        before, self.opened = self.opened, 0
        walk()
        self.lines[-1] += ")" * self.opened
        self.opened = before

    # ---- the context
    def place(self, entry):
        return self.context.index(entry)

    def cell(self, k):
        return self.place(("cell", k))

    def places(self, entries):
        """Where the entries stand, each in what is left once those before it are taken out."""
        places = [self.place(e) for e in entries]
        return [at - sum(other < at for other in places[:i]) for i, at in enumerate(places)]

    def front(self, *entries):
        places = self.places(entries)
        if any(places):
            self.context = list(entries) + [e for e in self.context if e not in entries]
            self.rule(f"Walk.move ! {cons(map(str, places))}")

    def keep(self, *entries):
        self.rule(f"Walk.keep ! {cons(map(str, self.places(entries)))}")

    def state(self):
        return list(self.context), list(self.values), dict(self.lists), dict(self.arrays)

    def restore(self, state):
        self.context, self.values, self.lists, self.arrays = list(state[0]), list(state[1]), dict(state[2]), dict(state[3])

    # ---- the numbers of a slice
    def learn_fits(self):
        """Of the slices of numbers that the answers name, that each number fits."""
        for p in (self.answers.of(self.name, "fits") or "").split():
            t, at = self.param_type[p], self.param_type[p].lifetime
            assert p in self.slices and not t.mutable and t.of.kind == "int", "the numbers of a slice"
            self.front(("own", p), ("token", at))
            self.say(f"Numbers.learns 𝓤 H A W (named {at}) κ{low(at)} q{low(at)} w{t.of.bits} {p} ! tt (λ fits-{p}.")

    # ---- lifetimes
    def slice_type(self, p):
        t = self.param_type[p]
        return f"{'MutSlice' if t.mutable else 'ShrSlice'} (named {t.lifetime}) κ{low(t.lifetime)} {t.of.row()}"

    def slice_row(self, p):
        return self.of_slice("T", p)

    def row(self, p):
        return self.slice_row(p) if self.param_type[p].kind == "slice" else self.param_type[p].row()

    def own_tokens(self):
        return [(("token", j), f"κ{low(j)}", f"q{low(j)}") for j in range(self.function.lifetimes)]

    def pairs(self, tokens):
        return cons(f"({k}, {q})" for _, k, q in tokens)

    def join_tokens(self, tokens, callee):
        self.front(*[entry for entry, _, _ in tokens])
        lifetimes, shares = nest([k for _, k, _ in tokens]), nest([q for _, _, q in tokens])
        self.rule(f"Walk.tokens-in W {self.pairs(tokens)} _ ! (alive 𝓤 H A {callee}.signature {lifetimes} {shares}) (id⊢ 𝓤 _)")
        self.context[0:len(tokens)] = ["tokens"]

    def split_tokens(self, tokens):
        self.front("tokens")
        self.rule(f"Walk.tokens-out W {self.pairs(tokens)} ! (id⊢ 𝓤 _)")
        self.context[0:1] = [entry for entry, _, _ in tokens]

    # ---- products
    def give(self, sources):
        """A product of what a callee or a caller is given. A source is its term, the entry that it asks for, and whether that stays."""
        asked = [entry for _, entry, _ in sources if entry is not None]
        self.front(*asked)
        self.rule(f"Walk.gives W {cons(term for term, _, _ in sources)} _ !")
        self.context[0:len(asked)] = ["arguments"] + [entry for _, entry, stays in sources if stays]

    def owned(self, value):
        """What plain data owns: nothing, as `making` says."""
        return f"({value.type.row()} .own {value.d} ({value.machine} ∷ []))"

    def making(self, value):
        return f"({value.type.makes()} {value.d} _ {value.proof})"

    # ---- operands and what is assigned: the step's text, and the value
    def operand(self, o, shift=0):
        if isinstance(o, str):
            type = UNIT if o == "unit" else BOOL
            return f"(Run.{o}-lit !)", Value(type, "tt" if o == "unit" else o, "refl")
        if o[0] == "int":
            script = "(Run.lit ! tt)" if int(o[2]) < BIG else "(Walk.big-lit ! (record { fits = lit< tt }))"
            return script, Value(integer(o[1]), o[2], "(refl, lit< tt)")
        k, way = int(o[1][1]), mir.items(o[1][2])
        value, at = self.values[k], self.cell(k) + shift
        if not way:
            return f"(Walk.local ! {at} refl)", value
        if way[0][0] == "variant":
            return self.variant_part(value, way, at)
        assert len(way) == 1 and way[0][0] == "field", "a field of a field"
        return self.field(value, int(way[0][1]), at)

    def field(self, value, i, at):
        script = f"(Walk.part ! {at} refl refl refl)"
        if value.type.kind == "slice":
            assert i == 1, "the address of a slice"
            now, room, _, _ = self.lists[value.d]
            return script, Value(integer(64), f"(length {now})", f"(refl, {room} .0)")
        type = self.program.types.fields(value.type)[i]
        d = f"({value.d} .{self.program.source.fields_of(value.type.name)[i]})"
        owed = f"LL.owed {value.type.both()}-L.the-laws {value.d} _ {value.proof}{path(i)}"
        proof = f"(refl, {owed} .1)" if type.kind == "int" else f"({owed})" if type.declared else "refl"
        return script, Value(type, d, proof)

    def variant_part(self, value, way, at):
        case = value.case
        assert case and len(way) == 2, "a match on what no call returned"
        i = int(way[1][1])
        looks = "(Run.load ! (Run.from ! (Match.vrt ! refl (Run.fld ! refl (Run.stop !))))"
        if i == 0:
            return f"{looks} (Match.look-tag ! {at} (Part.whole !)))", Value(integer(8), str(case[0]), "(refl, lit< tt)")
        type = case[2][i - 1]
        assert int(way[0][1]) == case[0] and type.kind in ("int", "bool"), "the payload of a variant"
        fits = f"{value.type.lawful()} .typed {value.d} _ {value.proof} .0 .1 .1{path(i - 1)} .fits"
        script = f"{looks} (Part.look-in ! {at} (Match.in-variant ! {case[0]} {i - 1} refl refl (Part.whole !))))"
        return script, Value(type, case[1][i - 1], f"(refl, {fits})" if type.kind == "int" else "refl")

    def typed(self, value, k=None):
        """That a value has its local's type."""
        kind = value.type.kind
        if kind == "ptr":
            return "(tt, tt)"
        if kind == "array":
            array = self.arrays[k]
            return f"array-lawful 𝓤 H A W {value.type.of.row()} ({value.type.of.lawful()}) {value.type.count} .typed {array[0]} _ isa{k} .0"
        if value.array is not None:
            return "(tt, (tt, (record { fits = lit< tt }, tt)))"
        if value.lends:
            return f"(tt, (tt, (record {{ fits = {self.lists[value.lends][1]} .0 }}, tt)))"
        if kind == "slice":
            law = "mut-slice-lawful" if value.type.mutable else "shr-slice-lawful"
            j = value.type.lifetime
            return f"{law} 𝓤 H A W (named {j}) κ{low(j)} {value.type.of.row()} .typed {value.d} _ is-{value.d} .0"
        if kind == "int":
            return f"(tt, record {{ fits = {value.fits()} }})"
        if kind in ("bool", "unit"):
            return "(tt, tt)"
        return f"{value.type.lawful()} .typed {value.d} _ {value.proof} .0"

    def right_side(self, r, dest):
        if r[0] == "rvOpd":
            if self.types[dest].kind == "array":
                return self.array_field(r[1][1], dest)
            script, value = self.operand(r[1])
            return f"(Run.of-opd ! {script})", value
        steps = {"op2": self.binary, "op1": self.unary, "repeat": self.repeated, "addrOf": self.address, "aggregate": self.aggregate}
        assert r[0] in steps, f"{r[0]} on the right of an assignment"
        return steps[r[0]](r, dest)

    def binary(self, r, dest):
        op = r[1] if isinstance(r[1], str) else r[1][0]
        (left, a), (right, b) = self.operand(r[2]), self.operand(r[3])
        tests = {"lt": "(ltb {} {})", "le": "(leb {} {})", "eq": "(eqb {} {})", "ne": "(not (eqb {} {}))"}
        if op in tests:
            assert op in ("lt", "le") or a.type.kind == "int", "== of bools"
            return f"(Run.bin ! {left} {right} tt)", Value(BOOL, tests[op].format(a.d, b.d), "refl")
        signs = {"add": "+", "sub": "-", "mul": "*"}
        assert op in signs and a.type.kind == "int", f"the operation {op}"
        key = self.key(op)
        d = f"({a.d} {signs[op]} {b.d})"
        bound = f"{d} < 2 ^ {a.type.bits}"
        self.say(f"let {key} : {f'{b.d} ≤ {a.d}' if op == 'sub' else bound} = {self.answer(key)} in")
        if op == "sub":
            self.say(f"let {key}-fits : {bound} = omega (arith, {a.fits()}) in")
            return f"(Run.bin ! {left} {right} {key})", Value(a.type, d, f"(refl, {key}-fits)")
        return f"(Run.bin ! {left} {right} (record {{ fits = {key} }}))", Value(a.type, d, f"(refl, {key})")

    def unary(self, r, dest):
        (script, a), op = self.operand(r[2]), r[1]
        if op in ("not", "bitNot") and a.type.kind == "bool":
            return f"(Run.un ! {script} tt)", Value(BOOL, f"(not {a.d})", "refl")
        assert op[0] == "cast" and op[1] == op[2] == "unsigned" and a.type.kind == "int", "a cast"
        type, key = integer(op[3]), self.key("cast")
        fact = f"omega (arith, {a.fits()})" if type.bits >= a.type.bits else self.answer(key)
        self.say(f"let {key} : {a.d} < 2 ^ {type.bits} = {fact} in")
        return f"(Run.un ! {script} (record {{ fits = {key} }}))", Value(type, a.d, f"(refl, {key})")

    # ---- local arrays
    def repeated(self, r, k):
        _, a = self.operand(r[1])
        n, row = int(r[2]), a.type.row()
        each = f"{{A = {a.type.denotes()}}}"
        xs, machine = f"(replicate {each} {n} {a.d})", f"(arrayVal (replicate {n} {a.machine}))"
        self.has_local = True
        self.rule(f"Walk.use0 W ! (‵ {self.owned(a)}) {self.making(a)}")
        own = f"Array {row} {n} .own {xs} ({machine[1:-1]} ∷ [])"
        self.rule(f"Walk.use1 W ! (‵ ({own})) (array-repeat 𝓤 H A W {row} ({a.type.copies()}) {n} {a.d} {a.machine})")
        array = f"(Array {row} {n})"
        self.say(f"Walk.peek W ! {array} {xs} ({machine[1:-1]} ∷ []) (λ isa{k}.")
        self.context.insert(0, ("array", k))
        self.arrays[k] = (xs, machine, f"(length-replicate {each} {n} {a.d})", a.type, n)
        return f"(Part.rep ! {n} {self.operand(r[1])[0]})", Value(Type("array", of=a.type, count=n))

    def array_field(self, place, k):
        """A copy of an array field of a struct: what it owns is made, since its elements are plain data."""
        source, way, type = int(place[1]), mir.items(place[2]), self.types[k]
        value = self.values[source]
        assert len(way) == 1 and way[0][0] == "field" and value.type.kind == "struct", "an array"
        i, each, row = int(way[0][1]), type.of.denotes(), type.row()[1:-1]
        xs = f"({value.d} .{self.program.source.fields_of(value.type.name)[i]})"
        machine = f"(arrayVal (map (λ (x : {each}). {type.of.machine('x')}) (map (λ (x : {each}). x) {xs})))"
        owed = f"LL.owed {value.type.both()}-L.the-laws {value.d} _ {value.proof}{path(i)}"
        is_ = f"subst (λ (xs : List {each}). Is ({row}) xs ({machine} ∷ [])) (map-id {xs}) ({owed})"
        self.say(f"let isa{k} : Is ({row}) {xs} ({machine} ∷ []) = {is_} in")
        law = f"array-makes 𝓤 H A W {type.of.row()} ({type.of.makes()}) {type.count} {xs} _ isa{k}"
        self.rule(f"Walk.use0 W ! (‵ ({row} .own {xs} ({machine} ∷ []))) ({law})")
        self.context.insert(0, ("array", k))
        self.arrays[k] = (xs, machine, f"(isa{k} .1 .0 .1)", type.of, type.count)
        self.has_local = True
        return f"(Run.of-opd ! (Walk.part ! {self.cell(source)} refl refl refl))", Value(type)

    # ---- references
    def address(self, r, dest):
        k, way = int(r[1][1]), mir.items(r[1][2])
        if not way and k in self.arrays:
            return "(Run.addr ! (Run.from ! (Run.stop !)))", Value(POINTER, array=k)
        assert [step[0] for step in way] == ["field", "deref"] and self.values[k].type.kind == "slice", "an address"
        hop = f"(Run.hop ! (Part.look-in ! {self.cell(k)} (Part.sub ! 0 refl (Part.whole !))) (Run.stop !))"
        return f"(Run.addr ! (Run.from ! (Run.fld ! refl {hop})))", Value(POINTER, d=self.values[k].d)

    def aggregate(self, r, dest):
        parts, type = mir.items(r[1]), self.types[dest]
        if type.kind == "struct":
            return self.struct_literal(parts, type)
        pointer = self.values[int(parts[0][1][1])]
        assert len(parts) == 2 and pointer.type.kind == "ptr", "an aggregate"
        scripts = [self.operand(part)[0] for part in parts]
        script = f"(Part.agg ! (Run.and-then ! {scripts[0]} (Run.and-then ! {scripts[1]} (Run.no-more !))))"
        if pointer.array is not None:
            return script, Value(Type("slice", of=self.arrays[pointer.array][3], lifetime=None, mutable=None), array=pointer.array)
        of = self.param_type[pointer.d]
        return script, Value(Type("slice", of=of.of, lifetime=of.lifetime, mutable=None), d=pointer.d, lends=pointer.d)

    def struct_literal(self, parts, type):
        made = [self.operand(part) for part in parts]
        script = "(Run.no-more !)"
        for part, _ in reversed(made):
            script = f"(Run.and-then ! {part} {script})"
        fields = "; ".join(f"{f} = {v.d}" for f, (_, v) in zip(self.program.source.fields_of(type.name), made))
        key = self.key("made")
        self.say(f"let {key} : {type.short} = record {{ {fields} }} in")
        owes = f"LL.owes {type.both()}-L.the-laws {key} {nest([v.proof for _, v in made])}"
        self.say(f"let is-{key} : Is {type.row()} {key} ({type.machine(key)} ∷ []) = {owes} in")
        return f"(Part.agg ! {script})", Value(type, key, "is-" + key)

    # ---- what is to come: rests of sequences, None for the end of a block, a Turn for the end of a loop's turn
    def in_turn(self, rest):
        return isinstance(next((x for x in rest if x is not None), None), Turn)

    def go_on(self, rest):
        while rest[0] is None:
            rest = rest[1:]
        if isinstance(rest[0], Turn):
            return self.again(rest[0])
        return self.walk(rest[0], rest[1:])

    def here(self, rest):
        return "Walk.here" if rest[0] is not None else f"(Walk.out {self.here(rest[1:])})"

    def to(self, rest):
        return "(Walk.turn-here _)" if rest[0] is not None else f"(Walk.to-out {self.to(rest[1:])})"

    def by(self, step, rest):
        if self.in_turn(rest):
            return f"Walk.{step}-to ! {self.to(rest)}"
        return f"Walk.{step}-then !" if rest[0] is not None else f"Walk.{step}-by ! {self.here(rest)}"

    def leaves(self, n, rest):
        """How `exit n` leaves: the proof, what is to come then, and whether that is the end of a turn."""
        first, more = rest[0], rest[1:]
        if first is None and n == 0:
            if self.in_turn(more):
                return f"(Walk.left-here {self.to(more)})", more, True
            return f"(Walk.leaves-here {self.here(more)})", more, False
        if first is None:
            proof, then, turn = self.leaves(n - 1, more)
            return f"(Walk.{'left' if turn else 'leaves'}-out {proof})", then, turn
        if isinstance(first, Turn):
            if n == 0:
                return "(Walk.turn-left _)", rest, True
            proof, then, turn = self.leaves(n - 1, more)
            return f"(Walk.{'left' if turn else 'leaves'}-turn _ {proof})", then, turn
        proof, then, turn = self.leaves(n, more)
        return f"(Walk.left-past _ _ _ _ {proof})" if turn else f"(Walk.past _ {proof})", then, turn

    def walk(self, code, rest):
        if code == "return":
            return self.returns(rest)
        if code == "skip":
            self.rule(self.by("skips", rest))
            return self.go_on(rest)
        kind = code[0]
        if kind == "block":
            self.rule("Walk.blocks-in !")
            return self.walk(code[1], [None] + rest)
        if kind == "exit":
            proof, then, turn = self.leaves(int(code[1]), rest)
            self.rule(f"Walk.jumps-{'to' if turn else 'by'} ! {proof}")
            return self.go_on(then)
        if kind == "seq":
            first, then = code[1], code[2]
            if first[0] == "assign":
                self.assign(first, None)
                return self.walk(then, rest)
            if first[0] == "call":
                return self.call(first, None, lambda: self.walk(then, rest))
            self.rule("Walk.first-then !")
            return self.walk(first, [then] + rest)
        if kind == "assign":
            self.assign(code, rest)
            return self.go_on(rest)
        if kind == "call":
            return self.call(code, rest, lambda: self.go_on(rest))
        steps = {"loop": self.loop, "if": self.branch, "switch": self.switch}
        assert kind in steps, f"the statement {kind}"
        return steps[kind](code, rest)

    def write(self, k, typed, equal=None):
        """A local's cell is written; equal is that the value is equal to the one that is to stand there."""
        law = "store" if self.values[k] is not None else "init"
        if equal is None:
            return f"(Run.{law} ! {self.cell(k)} refl ({typed}))"
        return f"(Walk.{law}-as ! {self.cell(k)} refl ({typed}) ({equal}))"

    def assign(self, code, rest):
        """rest is what is to come where the assignment is the last of its sequence, else None."""
        k = int(code[1][1])
        assert not mir.items(code[1][2]), "a store to a field"
        script, value = self.right_side(code[2], k)
        equal = None
        if value.lends:
            value.machine = f"(sliceVal ({value.lends} .ptr) (length {self.lists[value.lends][0]}))"
        if value.array is not None and value.type.kind == "slice":
            xs, _, long, _, _ = self.arrays[value.array]
            at = low(value.array)
            value.machine = f"(sliceVal (l{at}, 0) (length {xs}))"
            equal = f"ap (λ (m : ℕ). sliceVal (l{at}, 0) m) (sym {long})"
        self.rule(f"{'Walk.sets !' if rest is None else self.by('assigns', rest)} {script} {self.write(k, self.typed(value, k), equal)}")
        self.values[k] = value

    def branch(self, code, rest):
        script, value = self.operand(code[1])
        test = self.key("t")
        self.say(f"Run.branches ! {script}")
        state = self.state()
        for arm, outcome in ((code[2], "true"), (code[3], "false")):
            self.restore(state)
            begins = f"(λ h{test[1:]}. let {test} : {value.d} ≡ {outcome} = Walk.is-{outcome} _ h{test[1:]} in"
            self.part(lambda: (self.say(begins), self.walk(arm, rest)))

    def switch(self, code, rest):
        script, value = self.operand(code[1])
        assert value.type.kind == "int" and value.d.isdigit(), "a match on a number"
        arms, arm = [], code[2]
        while arm[0] == "arm":
            arms.append((mir.items(arm[1]), arm[2]))
            arm = arm[3]
        hit = [then for keys, then in arms if value.d in keys]
        assert hit or arm[0] == "default", "a match with no default"
        self.rule(f"Walk.switch-on ! {script} tt")
        self.walk(hit[0] if hit else arm[1], rest)

    # ---- loops: the state is each local that has a value before the loop and is assigned in it, and each slice that is lent as `&mut` in it
    def lent_in(self, code):
        at, found = {}, []

        def go(part):
            if not isinstance(part, list):
                return
            if part and part[0] == "assign":
                k, r = int(part[1][1]), part[2]
                if r[0] == "addrOf":
                    at[k] = int(r[1][1])
                if r[0] == "aggregate" and self.types[k].kind == "slice":
                    source = at.get(int(mir.items(r[1])[0][1][1]))
                    assert source not in self.arrays, "a local array that is lent in a loop"
                    if self.types[k].mutable:
                        found.append(self.values[source].d)
            for inner in part:
                go(inner)

        go(code)
        return [p for p in self.params if p in found]

    def loop(self, code, rest):
        turn = Turn()
        turn.number = number = self.key("loop")[4:]
        turn.assigned, turn.locals = sorted(mir.assigned(code[1])), []
        for k in turn.assigned:
            if self.values[k] is None:
                continue
            if self.values[k].type.kind in ("int", "bool", "struct", "enum"):
                turn.locals.append(k)
            else:
                self.forget(k)
        names = (self.answers.of(self.name, f"vars{number}") or "").split()
        assert len(names) <= len(turn.locals), f"{self.name}.vars{number}: the loop has {len(turn.locals)} numbers and structs"
        names += [f"v{number}-{i + 1}" for i in range(len(names), len(turn.locals))]
        turn.slices = self.lent_in(code[1])
        begins, facts, start = self.loop_data(turn), self.loop_facts(turn), self.answer("start" + number)
        parts = [(name, self.values[k].type.denotes()) for k, name in zip(turn.locals, names)]
        parts += [(f"{p}-now", f"List {self.param_type[p].of.denotes()}") for p in turn.slices]
        state = f"s{number}"
        lets = "".join(f"let {name} : {type} = ({state} .{i}) in " for i, (name, type) in enumerate(parts))
        known = self.loop_known(turn, names)
        invariant = self.answer("inv" + number)
        known.append((f"inv{number}", f"({'Unit {0}' if text.unmarked(invariant) == '?' else invariant})"))
        product = " × ".join([type if " " not in type else f"({type})" for _, type in parts] + ["Unit {0}"])
        self.say(f"let D{number} : Type 0 = {product} in")
        self.say(f"let P{number} : D{number} → Type 0 = λ {state}. {lets}{' × '.join(type for _, type in known)} in")
        self.say(f"let μ{number} : D{number} → ℕ = λ {state}. {lets}{self.answer('falls' + number)} in")
        for k, name in zip(turn.locals, names):
            type = self.values[k].type
            self.values[k] = Value(type, name, f"(refl, fits-{name})" if type.kind == "int" else f"is-{name}" if type.declared else "refl")
        for p in turn.slices:
            self.lists[p] = (f"{p}-now", f"room-{p}-now", f"kept-{p}", True)
        turn.context = list(self.context)
        self.say(f"let I{number} : D{number} → List (Kit.Item 𝓤) = λ {state}. {lets}({self.items()}) in")
        facts_of = f"h{number}"
        heads = [f"let {name} : {type} = {facts_of if len(known) == 1 else f'{facts_of} .{i}'} in " for i, (name, type) in enumerate(known)]
        self.say(f"Walk.loops-by ! 𝓣 P{number} μ{number} I{number}")
        begin = f"(λ {state} h{number} X{number} next{number}. {lets}"
        self.part(lambda: (self.say(begin), self.say("".join(heads)), self.walk(code[1], [turn] + rest)))
        self.lines[-1] += f" {begins} ({', '.join(facts + [f'({start})'])})"

    def loop_data(self, turn):
        return f"({', '.join([self.values[k].d for k in turn.locals] + [self.lists[p][0] for p in turn.slices] + ['tt'])})"

    def loop_facts(self, turn):
        facts = []
        for k in turn.locals:
            value = self.values[k]
            if value.type.kind == "int":
                facts.append(value.fits())
            elif value.type.declared:
                facts.append(value.proof)
        for p in turn.slices:
            facts += [self.lists[p][1], self.lists[p][2]]
        return facts

    def loop_known(self, turn, names):
        known = []
        for k, name in zip(turn.locals, names):
            type = self.values[k].type
            if type.kind == "int":
                known.append((f"fits-{name}", f"({name} < 2 ^ {type.bits})"))
            elif type.declared:
                known.append((f"is-{name}", f"Is {type.row()} {name} ({type.machine(name)} ∷ [])"))
        for p in turn.slices:
            known.append((f"room-{p}-now", f"Slice.Room {self.param_type[p].of.row()} (length {p}-now)"))
            known.append((f"kept-{p}", f"(length {p}-now ≡ length ({p} .now))"))
        return known

    def again(self, turn):
        key = self.key("again")
        for k in turn.assigned:
            if k not in turn.locals and self.values[k] is not None:
                self.forget(k)
        self.front(*turn.context)
        facts = ", ".join(self.loop_facts(turn) + [f"({self.answer(key)})"])
        self.say(f"next{turn.number} {self.loop_data(turn)} ({facts}) ({self.answer('fall' + key[5:])})")

    def forget(self, k):
        self.rule(f"Walk.forget ! {self.cell(k)} refl")
        self.values[k] = None

    # ---- the context written out
    def machine(self, k):
        if k in self.arrays:
            return self.arrays[k][1]
        value = self.values[k]
        if value.type.kind == "ptr":
            return f"(vptr l{low(value.array)} 0)" if value.array is not None else f"(vptr ({value.d} .ptr .0) ({value.d} .ptr .1))"
        if value.type.kind == "slice":
            return value.machine or f"(sliceVal ({value.d} .ptr) (length {self.lists[value.d][0]}))"
        return value.machine

    def type_term(self, k):
        if 0 < k <= len(self.params) and self.params[k - 1] in self.slices:
            return self.of_slice("Y", self.params[k - 1])
        return self.program.types.term(self.function.locals[k])

    def item(self, entry):
        if entry == "ends":
            return "‵ Fd"
        kind, x = entry
        if kind == "cell" and self.values[x] is None:
            return f"‵ (froom {self.type_term(x)} l{low(x)} 0)"
        if kind == "cell":
            return f"‵ (fat fullShare {self.type_term(x)} l{low(x)} 0 {self.machine(x)})"
        if kind == "token":
            return f"‵ (flft κ{low(x)} q{low(x)})"
        if kind == "array":
            xs, machine, _, of, n = self.arrays[x]
            return f"‵ (Array {of.row()} {n} .own {xs} ({machine} ∷ []))"
        now, _, _, changed = self.lists[x]
        return f"‵ ({self.slice_row(x)} .own {f'(at-last {x} {now})' if changed else x} (sliceVal ({x} .ptr) (length {now}) ∷ []))"

    def items(self):
        return " ∷ ".join([self.item(e) for e in self.context] + ["[]"])

    def named(self):
        """The context in a comment."""
        words = []
        for entry in self.context:
            if entry == "ends":
                words.append("their ends")
            elif entry[0] == "token":
                words.append(f"κ{low(entry[1])}")
            elif entry[0] == "own":
                words.append(entry[1])
            elif entry[0] == "array":
                words.append(f"the array {entry[1]}")
            elif entry[0] == "cell" and "the locals" not in words:
                words.append("the locals")
        return f"[{'; '.join(words)}]"

    # ---- returns
    def ensured(self, key):
        """What the function ensures: no clause, one or two."""
        if self.declared.ensures == 0:
            return "id⊢ 𝓤 (emp 𝓤)"
        if self.declared.ensures == 1:
            return self.clause(key)
        return self.both((key,), ("too" + key[3:],))

    def returns(self, rest):
        key, value = self.key("ret"), self.values[0]
        through, post, bound = "refl", self.own("Post"), self.own("bound")
        for x in reversed(rest):
            if isinstance(x, Turn):
                through = f"(Walk.through-turn 𝓤 H E _ _ {post} {through})"
            elif x is None:
                through = f"(Walk.through-block 𝓤 H E _ {post} {through})"
            else:
                through = f"(Walk.through 𝓤 H {self.C} {self.Λ} E _ _ {post} {through})"
        self.rule(f"Walk.returns-by ! {post} {through} (Run.look ! {self.cell(0)} refl)")
        locals = range(len(self.types))
        self.front(*[("cell", k) for k in locals], "ends")
        self.context = self.context[len(self.types) + 1:]
        cells = [f"Walk.{'bare' if self.values[k] is None else 'full'} {self.type_term(k)} l{low(k)}" for k in locals]
        cells = [cell if self.values[k] is None else f"{cell} {self.machine(k)}" for k, cell in zip(locals, cells)]
        self.rule(f"Walk.frees-gathered ! {cons(cells)} Fd ed ({self.items()})")
        if self.mutable:
            self.give([self.ended(p) for p in self.params])
        self.join_tokens(self.own_tokens(), self.alias)
        self.rule(f"Walk.use0 W ! (‵ {self.owned(value)}) {self.making(value)}")
        self.context.insert(0, "result")
        said = f"{self.alias}.ended ({self.alias}.clauses 𝓤 H A mem run)"
        if not self.mutable:
            self.keep("tokens", "result")
            none = nest(["tt"] * len(self.params))
            self.say(f"Kit.by ! (Walk.leave 𝓤 H A W {said} {bound} {value.machine} {value.d} {none} ({self.ensured(key)}))")
            return
        self.keep("tokens", "arguments", "result")
        lasts = nest([self.lists[p][0] if p in self.mutable else "tt" for p in self.params])
        kept = nest([self.lists[p][2] if p in self.mutable else "tt" for p in self.params])
        leaves = f"Walk.leave-by 𝓤 H A W {said} stayed-{dash(self.name)} {bound}"
        self.say(f"Kit.by ! ({leaves} {value.machine} {value.d} {lasts} {kept} ({self.ensured(key)}))")

    def ended(self, p):
        """What is had of a parameter at the end, as a source."""
        if p not in self.mutable:
            return "Walk.nothing", None, False
        t, row, now = self.param_type[p], self.param_type[p].of.row(), self.lists[p][0]
        own = self.item(("own", p))[2:]
        law = f"Walk.ended-slice 𝓤 H A W (named {t.lifetime}) κ{low(t.lifetime)} {row} {p} {now} _"
        return f"Walk.turned {own} (finally {row} ({p} .name) {now}) ({law})", ("own", p), False
