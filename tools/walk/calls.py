"""A call: what is lent for it, what the callee asks, and what comes back."""
import mir
from steps import Steps, Value, cons, dash, low, nest, path


class Loan:
    """A slice that is lent for one call: a `&mut` parameter lent on, or a local array."""

    def __init__(self, number, index, type, value):
        self.number, self.index, self.type, self.value = number, index, type, value
        self.lifetime = f"(ν{number} ∷ [])"
        self.token = (("fresh", number), self.lifetime, "fullShare")


class Walk(Steps):
    def call(self, code, rest, then):
        """rest is what is to come where the call is the last of its sequence, else None."""
        callee = self.program.functions[mir.named(code[1][1][1])]
        inside = callee.name in self.cycle
        if not inside and callee.name not in self.callees:
            self.callees.append(callee.name)
        key = self.key("call")
        times = self.called[callee.short] = self.called.get(callee.short, 0) + 1
        self.by_callee = f"({callee.short})" if times == 1 else f"({callee.short} {times})"
        types = [self.program.types.read(t) for t in callee.locals[:1 + callee.params]]
        arguments = [self.operand(o)[1] for o in mir.items(code[2])]
        self.say(f"-- {self.named()}")
        self.say(f"-- call {key[4:]}: {callee.short} ({', '.join(self.shown(a) for a in arguments)})")
        arguments, tokens, loans = self.lend(callee, types[1:], arguments)
        self.give([self.source(a) for a in arguments])
        alias = ("f-" if inside else "g-") + dash(callee.short)
        self.join_tokens(tokens, alias)
        self.front("tokens", "arguments")
        del self.context[0:2]
        writes = any(t.kind == "slice" and t.mutable for t in types[1:])
        self.ask(code, rest, key, callee, alias, inside, arguments, tokens, writes)
        self.come_back(code, rest, key, types, tokens, loans, writes, then)

    def shown(self, argument):
        """An argument in a comment."""
        if argument.array is not None:
            return f"the array {argument.array}"
        d = argument.d
        return d[1:-1] if d.startswith("(") and d.endswith(")") else d

    # ---- before the call
    def lend(self, callee, types, arguments):
        tokens, loans = [None] * callee.lifetimes, []
        for i, (type, value) in enumerate(zip(types, arguments)):
            if type.kind != "slice":
                continue
            if value.array is None and not value.lends:
                assert tokens[type.lifetime] is None and not type.mutable, "one slice twice"
                tokens[type.lifetime] = self.own_tokens()[value.type.lifetime]
                continue
            self.loans += 1
            loan = Loan(self.loans, i, type, value)
            arguments[i] = self.lend_array(loan) if value.array is not None else self.lend_on(loan)
            self.context[0:2] = [("lent", loan.number), ("owed", loan.number), ("fresh", loan.number)]
            loans.append(loan)
            tokens[type.lifetime] = loan.token
        assert None not in tokens and len(set(t[0] for t in tokens)) == len(tokens), "one slice twice"
        return arguments, tokens, loans

    def lends(self, loan, row, at, now, law):
        """The loan is made by the law; what the callee is given."""
        self.say(f"{law} (λ ν{loan.number} δ{loan.number}.")
        slice = f"(record {{ ptr = {at}; name = δ{loan.number}; now = {now} }})"
        argument = Value(loan.value.type, slice, lends="loan")
        argument.machine, argument.loan = f"(sliceVal {at} (length {now}))", loan
        kind = "MutSlice" if loan.type.mutable else "ShrSlice"
        loan.given = f"({kind} (named {loan.type.lifetime}) {loan.lifetime} {row} .own {slice} ({argument.machine} ∷ []))"
        return argument

    def lend_array(self, loan):
        k = loan.value.array
        xs, _, long, of, n = self.arrays[k]
        at, row = f"l{low(k)}", of.row()
        self.has_local = True
        self.front(("cell", k), ("array", k))
        room = f"(subst (Slice.Room {row}) (sym {long}) (lit< tt, lit< tt))"
        loan.base = f"W {row} tt {n} {at} (named {loan.type.lifetime}) {xs} ! tt"
        return self.lends(loan, row, f"({at}, 0)", xs, f"Arrays.{'lends' if loan.type.mutable else 'shares'} {loan.base} {room}")

    def lend_on(self, loan):
        p, mine = loan.value.lends, self.param_type[loan.value.lends]
        now, j, row = self.lists[p][0], mine.lifetime, mine.of.row()
        self.front(("own", p), ("token", j))
        loan.base = f"W {row} κ{low(j)} q{low(j)} {p} (named {j}) (named {loan.type.lifetime}) {now} ! tt"
        return self.lends(loan, row, f"({p} .ptr)", now, f"Again.{'lends' if loan.type.mutable else 'shares'} {loan.base}")

    def source(self, a):
        """Where what an argument owns comes from."""
        if a.lends:
            return f"Walk.kept {a.loan.given}", ("lent", a.loan.number), False
        if a.type.kind != "slice":
            return f"Walk.made {self.owned(a)} {self.making(a)}", None, False
        t = a.type
        copy = f"shr-slice-copy 𝓤 H A W (named {t.lifetime}) κ{low(t.lifetime)} {t.of.row()} .twice {a.d} _"
        return f"Walk.copied ({self.slice_row(a.d)} .own {a.d} ({self.of_slice('v', a.d)} ∷ [])) ({copy})", ("own", a.d), True

    # ---- the call
    def ask(self, code, rest, key, callee, alias, inside, arguments, tokens, writes):
        said = self.program.source.function(callee.name)
        machines = [(self.of_slice("v", a.d) if a.type.kind == "slice" and not a.lends else a.machine) + " ∷ []" for a in arguments]
        lifetimes, shares = nest([k for _, k, _ in tokens]), nest([q for _, _, q in tokens])
        bound = f"(({lifetimes}, {shares}, tt, {nest([a.d for a in arguments])}, {nest(machines)}), tt)"
        requires = self.required(key, len(said.requires))
        assert said.ensures < 3, "three clauses of ensures"
        ensures = ["factI 𝓤 (Unit {0}) (emp 𝓤) tt", "id⊢ 𝓤 _", "Walk.hears-both 𝓤 _ _"][said.ensures]
        known = f"known-{dash(callee.short)} {bound}"
        if inside:
            known += f" ({self.answer('less' + key[4:], 'less' + self.by_callee)})"
        operands = "(Run.no-more !)"
        for o in reversed(mir.items(code[2])):
            operands = f"(Run.and-then ! {self.operand(o, 1)[0]} {operands})"
        step = f"Walk.asks{'ˡ' if writes else ''}{'' if rest is None else '-last'}"
        self.say(f"{step} W ! fm {alias}.ended ({alias}.clauses 𝓤 H A mem run) {bound} _ ({known}) ({requires}) (λ r ws. {ensures})")
        self.operands = operands

    def required(self, key, clauses):
        """What the callee requires: no clause, one or two."""
        if clauses == 0:
            return "id⊢ 𝓤 (emp 𝓤)"
        if clauses == 1:
            return self.clause(key, "call" + self.by_callee)
        return self.both((key, "call" + self.by_callee), ("also" + key[4:], "also" + self.by_callee))

    # ---- after the call
    def come_back(self, code, rest, key, types, tokens, loans, writes, then):
        n = key[4:]
        result, lasts = types[0], f"ws{n} " if writes else ""
        go_on = lambda r, case: self.land(code, rest, n, types, r, case, tokens, loans, writes, then)
        if not (result.kind == "enum" and self.matches):
            self.say(f"{self.operands} (λ u{n} r{n} {lasts}is{n}′ e{n}.")
            return go_on(f"r{n}", None)
        self.say(f"{self.operands} (λ u{n} r{n}. elim r{n} [")
        state, payloads = self.state(), self.program.types.variants(result)
        for i, variant in enumerate(self.program.source.variants_of(result.name)):
            self.restore(state)
            self.variants.add((result.name, variant))
            names = [f"x{n}-{j}" for j in range(len(payloads[i]))]
            built = " ".join([f"{result.short}-{variant}"] + names)
            begins = f"{'| ' if i else ''}{built} ↦ λ {lasts}is{n}′ e{n}."
            self.part(lambda: (self.say(begins), go_on(f"({built})" if names else built, (i, names, payloads[i]))))
        self.lines[-1] += "]"

    def land(self, code, rest, n, types, r, case, tokens, loans, writes, then):
        self.take_back(n, types[1:], tokens, loans, writes)
        for loan in loans:
            last = f"(ws{n}{path(loan.index)})"
            (self.slice_back if loan.value.array is None else self.array_back)(loan, last)
        result, k, proof = types[0], int(code[3][1]), f"is{n}"
        assert not mir.items(code[3][2]), "a call's result in a field"
        tells = f"({result.tells()} {r} _ {proof}′)"
        write = self.write(k, f"{result.lawful()} .typed {r} _ {proof}′ .0", f"ap only {tells}")
        self.rule(f"{'Walk.lands-in !' if rest is None else self.by('lands', rest)} {write}")
        is_ = f"Is {result.row()} {r}"
        self.say(f"let {proof} : {is_} ({result.machine(r)} ∷ []) = subst (λ (vs : List Val). {is_} vs) {tells} {proof}′ in")
        self.values[k] = Value(result, r, proof if result.kind != "int" else f"(refl, {proof} .1)")
        self.values[k].case = case
        self.rule(f"Walk.written-out ! ({self.items()}) refl")
        then()

    def take_back(self, n, types, tokens, loans, writes):
        """The tokens, and of each `&mut` argument its last list, as long as the one that was lent."""
        self.context.insert(0, "tokens")
        if not writes:
            return self.split_tokens(tokens)
        lent, lasts, lengths = {loan.index: loan for loan in loans}, [], []
        for i, type in enumerate(types):
            if type.kind == "slice" and type.mutable:
                loan, last = lent[i], f"(ws{n}{path(i)})"
                lasts.append(f"Walk.final (finally {type.of.row()} δ{loan.number} {last}) (length {last}) (length {self.lent_list(loan)})")
                lengths.append(loan.number)
            else:
                lasts.append("Walk.gone _")
        names = " ".join(f"len{k}" for k in lengths)
        self.say(f"Walk.returned W {self.pairs(tokens)} {cons(lasts)} ! (id⊢ 𝓤 _) (λ {names}.")
        self.context[0:1] = [("final", k) for k in reversed(lengths)] + [entry for entry, _, _ in tokens]

    def lent_list(self, loan):
        return self.lists[loan.value.lends][0] if loan.value.array is None else self.arrays[loan.value.array][0]

    def array_back(self, loan, last):
        k, n = loan.value.array, loan.number
        xs, _, long, of, count = self.arrays[k]
        if loan.type.mutable:
            self.front(("fresh", n), ("owed", n), ("final", n))
            self.say(f"Arrays.backs {loan.base} {last} {long} (λ cell{n}.")
            self.context[0:3] = [("cell", k), ("array", k)]
            self.arrays[k] = (last, f"cell{n}", f"(len{n} ∙ {long})", of, count)
        else:
            self.front(("fresh", n), ("owed", n))
            self.say(f"Arrays.unshares {loan.base} {long} (λ cell{n}.")
            self.context[0:2] = [("cell", k), ("array", k)]
            self.arrays[k] = (xs, f"cell{n}", long, of, count)

    def slice_back(self, loan, last):
        p, n = loan.value.lends, loan.number
        j, cell = self.param_type[p].lifetime, ("cell", 1 + self.params.index(p))
        _, room, long, _ = self.lists[p]
        if not loan.type.mutable:
            self.front(("fresh", n), ("owed", n))
            self.rule(f"Again.unshares {loan.base} ({room})")
            self.context[0:2] = [("own", p), ("token", j)]
            return
        self.front(("fresh", n), ("owed", n), ("final", n), cell)
        self.rule(f"Again.backs {loan.base} {last} ({room}) len{n}")
        self.context[0:4] = [("own", p), ("token", j), cell]
        row = self.param_type[p].of.row()
        self.lists[p] = (last, f"(subst (Slice.Room {row}) (sym len{n}) ({room}))", f"(len{n} ∙ {long})", True)
