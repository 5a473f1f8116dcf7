"""A proof file: the walks of one function, or of the functions of one cycle of calls, and the theorem that they make."""
import mir
import source
import text
from calls import Walk
from fault import ask
from steps import Value, cons, dash, low, nest, path
from kinds import Types

MODULE = "module _ {M : Type 1} (𝓤 : URA M) (H : Heap 𝓤) (A : Atoms 𝓤)"


class Program:
    """The code that a crate reaches, and the sources of all crates."""

    def __init__(self, root, crate, sources):
        self.root, self.crate, self.source = root, crate, sources
        ask("walk_laws" in source.dependencies(root, crate), f"crates.txt: {crate} has walks, and not walk_laws among its dependencies")
        self.functions, table = mir.load(root, crate)
        self.types = Types(table)

    def proofs(self, full):
        crate, *rest = full.split("::")
        return (f"Rattle·{crate}·proofs.proofs." if crate == self.crate else f"Rattle·{crate}.proofs.") + ".".join(rest)

    def specs(self, full):
        crate, *rest = full.split("::")
        return (f"Rattle·{crate}·specs.specs.declared." if crate == self.crate else f"Rattle·{crate}.specs.declared.") + ".".join(rest)


def of(alias, model="A mem run"):
    """What is said of a function, in a model."""
    return f"{alias}.ended ({alias}.clauses 𝓤 H {model})"


OUTER = "(𝓖 .A) (𝓜 .mem) (𝓡 .run)"


class Proof:
    def __init__(self, program, names, answers, shows):
        self.program, self.cited, self.shows = program, [line for _, line in answers.uses], shows
        self.functions = [program.functions[f"{program.crate}::{n}"] for n in names]
        calls_itself = f'"{self.functions[0].name}"' in str(self.functions[0].body)
        self.share_names()
        self.cycle = [f.name for f in self.functions] if len(names) > 1 or calls_itself else []
        self.walks = [Walk(program, f, self.cycle, answers) for f in self.functions]
        self.folder = "+" + "+".join(names) if self.cycle else names[0]

    def share_names(self):
        """Types of different crates with one name are told apart by their crates."""
        met = set()
        for f in self.functions:
            mir.types(f.locals, met)
            for callee in mir.called(f.body):
                mir.types(self.program.functions[callee].locals[:1 + self.program.functions[callee].params], met)
        shorts = [name.split("::")[-1] for name in met]
        self.program.types.shared = {short for short in shorts if shorts.count(short) > 1}

    def write(self):
        parts = [self.member(w) for w in self.walks]
        measures, modules = [m for m, _ in parts], [b for _, b in parts]
        body = "\n".join(measures + modules + [self.cycle_theorem() if self.cycle else self.theorem(self.walks[0])])
        return text.file(self.shows, self.imports(), body)

    # ---- one function
    def code(self, w):
        return f"code.{dash(w.name)}-function" if self.cycle else "code.function"

    def member(self, w):
        """What stands before a function's walk, and the walk."""
        types = [w.param_type[p] for p in w.params]
        machines = [w.of_slice("v", p) if t.kind == "slice" else t.machine(p) for p, t in zip(w.params, types)]
        self.enter(w, machines)
        before = (self.measure(w, types) if self.cycle else []) + (self.stays(w, types) if w.mutable else [])
        return "\n".join(before), "\n".join(self.names(w, types, machines) + self.walk(w, types, machines)) + "\n"

    def measure(self, w, types):
        n = dash(w.name)
        bound = " ".join(f"(y .0 .3{path(i)})" for i in range(len(w.params)))
        takes, names = " → ".join(t.denotes() for t in types), " ".join(w.params)
        return [f"abbrev measure-{n} : {takes} → ℕ\nmeasure-{n} {names} = {w.answer('measure')}\n",
                f"{MODULE} (mem : Memory → SProp 𝓤) (run : Routine → Fun 𝓤) where\n"
                f"  abbrev μ-{n} : Walk.Of 𝓤 H A {of(w.alias)} .Ghost → ℕ\n  μ-{n} y = measure-{n} {bound}\n"]

    def stays(self, w, types):
        n = dash(w.name)
        stays = nest([f"gave-slice ({t.lifetime} ∷ []) tt (plain (λ _. {t.of.row()}))" if p in w.mutable
                      else f"stay-dropped ({self.slot(t)}) yes" for p, t in zip(w.params, types)])
        return [f"abbrev stayed-{n} : Stays ({w.alias}.ended .signature .params) ({w.alias}.ended .kept)\nstayed-{n} = {stays}\n"]

    def lifetimes(self, w):
        """The names of a function's lifetimes and of their shares, as tuples."""
        count = range(w.function.lifetimes)
        return nest([f"κ{low(j)}" for j in count]), nest([f"q{low(j)}" for j in count])

    def names(self, w, types, machines):
        """The module of a walk, with names for what it speaks of: each slice, the arguments, what is to be had at the end."""
        binders = [f"(κ{low(j)} : Lft) (q{low(j)} : Share)" for j in range(w.function.lifetimes)]
        binders += [f"({p} : {t.denotes()})" for p, t in zip(w.params, types)]
        lines = [f"{MODULE} (W : Given 𝓤 H A) (mem : Memory → SProp 𝓤) (run : Routine → Fun 𝓤) {' '.join(binders)} where"]
        define = lambda name, type, term: lines.append(f"  abbrev {name} : {type}\n  {name} = {term}\n")
        for p in w.slices:
            define(w.of_slice("T", p), "RattleType", w.slice_type(p))
            define(w.of_slice("Y", p), "Ty", self.program.types.term(w.function.locals[1 + w.params.index(p)])[1:-1])
            define(w.of_slice("v", p), "Val", f"sliceVal ({p} .ptr) (length ({p} .now))")
        (ks, qs), bound = self.lifetimes(w), w.own("bound")
        values = nest([f"{m} ∷ []" for m in machines])
        define(bound, f"Walk.Of 𝓤 H A {of(w.alias)} .Ghost", f"(({ks}, {qs}, tt, {nest(w.params)}, {values}), tt)")
        kept = f"walkOf 𝓤 H A {w.alias}.ended stayed-{dash(w.name)} ({w.alias}.clauses 𝓤 H A mem run) .post {bound}"
        define(w.own("Post"), "Val → SProp 𝓤", kept if w.mutable else f"Walk.Ends 𝓤 H A W {of(w.alias)} {bound}")
        return lines

    def walk(self, w, types, machines):
        n, (ks, qs), values = dash(w.name), self.lifetimes(w), nest([f"{m} ∷ []" for m in machines])
        facts = self.facts(w, types)
        known = [f"(known-{c} : Triple 𝓤 ({w.C} #g-{c}) (Walk.Of 𝓤 H A {of('g-' + c)}))" for c in self.short_callees(w)]
        known += [self.known_member(c, n, w) for c in self.cycle]
        tables = "(𝓣 : Wp.Tables 𝓤 H)" if w.loops else "(C : Calls 𝓤 H) (Λ : Loops 𝓤 H)"
        entry = f"onEntry 𝓤 H A {w.alias}.signature {ks} {qs} {nest(w.params)} {values}"
        wp = f"WpFn 𝓤 H {w.C} {w.Λ} {self.code(w)} ({' ∷ '.join(machines + ['[]'])}) {w.own('Post')}"
        names, rows = " ".join(f[1:].split(" :")[0] for f in facts), cons([w.row(p) for p in w.params])
        alive = f"raw (alive 𝓤 H A {w.alias}.signature {ks} {qs})"
        steps = [f"        Kit.qed W ({alive} ∷ ‵ (owns {rows} {nest(w.params)} {values}) ∷ []) ∵"] + w.lines
        return [f"  module _ {tables} (fm : FmC 𝓤 H (W .laws) {w.C}) {' '.join(known)} where",
                f"    walk-{n} : {' → '.join(facts)} → ent 𝓤 ({entry}) ({wp})",
                f"    walk-{n} {names} ="] + (["        ?"] if self.is_left_out(w) else steps)

    def is_left_out(self, w):
        """A wrong program is wrong at one function: in a cycle of calls the other walks, which rest on contracts as it does, are left out."""
        return w.answers.only != w.name and w.answers.only in [other.name for other in self.walks]

    def slot(self, t):
        return f"shrSliceOf ({t.lifetime} ∷ []) tt (plain (λ _. {t.of.row()}))" if t.kind == "slice" else f"plain (λ _. {t.row()})"

    def short_callees(self, w):
        return [dash(c.split("::")[-1]) for c in w.callees]

    def facts(self, w, types):
        facts = []
        for p, t in zip(w.params, types):
            if t.kind == "int":
                facts.append(f"(fits-{p} : {p} < 2 ^ {t.bits})")
            else:
                machine = w.of_slice("v", p) if t.kind == "slice" else t.machine(p)
                facts.append(f"(is-{p} : Is {w.row(p)} {p} ({machine} ∷ []))")
        assert len(w.declared.requires) < 2, "two clauses of requires"
        if w.declared.requires:
            facts.append(f"(pre : {w.declared.requires[0].strip()})")
        return facts

    def known_member(self, full, n, w):
        c = dash(full.split("::")[-1])
        said = f"Walk.Of 𝓤 H A {of('f-' + c)}"
        return (f"(known-{c} : (y : {said} .Ghost) → μ-{c} 𝓤 H A mem run y < measure-{n} {' '.join(w.params)}"
                f" → ent 𝓤 ({said} .pre y) ({w.C} #{c} ({said} .args y) ({said} .post y)))")

    def enter(self, w, machines):
        """From what the caller gives to the function's first step, and on to its end."""
        w.part(lambda: self.enter_part(w, machines))

    def enter_part(self, w, machines):
        w.context = ["tokens", "owned"]
        w.front("owned")
        parts = [f"Walk.{'stays' if p in w.slices else 'gone'} ({w.row(p)} .own {p} ({m} ∷ []))" for p, m in zip(w.params, machines)]
        w.rule(f"Walk.hears W {cons(parts)} !")
        w.context[0:1] = [("own", p) for p in reversed(w.slices)]
        w.split_tokens(w.own_tokens())
        w.rule(f"Walk.enter ! {w.C} {w.Λ} {self.code(w)} ({' ∷ '.join(machines + ['[]'])}) {w.own('Post')}")
        locals = range(len(w.types))
        w.say(" ".join(f"Run.alloc1 ! (λ l{low(k)}." for k in locals))
        for k in locals:
            w.context[0:0] = [("cell", k), ("end", k)]
        w.say(f"let E : Env 𝓤 H = Walk.at-addresses ({self.code(w)} .locals) {cons(f'l{low(k)}' for k in locals)} in")
        w.front(*[e for k in locals for e in (("cell", k), ("end", k))])
        rest = w.context = w.context[2 * len(w.types):]
        w.say(f"Walk.gathers ! {cons(f'Walk.bare {w.type_term(k)} l{low(k)}' for k in locals)} ({w.items()}) (λ Fd ed.")
        w.context = [("cell", k) for k in locals] + ["ends"] + rest
        w.rule("Walk.allocated !")
        w.rule("Walk.after-result !")
        for k, p in enumerate(w.params):
            t = w.param_type[p]
            value = Value(t, p, f"(refl, fits-{p})" if t.kind == "int" else f"is-{p}")
            w.rule(f"Walk.pass ! {w.write(k + 1, w.typed(value))}")
            w.values[k + 1] = value
        w.rule("Walk.passed !")
        w.learn_fits()
        w.walk(w.function.body, [])

    # ---- theorems
    def laws(self, w):
        """What is had of each parameter at exit, how it is spelt, and what its values tell."""
        types = [w.param_type[p] for p in w.params]
        if not w.mutable:
            silent = nest(["(λ κs x f. refl)"] * len(types))
        else:
            count = w.function.lifetimes
            silent = f"stayed-{dash(w.name)} " + nest([
                f"goes-gave-slice 𝓤 H (𝓖 .A) W {count} {t.lifetime} tt (plain (λ _. {t.of.row()}))" if p in w.mutable
                else f"goes-dropped 𝓤 H (𝓖 .A) W {count} ({self.slot(t)}) yes (λ κs x f. refl)" for p, t in zip(w.params, types)])
        spelt = f"(λ κs. {nest([t.values() for t in types])})"
        of_slice = lambda t: f"{'mut' if t.mutable else 'shr'}-slice-tells (named {t.lifetime}) (κs{path(t.lifetime)}) {t.of.row()}"
        tells = nest([of_slice(t) if t.kind == "slice" else t.tells() for t in types])
        return silent, spelt, f"(λ κs. {tells})"

    def holds(self, w):
        return [f"(are{path(i)}{' .1' if w.param_type[p].kind == 'int' else ''})" for i, p in enumerate(w.params)]

    def cite(self, full):
        c = dash(full.split("::")[-1])
        calls = dash("·".join(full.split("::")))
        said = f"Walk.Of 𝓤 H (𝓖 .A) {of('g-' + c, OUTER)}"
        return f"(cited 𝓤 H ({said}) 𝓜 𝓡 code.env #g-{c} g-{c}-def.routine code.calls-{calls} (g-{c}-thm.met 𝓤 H 𝓜 𝓖 𝓡))"

    def asked(self, w, term):
        return f"needs 𝓤 _ _ ({term})" if w.declared.requires else f"via 𝓤 _ (fst∗ 𝓤 _ (emp 𝓤)) ({term})"

    def applied(self, w, lifetimes, arguments, known):
        n, tables, holds = dash(w.name), "𝓣" if w.loops else "(𝓣 .C) (𝓣 .Λ)", " ".join(self.holds(w))
        return f"walk-{n} 𝓤 H (𝓖 .A) W (𝓜 .mem) (𝓡 .run) {lifetimes} {arguments} {tables} (fmOf 𝓤 H (W .laws) 𝓣) {known} {holds}"

    def begin(self, name, statement, unfolds):
        return [f"pub {name}-spec : {{M : Type 1}} → {statement}.statement M",
                f"unfolding {unfolds} tablesOf",
                f"{name}-spec 𝓤 H 𝓜 𝓖 𝓡 =",
                "    let W : Given 𝓤 H (𝓖 .A) = givenOf 𝓤 H 𝓜 𝓖 in",
                "    let 𝓣 : Wp.Tables 𝓤 H = tablesOf 𝓤 H 𝓜 (tables 𝓤 H 𝓜 𝓡 code.env) in"]

    def theorem(self, w):
        n, alias = dash(w.name), w.alias
        silent, spelt, tells = self.laws(w)
        lifetimes = " ".join(f"(κs{path(j)}) (qs{path(j)})" for j in range(w.function.lifetimes))
        arguments = " ".join(f"(a{path(i)})" for i in range(len(w.params)))
        applied = self.applied(w, lifetimes, arguments, " ".join(map(self.cite, w.callees)))
        said = f"{alias}.ended ({alias}.clauses 𝓤 H {OUTER})"
        return "\n".join(self.begin(n, "stated", "code.routine") + [
            f"    entered 𝓤 H (tripleOf 𝓤 H (𝓖 .A) {alias}.signature ({alias}.spec 𝓤 H {OUTER}))",
            f"    (tables 𝓤 H 𝓜 𝓡 code.env .C) (tables 𝓤 H 𝓜 𝓡 code.env .Λ) #{n} code.function (code.unfolded 𝓤 H 𝓜 𝓡)",
            f"    (Walk.{'thick' if w.mutable else 'thin'} 𝓤 H (𝓖 .A) W {said} {silent}",
            f"    {spelt} {tells} code.function 𝓣",
            f"    (λ κs qs bounds a g are. {self.asked(w, applied)}))"])

    def cycle_theorem(self):
        name = "+" + "+".join(dash(w.name) for w in self.walks)
        measured = [f"measured 𝓤 H (𝓖 .A) _ (μ-{dash(w.name)} 𝓤 H {OUTER})" for w in self.walks]
        grades = measured[-1]
        for m in reversed(measured[:-1]):
            grades = f"({m}, {grades})"
        lines = self.begin(name, "cycle", " ".join(f"code.{dash(w.name)}-routine" for w in self.walks))
        lines.append(f"    mutual-elim 𝓤 H (𝓖 .A) (cycle.functions 𝓤 H {OUTER}) _<_ (Nat·lt-wfRel .wf) ({grades})")
        return "\n".join(lines + [self.cycle_member(w) for w in self.walks])

    def cycle_member(self, w):
        n, alias = dash(w.name), w.alias
        silent, spelt, tells = self.laws(w)
        smaller = []
        for i, full in enumerate(self.cycle):
            c, last = dash(full.split("::")[-1]), len(self.cycle) - 1
            way = "" if last == 0 else " .1" * i + (" .0" if i < last else "")
            measure = f"μ-{c} 𝓤 H {OUTER} z"
            smaller.append(f"(λ z lt. smaller{way} ({measure}) (subst (λ (m : ℕ). {measure} < m) e lt) z refl)")
        lifetimes = " ".join(f"(y .0 .0{path(j)}) (y .0 .1{path(j)})" for j in range(w.function.lifetimes))
        arguments = " ".join(f"(y .0 .3{path(i)})" for i in range(len(w.params)))
        applied = self.applied(w, lifetimes, arguments, " ".join(list(map(self.cite, w.callees)) + smaller))
        spec = f"{alias}.signature ({alias}.spec 𝓤 H {OUTER})"
        wp = f"(WpFn 𝓤 H (𝓣 .C) (𝓣 .Λ) code.{n}-function) (𝓣 .C #{n}) (code.{n}-unfolded 𝓤 H 𝓜 𝓡)"
        said = f"{alias}.ended ({alias}.clauses 𝓤 H {OUTER})"
        return "\n".join([
            f"    (λ t smaller. at-on 𝓤 H (𝓖 .A) {spec} {wp} (μ-{n} 𝓤 H {OUTER}) t",
            f"    (λ y e. Walk.{'thick' if w.mutable else 'thin'}-at 𝓤 H (𝓖 .A) W {said} {silent}",
            f"    {spelt} {tells} code.{n}-function 𝓣 y",
            f"    (λ are. {self.asked(w, applied)})))"])

    # ---- imports
    def imports(self):
        lines = text.standard(source.cited(self.program.root, self.program.crate))
        laws = ["Walk", "Again", "Numbers"] + (["Arrays"] if any(w.has_local for w in self.walks) else [])
        lines += [f"use Rattle·walk_laws.proofs.{module} as {module}" for module in laws] + self.cited
        for full in sorted(self.declared_types()):
            short, name, module = self.program.types.alias(full), full.split("::")[-1], self.program.proofs(full)
            lines.append(f"use {self.program.specs(full)}.{{{name if name == short else f'{name} as {short}'}}}")
            lines += [f"use {module} as {short}-T", f"use {module}.Laws as {short}-L"]
        for full, variant in sorted(set().union(*[w.variants for w in self.walks])):
            lines.append(f"use {self.program.specs(full)}.the-variants.{{{variant} as {self.program.types.alias(full)}-{variant}}}")
        for full in dict.fromkeys(c for w in self.walks for c in w.callees):
            c, module = dash(full.split("::")[-1]), self.program.proofs(full)
            lines += [f"use {module} as g-{c}", f"use {module}.Symbol as g-{c}-def"]
            lines += [f"use {module}.Symbol.{{name as #g-{c}}}", f"use {module}.Met as g-{c}-thm"]
        for w in self.walks:
            module = self.program.proofs(w.function.name)
            lines += [f"use {module} as {w.alias}", f"use {module}.Key.{{name as #{dash(w.name)}}}"]
        own = f"Rattle·{self.program.crate}·proofs.proofs.{self.folder}"
        return lines + [f"use {own} as cycle" if self.cycle else f"use {own}.Statement as stated", f"use {own}.Code as code"]

    def declared_types(self):
        met = [t for w in self.walks for t in w.types]
        for w in self.walks:
            for full in w.callees:
                callee = self.program.functions[full]
                met += [self.program.types.read(t) for t in callee.locals[:1 + callee.params]]
        met = [t.of if t.kind == "slice" else t for t in met]
        return {t.name for t in met if t.declared}
