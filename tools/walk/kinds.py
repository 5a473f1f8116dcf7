"""The types that a walk meets, and the antt terms that speak of each: its row, what it denotes, the laws that make, tell and type it."""
import mir


class Type:
    """kind is int, bool, unit, ptr, struct, enum, slice or array."""

    def __init__(self, kind, **more):
        self.kind = kind
        self.__dict__.update(more)

    @property
    def declared(self):
        return self.kind in ("struct", "enum")

    # ---- terms
    def row(self):
        if self.kind == "int":
            return f"(UInt {self.width})"
        if self.kind == "array":
            return f"(Array {self.of.row()} {self.count})"
        return {"bool": "Boolean", "unit": "Nothing"}.get(self.kind) or f"{self.short}-T.the-row"

    def denotes(self):
        if self.kind == "slice":
            return f"RefT (List {self.of.denotes()})"
        return {"int": "ℕ", "bool": "Bool", "unit": "Unit {0}"}.get(self.kind) or self.short

    def makes(self):
        return self.law("makes", f"LL.makes {self.both()}-L.the-plain 𝓤 H A", f"EL.makes {self.both()}-L.the-plain 𝓤 H A")

    def lawful(self):
        return self.law("lawful", f"LL.lawful {self.both()}-L.the-laws 𝓤 H A W", f"EL.lawful {self.both()}-L.the-laws 𝓤 H A W tt")

    def copies(self):
        return self.law("copy", f"LL.copy {self.both()}-L.the-copy 𝓤 H A W", f"EL.copy {self.both()}-L.the-copy 𝓤 H A W")

    def tells(self):
        plain = {"int": f"uint-tells {self.width}", "bool": "bool-tells", "unit": "nothing-tells"}
        if self.kind == "struct":
            return f"LL.tells {self.both()}-L.the-laws"
        return plain.get(self.kind) or f"{self.short}-L.lowers .val-is"

    def values(self):
        plain = {"int": f"uint-vals {self.width}", "bool": "bool-vals", "unit": "nothing-vals", "slice": "slice-vals"}
        if self.kind == "struct":
            return f"LL.vals {self.both()}-L.the-laws"
        return plain.get(self.kind) or f"(λ (d : {self.short}). {self.short}-L.lowered d ∷ [])"

    def machine(self, d):
        """The machine value of d."""
        if self.kind == "struct" and self.holds_more:
            return f"(LL.val {self.both()}-L.the-laws {d})"
        plain = {"int": f"(vint {self.width} {d})", "bool": f"(vbool {d})", "unit": "vunit"}
        return plain.get(self.kind) or f"({self.short}-L.lowered {d})"

    def law(self, name, of_struct, of_enum):
        plain = {"int": f"uint-{name} 𝓤 H A W {self.width}", "bool": f"bool-{name} 𝓤 H A W", "unit": f"nothing-{name} 𝓤 H A W"}
        return plain.get(self.kind) or (of_struct if self.kind == "struct" else of_enum)

    def both(self):
        return f"{self.short}-T.the-type {self.short}"

    # of the kinds that lack one
    width = ""
    short = ""


def integer(bits):
    return Type("int", width=f"w{bits}", bits=int(bits))


BOOL, UNIT, POINTER = Type("bool"), Type("unit"), Type("ptr")


class Types:
    """The named types of a program."""

    def __init__(self, table):
        self.table = table
        self.shared = set()

    def alias(self, name):
        """A type's own name, or with its crate's where two types of a proof have it."""
        crate, short = name.split("::")[0], name.split("::")[-1]
        return f"{crate}-{short}" if short in self.shared else short

    def read(self, t):
        if isinstance(t, str):
            plain = {"tyBool": BOOL, "tyUnit": UNIT, "tyPtr": POINTER}
            assert t in plain, f"the type {t}"
            return plain[t]
        if t[0] == "tyInt":
            return integer(t[1])
        if t[0] == "tyNamed":
            name = mir.named(t[1][1])
            kind = "enum" if self.table.get(name, [""])[0] == "variants" else "struct"
            return Type(kind, name=name, short=self.alias(name), holds_more=kind == "struct" and self.holds_more(t))
        if t[0] == "tyArray":
            return Type("array", of=self.read(t[1]), count=int(t[2][1]))
        if t[0] == "tyStruct" and t[1] == '"&[]"':
            reference = mir.items(t[2])[0]
            lifetime = int(reference[1][1]) if isinstance(reference[1], list) else None
            return Type("slice", lifetime=lifetime, mutable=reference[2] == "mut", of=self.read(reference[3]))
        return Type("other", term=t)

    def holds_more(self, t):
        """Whether there is an array or an enum in it, so that its machine value is the laws' own."""
        if isinstance(t, str):
            return False
        if t[0] in ("tyArray", "variants"):
            return True
        if t[0] == "tyNamed":
            return self.holds_more(self.table.get(mir.named(t[1][1]), []))
        return any(self.holds_more(part) for part in t)

    def fields(self, t):
        return [self.read(f) for f in mir.items(self.table[t.name][1])]

    def variants(self, t):
        return [[self.read(p) for p in ps] for ps in mir.payloads(self.table[t.name][1])]

    def term(self, t):
        """A local's type as the code has it."""
        if isinstance(t, str):
            return t
        if t[0] == "tyInt":
            return f"(tyInt w{t[1]})"
        if t[0] == "tyNamed":
            return f"{self.alias(mir.named(t[1][1]))}-L.mir"
        if t[0] == "tyArray":
            return f"(tyArray {self.term(t[1])} {t[2][1]})"
        if t[0] == "tyRef":
            of = self.read(t[3])
            lifetime = f"(named {t[1][1]})" if isinstance(t[1], list) else "erased"
            row = of.row()[1:-1] if of.kind == "array" else of.row()
            return f"(tyRef {lifetime} {t[2]} (pointee ({row} .written)))"
        assert t[0] == "tyStruct", t
        return f"(sliceTy {self.term(mir.items(t[2])[0])})"
