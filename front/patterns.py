"""Patterns: from THIR's to the world's."""

from debug_text import Node, Span, flat, path_of, unquoted
from lowered import FormMissing, scalar_literal


class Patterns:
    """The part of a body's lowering that is about patterns. `out` is the `Lowered` body, `items` knows the structs
    and enums, and `bound` has the variables so far by their THIR ids."""

    def pat(self, node):
        """Lowers a pattern, and answers its id."""
        self.depth += 1
        made = self._adjusted_pat(node)
        self.depth -= 1
        return made

    def _adjusted_pat(self, node):
        node, steps = self._without_implicit_derefs(node)
        span = Span(node["span"])
        ty = self.type(flat(node["ty"]), span)
        made = self._constant_path(node, ty)
        if made is None:
            kind = node["kind"]
            name = kind if isinstance(kind, str) else kind.name
            lower = getattr(self, f"_pat_{name.lower()}", None)
            if lower is None:
                raise FormMissing(f"a pattern of the form {name}", span.start)
            made = lower(kind, ty, span)
        if steps:
            self.out.pat_adjustments[made] = steps
        return made

    def _without_implicit_derefs(self, node):
        """The pattern below references that are followed though no `&` was written, and how many these are. Such a
        step has the same span as the pattern below it."""
        steps = 0
        while _kind_name(node) == "Deref" and node["kind"]["subpattern"]["span"] == node["span"]:
            below = node["kind"]["subpattern"]
            if _kind_name(below) == "Constant" and flat(below["ty"]) in ("str",):
                break
            node, steps = below, steps + 1
        return node, steps

    def _constant_path(self, node, ty):
        """A pattern that is the name of a constant, or None."""
        extra = node["extra"]
        if isinstance(extra, str) or _kind_name(node) in ("Range", "Wild", "Binding", "Or"):
            return None
        named = extra[0]["expanded_const"]
        if isinstance(named, str):
            return None
        krate, path = path_of(flat(named[0]))
        if krate:
            return None
        made = self.out.pat({"Path": path.rsplit("::", 1)[-1]}, ty)
        table = self.out.pat_assoc_res if self.items.is_associated(path) else self.out.pat_value_res
        table[made] = ("const", path, ())
        return made

    def _pat_wild(self, kind, ty, span):
        return self.out.pat("Wild", ty)

    def _pat_missing(self, kind, ty, span):
        return self.out.pat("Wild", ty)

    def _pat_binding(self, kind, ty, span):
        by_reference, mutable = kind["mode"].items
        ref = None
        if not isinstance(by_reference, str):
            if by_reference.items[0] != "Not":
                raise FormMissing("a pinned reference", span.start)
            ref = "Mut" if by_reference.items[1] == "Mut" else "Not"
        number = self._variable(kind, ref, mutable, span)
        subpattern = kind["subpattern"]
        below = None if isinstance(subpattern, str) else self.pat(subpattern[0])
        bind = {"id": number} if below is None else {"id": number, "subpat": below}
        made = self.out.pat({"Bind": bind}, ty)
        self.out.binding_modes[made] = "Move" if ref is None else {"Ref": ref}
        return made

    def _variable(self, kind, ref, mutable, span):
        """The id of the variable that is bound: alternatives of one pattern share it."""
        key = flat(kind["var"])
        if key not in self.bound:
            written_ref = ref is not None and self.source.at(span).startswith("ref")
            mode = "Mutable" if mutable == "Mut" else "Unannotated"
            if written_ref:
                mode = "Ref" if ref == "Not" else "RefMut"
            ty = self.type(flat(kind["ty"]), span)
            self.bound[key] = self.out.binding(unquoted(kind["name"]), mode, ty)
        return self.bound[key]

    def _pat_constant(self, kind, ty, span):
        tree = kind["value"]["valtree"]
        return self.out.pat({"Lit": self._scalar(tree, ty, span)}, ty)

    def _scalar(self, tree, ty, span):
        """A literal expression of a value that the compiler has evaluated already."""
        literal = None
        if isinstance(tree, Node) and tree.name == "Leaf":
            literal = scalar_literal(int(tree[0], 16), ty)
        if literal is None:
            raise FormMissing(f"a constant of type {self.show(ty)} in a pattern", span.start)
        return self.out.expr(literal, ty)

    def _pat_range(self, kind, ty, span):
        bounds = kind[0]
        fields = {}
        for ours, theirs in (("start", "lo"), ("end", "hi")):
            bound = bounds[theirs]
            if not isinstance(bound, str):
                fields[ours] = self._scalar(bound[0], ty, span)
        fields["range_type"] = "Inclusive" if bounds["end"] == "Included" else "Exclusive"
        return self.out.pat({"Range": fields}, ty)

    def _pat_or(self, kind, ty, span):
        return self.out.pat({"Or": [self.pat(one) for one in kind["pats"]]}, ty)

    def _pat_deref(self, kind, ty, span):
        below = kind["subpattern"]
        if _kind_name(below) == "Constant" and flat(below["ty"]) == "str":
            return self._text_pattern(below, ty, span)
        if ty[0] != "ref":
            raise FormMissing(f"a pattern that follows a value of type {self.show(ty)}", span.start)
        return self.out.pat({"Ref": {"pat": self.pat(below)}}, ty)

    def _text_pattern(self, below, ty, span):
        """A text as a pattern: THIR has a step to `str`, and then the bytes."""
        tree = below["kind"]["value"]["valtree"]
        octets = bytes(int(flat(one).removeprefix("Leaf(0x").removesuffix(")").split("_")[0], 0) for one in tree[0])
        literal = self.out.expr({"Literal": {"Str": octets.decode("utf-8")}}, ty)
        return self.out.pat({"Lit": literal}, ty)

    def _pat_leaf(self, kind, ty, span):
        """A tuple or a struct; the type says which."""
        fields = self._field_patterns(kind["subpatterns"])
        if ty[0] == "tuple":
            args, ellipsis = self._positional(fields, ty[1], span)
            made = {"args": args} if ellipsis is None else {"args": args, "ellipsis": ellipsis}
            return self.out.pat({"Tuple": made}, ty)
        return self._variant_pattern(ty, 0, fields, span)

    def _pat_variant(self, kind, ty, span):
        return self._variant_pattern(ty, int(kind["variant_index"]), self._field_patterns(kind["subpatterns"]), span)

    def _field_patterns(self, nodes):
        """The places of the fields, with the patterns' ids, in the order in which they were written."""
        return {int(node["field"]): self.pat(node["pattern"]) for node in nodes}

    def _variant_pattern(self, ty, index, fields, span):
        adt = self.adt(ty, span)
        variant = adt.variants[index]
        if variant.shape == "Unit":
            node = {"Path": adt.path_of_variant(index)}
        elif variant.shape == "Tuple":
            args, ellipsis = self._positional(fields, variant.fields, span)
            node = {"TupleStruct": {"args": args} if ellipsis is None else {"args": args, "ellipsis": ellipsis}}
        else:
            node = {"Record": {"args": [{"name": variant.fields[i], "pat": p} for i, p in fields.items()]}}
        made = self.out.pat(node, ty)
        self.out.pat_variant_res[made] = ("variant", adt.path, index)
        return made

    def _positional(self, fields, all_of_them, span):
        """Patterns by place, and where `..` stands: fields that are left out are one run, or get `_`."""
        count = len(all_of_them)
        absent = [place for place in range(count) if place not in fields]
        if not absent:
            return [fields[place] for place in range(count)], None
        if absent[-1] - absent[0] + 1 == len(absent):
            return [fields[place] for place in sorted(fields)], absent[0]
        raise FormMissing("fields of a tuple struct that are left out at several places", span.start)

    def _pat_slice(self, kind, ty, span):
        """A slice or an array by its elements."""
        made = {"prefix": [self.pat(one) for one in kind["prefix"]]}
        if not isinstance(kind["slice"], str):
            made["slice"] = self.pat(kind["slice"][0])
        made["suffix"] = [self.pat(one) for one in kind["suffix"]]
        return self.out.pat({"Slice": made}, ty)

    _pat_array = _pat_slice


def _kind_name(node):
    kind = node["kind"]
    return kind if isinstance(kind, str) else kind.name
