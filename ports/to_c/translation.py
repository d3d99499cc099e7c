"""One module, and several, as the parts of a C file."""
import re

from .alignment import Alignments
from .body import Body
from .forms import GLOBAL, c_type, declared, fields_of, is_struct, parts_of, require, size_of
from .names import crate_of
from .narrow import Narrow
from .shape import Shape
from .text import wrapped
from .wide import Wide


def signature(result, name, parameters):
    """The head of a function, with its parameters as types and names."""
    return f"static {declared(result, name)}({', '.join(declared(*parameter) for parameter in parameters) or 'void'})"


def shown_byte(byte):
    return f"'{chr(byte)}'" if chr(byte).isascii() and chr(byte).isprintable() and chr(byte) not in " '\\" else str(byte)


def constant(name, data, align):
    """The definition of a constant."""
    unit = min(align, 8)
    padded = data + bytes(-len(data) % unit) if data else bytes(unit)
    if unit == 1:
        return wrapped(f"static const u8 {name}[{len(padded)}] = {{{', '.join(map(shown_byte, padded))}}};")
    return [*wrapped(f"static const union {{ u8 bytes[{len(padded)}]; u{8 * unit} aligned; }} {name}_ = {{{{{', '.join(map(str, padded))}}}}};"),
            f"#define {name} {name}_.bytes"]


class Translation:
    """The parts of one module, each by a name: `structs`, `constants`, `imports`, `heads`, `bodies` and `ports`."""

    def __init__(self, module, names, sources):
        self.module, self.names, self.sources = module, names, sources
        self.order = module.needed()
        self.structs, self.constants, self.heads, self.bodies = {}, {}, {}, {}
        for name in self.order:
            module.functions[name].parse()
            names.add_function(name, module.functions[name].is_export)
        called = {callee for name in self.order for callee in module.functions[name].callees()}
        self.imports = {}
        for name, it in module.imports.items():
            names.add_function(name, True)
            if name in called:
                self.note_struct(it.result)
                self.imports[name] = imported(it, names.of[name])
        self.local_names = dict(names.of)
        for name in self.order:
            self.note_constants(module.functions[name])
        self.shapes = {name: Shape(module.functions[name]) for name in self.order}
        self.wide = Wide(module, self.order, self.shapes)
        self.narrow = Narrow(module, self.order, self.shapes, self.wide)
        Alignments(module, self.order, self.shapes).improve()
        for name in self.order:
            self.function(name)
        self.ports = {name: port_call(module.functions[name], names.of[name]) for name in module.exports()}

    def note_constants(self, function):
        for line in function.lines:
            for name in re.findall(GLOBAL, line):
                name = name.split(".plus.")[0]
                if name in self.module.constants:
                    self.local_names[name] = self.names.constant(*self.module.constants[name])
                    self.constants[self.local_names[name]] = constant(self.local_names[name], *self.module.constants[name])

    def note_struct(self, kind):
        if is_struct(kind):
            fields = " ".join(f"{declared(part, f'f{index}')};" for index, part in enumerate(parts_of(kind)))
            self.structs[kind] = [f"typedef struct {{ {fields} }} {c_type(kind)};"]

    def function(self, name):
        function = self.module.functions[name]
        body = Body(function, self.shapes[name], self, self.local_names, self.names.taken)
        parameters = [body.values[it].text for it in function.names]
        text = body.write()
        for kind in (function.result, *function.kinds, *body.kinds.values()):
            self.note_struct(kind)
        result = "i64" if None in body.wide else "size" if name in self.narrow.results else function.result
        head = signature(result, self.names.of[name], [(body.kind_of(it, kind), text) for it, kind, text in
                                                       zip(function.names, function.kinds, parameters)])
        self.heads[name] = wrapped(f"{head};")
        self.bodies[name] = [self.comment(name), *wrapped(f"{head} {{"), *text, "}", ""]

    def comment(self, name):
        """A line with the path of a function, and its file."""
        path = self.names.path(name)
        parts = re.sub(r"::<.*", "", path).split("::")
        file = self.sources(parts)
        return f"/* {'::'.join(parts)}{f' ({file})' if file else ''} */"


def imported(it, name):
    """The function of the module's calls of one of the header's, `rattle_..`."""
    c, parameters = it.name[1:], [f"a{index}" for index in range(len(it.kinds))]
    given = ", ".join(parameter if kind == "ptr" else f"(size_t){parameter}" for kind, parameter in zip(it.kinds, parameters))
    head = signature(it.result, name, list(zip(it.kinds, parameters)))
    if it.result == "void":
        return [f"{head} {{ {c}({given}); }}"]
    require(is_struct(it.result) and parts_of(it.result) in (["i64", "ptr"], ["i64", "i64"]), f"the result of {c}")
    cast = "(u8 *)" if parts_of(it.result)[1] == "ptr" else "(u64)(size_t)"
    return [f"{head} {{", f"    uip_block block = {c}({given});", f"    {c_type(it.result)} out;", "    out.f0 = block.ok;",
            f"    out.f1 = {cast}block.block;", "    return out;", "}"]


def port_call(it, name):
    """port_NAME for an export, as calls.c calls it: a struct is returned through memory."""
    parameters = [f"a{index}" for index in range(len(it.kinds))]
    heads = [declared("size" if kind == "i64" else kind, parameter) for kind, parameter in zip(it.kinds, parameters)]
    call, port = f"{name}({', '.join(parameters)})", f"port_{it.name[1:]}"
    if is_struct(it.result):
        out = [f"static void {port}({', '.join(['u8 *to', *heads])}) {{", f"    {c_type(it.result)} out = {call};"]
        for index, (part, at) in enumerate(fields_of(it.result)):
            place, size = f"to + {at}" if at else "to", "p" if part == "ptr" else size_of(part)
            out.append(f"    to[{at}] = out.f{index};" if size == 1 else f"    put{size}({place}, out.f{index});")
        return [*out, "}"]
    if it.result in ("void", "ptr"):
        return [f"static void {port}({', '.join(heads)}) {{ {call}; }}"]
    return [f"static {declared(it.result, port)}({', '.join(heads)}) {{ return {call}; }}"]


class File:
    """The parts of several modules: what is the same in some of them stands once, under a condition."""

    def __init__(self, translations, layers):
        self.translations, self.layers = translations, layers    # translations by the word of their condition

    def shared(self, part):
        """(name, lines, words) of the things of a part, in the order in which the modules have them."""
        found = {}
        for word, translation in self.translations.items():
            for name, lines in getattr(translation, part).items():
                found.setdefault((name, tuple(lines)), []).append(word)
        return [(name, lines, words) for (name, lines), words in found.items()]

    def lines(self, part, order=None):
        """The lines of a part, its things in this order, under their conditions."""
        out, last = [], None
        for _, lines, words in sorted(self.shared(part), key=order) if order else self.shared(part):
            words = None if len(words) == len(self.translations) else words
            if words != last:
                out += ["#endif"] if last else []
                out += [f"#if {' || '.join(words)}"] if words else []
                last = words
            out += lines
        return out + (["#endif"] if last else [])

    def bodies(self):
        """The functions by crate, in the order of layers, each crate with a heading."""
        out, place = [], {}
        for translation in self.translations.values():
            for name in translation.order:
                place.setdefault(name, len(place))
        crates = {name: crate_of(translation.names.path(name)) for translation in self.translations.values() for name in translation.order}
        for crate in self.layers([crates[name] for name in place]):
            out += [f"/* ---- {crate} */", ""]
            part = File({word: Part(translation, crate, crates) for word, translation in self.translations.items()}, self.layers)
            out += part.lines("bodies", lambda it: place[it[0]])
            out += [""] if out[-1] else []
        return out


class Part:
    """The functions of one crate of a translation."""

    def __init__(self, translation, crate, crates):
        self.bodies = {name: lines for name, lines in translation.bodies.items() if crates[name] == crate}
