"""Random LLVM modules of the forms that to_c.py takes, without undefined behaviour. Each value is seen: it goes into the hash that the module
leaves in the area, at once or at the end of its block, after other stores and calls."""
import random

WIDTHS = (8, 16, 32, 64)
RESULTS = ("i64", "i32", "{ i64, i64 }", "{ i32, i16 }", "{ i8, ptr }", "{ i64, ptr }", "void")
LAYOUT = '''target datalayout = "e-m:e-p270:32:32-p271:32:32-p272:64:64-i64:64-i128:128-f80:128-n8:16:32:64-S128"
target triple = "x86_64-unknown-linux-gnu"

define internal void @see(ptr %p, i64 %n) {
  %at = getelementptr inbounds nuw i8, ptr %p, i64 248
  %old = load i64, ptr %at, align 8
  %both = xor i64 %old, %n
  %more = mul i64 %both, 1099511628211
  %high = lshr i64 %more, 29
  %new = xor i64 %more, %high
  store i64 %new, ptr %at, align 8
  ret void
}
'''
DECLARED = ("void @llvm.memset.p0.i64(ptr, i8, i64, i1)", "void @llvm.memmove.p0.p0.i64(ptr, ptr, i64, i1)", "void @llvm.lifetime.start.p0(ptr)",
            "void @llvm.lifetime.end.p0(ptr)")
SMALL = ("umin", "umax", "usub.sat", "uadd.sat")


def signed(value, width):
    value %= 1 << width
    return value - (1 << width) if value >> (width - 1) else value


class Maker:
    """Writes one function: `(ptr %p, i64 %n, i32 %m, i8 %k)`, or of the export the first two. It works on 256 bytes at %p and on %area."""

    def __init__(self, r, name, callees):
        self.r, self.name, self.callees, self.is_export = r, name, callees, name == "uip_x"
        self.result = "i64" if self.is_export else r.choice(RESULTS)
        self.lines, self.count, self.fuel, self.depth = [], 0, 80 if self.is_export else r.randint(10, 60), 0
        self.slots = [(f"%s{at}", r.choice(WIDTHS)) for at in range(5)]
        self.counters = []
        self.values = {8: [], 16: [], 32: [], 64: ["%n"], 1: []}
        self.unseen = []
        if not self.is_export:
            self.values[32].append("%m")
            self.values[8].append("%k")

    # -- values

    def new(self):
        self.count += 1
        return f"%v{self.count}"

    def emit(self, text):
        self.lines.append(f"  {text}")

    def made(self, width, text):
        """A new value, which is seen now or later."""
        out = self.new()
        self.emit(f"{out} = {text}")
        self.values[width].append(out)
        self.unseen.append((width, out))
        if self.r.random() < 0.4:
            self.see()
        return out

    def see(self):
        while self.unseen:
            width, value = self.unseen.pop()
            if width != 64:
                wide = self.new()
                self.emit(f"{wide} = {self.r.choice(['zext', 'sext']) if width > 1 else 'zext'} i{width} {value} to i64")
                value = wide
            self.emit(f"call void @see(ptr %p, i64 {value})")

    def constant(self, width):
        if width == 1:
            return self.r.choice(["true", "false"])
        return str(signed(self.r.choice([0, 1, 2, 3, 7, 255, 256, 65535, self.r.getrandbits(width), 1 << (width - 1), (1 << width) - 1]), width))

    def value(self, width):
        if self.values[width] and self.r.random() < 0.75:
            return self.r.choice(self.values[width][-8:])
        slots = [name for name, of in self.slots if of == width]
        if slots and self.r.random() < 0.6:
            return self.made(width, f"load i{width}, ptr {self.r.choice(slots)}, align {width // 8}")
        return self.constant(width)

    def address(self, size):
        """An address with room for `size` bytes, and its alignment."""
        r, base, out = self.r, self.r.choice(["%p", "%area"]), self.new()
        if r.random() < 0.5:
            align = r.choice([1, 2, 4, 8])
            at = r.randrange(0, max(1, (r.choice([16, 16, 120]) - size) // align)) * align    # often where others are too
            self.emit(f"{out} = getelementptr {r.choice(['inbounds nuw ', ''])}i8, ptr {base}, i64 {at}")
            if r.random() < 0.3:
                more, step = self.new(), -align if at >= align and r.random() < 0.5 else align
                self.emit(f"{more} = getelementptr i8, ptr {out}, i64 {step}")
                return more, align
            return out, align
        index = self.new()
        unit = r.choice([8, 8, 16, 32])
        self.emit(f"{index} = and i64 {self.value(64)}, {63 // (unit // 8)}")
        self.emit(f"{out} = getelementptr i{unit}, ptr {base}, i64 {index}")
        return out, unit // 8

    # -- steps

    def step(self):
        self.r.choices([self.binary, self.compare, self.logical, self.cast, self.load, self.store, self.move, self.pointer, self.call, self.small,
                        self.select, self.wide], [30, 10, 6, 12, 12, 18, 6, 3, 10, 4, 4, 3])[0]()

    def binary(self):
        width, how = self.r.choice(WIDTHS), self.r.choice("add sub mul and or xor shl lshr ashr udiv urem".split())
        how = "lshr" if how == "ashr" and width < 32 else how
        one, other = self.value(width), self.value(width)
        if how in ("shl", "lshr", "ashr", "udiv", "urem"):
            by = self.new()
            self.emit(f"{by} = {'or' if how[0] == 'u' else 'and'} i{width} {other}, {1 if how[0] == 'u' else width - 1}")
            other = by if how[0] == "u" or self.r.random() < 0.5 else str(self.r.randrange(width))
        self.made(width, f"{how} i{width} {one}, {other}")

    def compare(self):
        width, how = self.r.choice(WIDTHS), self.r.choice("eq ne ult ule ugt uge slt sle sgt sge".split())
        self.made(1, f"icmp {how} i{width} {self.value(width)}, {self.value(width)}")

    def logical(self):
        self.made(1, f"{self.r.choice(['and', 'or', 'xor'])} i1 {self.value(1)}, {self.r.choice(['true', self.value(1)])}")

    def cast(self):
        old, new = self.r.sample((1, *WIDTHS), 2)
        self.made(new, f"{'trunc' if old > new else self.r.choice(['zext', 'sext'])} i{old} {self.value(old)} to i{new}")

    def load(self):
        width = self.r.choice(WIDTHS)
        at, align = self.address(width // 8)
        self.made(width, f"load i{width}, ptr {at}, align {min(align, width // 8)}")

    def store(self):
        if self.r.random() < 0.35:
            name, width = self.r.choice(self.slots)
            self.emit(f"store i{width} {self.value(width)}, ptr {name}, align {width // 8}")
            return
        width = self.r.choice(WIDTHS)
        value = self.value(width)
        at, align = self.address(width // 8)
        self.emit(f"store i{width} {value}, ptr {at}, align {min(align, width // 8)}")

    def move(self):
        (to, _), length = self.address(32), self.new()
        self.emit(f"{length} = and i64 {self.value(64)}, 31")
        if self.r.random() < 0.5:
            self.emit(f"call void @llvm.memset.p0.i64(ptr {to}, i8 {self.value(8)}, i64 {self.r.choice([length, '24'])}, i1 false)")
            return
        what, _ = self.address(32)
        self.emit(f"call void @llvm.memmove.p0.p0.i64(ptr {to}, ptr {what}, i64 {self.r.choice([length, '8', '16'])}, i1 false)")

    def pointer(self):
        """An address goes through memory."""
        out = self.new()
        self.emit(f"store ptr {self.r.choice(['%p', '%q', '%area'])}, ptr %keep, align 8")
        self.emit(f"{out} = load ptr, ptr %keep, align 8")
        self.made(1, f"icmp eq ptr {out}, %area")
        self.made(8, f"load i8, ptr {out}, align 1")

    def small(self):
        width = self.r.choice(WIDTHS)
        if width > 8 and self.r.random() < 0.3:
            self.made(width, f"call i{width} @llvm.bswap.i{width}(i{width} {self.value(width)})")
            return
        self.made(width, f"call i{width} @llvm.{self.r.choice(SMALL)}.i{width}(i{width} {self.value(width)}, i{width} {self.value(width)})")

    def select(self):
        width = self.r.choice((1, *WIDTHS))
        self.made(width, f"select i1 {self.value(1)}, i{width} {self.value(width)}, i{width} {self.value(width)}")

    def wide(self):
        """Numbers of 128 and of 48 bits."""
        one, other, both, high = self.new(), self.new(), self.new(), self.new()
        if self.r.random() < 0.5:
            self.emit(f"{one} = zext i64 {self.value(64)} to i128")
            self.emit(f"{other} = zext i64 {self.value(64)} to i128")
            more = self.new()
            self.emit(f"{more} = shl i128 {other}, {self.r.randrange(1, 63)}")
            self.emit(f"{both} = add i128 {one}, {more}")
            self.emit(f"{high} = lshr i128 {both}, 64")
            self.made(64, f"trunc i128 {self.r.choice([both, high])} to i64")
            return
        self.emit(f"{one} = trunc i64 {self.value(64)} to i48")
        self.emit(f"{both} = {self.r.choice(['add', 'sub', 'xor', 'and'])} i48 {one}, {signed(self.r.getrandbits(48), 48)}")
        self.made(64, f"zext i48 {both} to i64")

    def call(self):
        if not self.callees:
            return
        callee = self.r.choice(self.callees)
        call = f"call {callee.result} @{callee.name}(ptr %p, i64 {self.value(64)}, i32 {self.value(32)}, i8 {self.value(8)})"
        if callee.result == "void":
            self.emit(call)
        elif callee.result.startswith("{"):
            self.struct(callee.result, call)
        else:
            self.made(int(callee.result[1:]), call)

    def struct(self, kind, call):
        out, parts = self.new(), kind[2:-2].split(", ")
        self.emit(f"{out} = {call}")
        for index, part in enumerate(parts):
            if part == "ptr":
                at = self.new()
                self.emit(f"{at} = extractvalue {kind} {out}, {index}")
                self.made(8, f"load i8, ptr {at}, align 1")
            else:
                self.made(int(part[1:]), f"extractvalue {kind} {out}, {index}")

    # -- blocks

    def label(self):
        self.count += 1
        return f"b{self.count}"

    def scoped(self, label, what):
        """A block whose values are not used after it."""
        kept = {width: list(values) for width, values in self.values.items()}
        self.lines.append(f"{label}:")
        self.depth += 1
        what()
        self.depth -= 1
        self.values = kept

    def body(self, loop=None):
        for _ in range(self.r.randint(1, 6)):
            self.fuel -= 1
            if self.fuel <= 0:
                break
            kind = self.r.random()
            if kind < 0.65 or self.depth > 4:
                self.step()
                continue
            self.see()
            if kind < 0.8:
                self.branch(loop)
            elif kind < 0.9 and self.depth < 3:
                self.loop()
            else:
                self.switch(loop)
        self.see()

    def branch(self, loop):
        yes, no, end = self.label(), self.label(), self.label()
        is_one = self.r.random() < 0.4
        condition = self.value(1)
        self.see()
        self.emit(f"br i1 {condition}, label %{yes}, label %{end if is_one else no}")
        for label in [yes] if is_one else [yes, no]:
            self.scoped(label, lambda: (self.body(loop), self.leave(end, loop)))
        self.lines.append(f"{end}:")

    def loop(self):
        head, inside, end, counter = self.label(), self.label(), self.label(), f"%count{self.count}"
        left, is_over, next_left = self.new(), self.new(), self.new()
        self.counters.append(counter)
        self.emit(f"store i64 {self.r.randint(1, 5)}, ptr {counter}, align 8")
        self.emit(f"br label %{head}")
        self.lines.append(f"{head}:")
        self.emit(f"{left} = load i64, ptr {counter}, align 8")
        self.emit(f"{is_over} = icmp eq i64 {left}, 0")
        self.emit(f"br i1 {is_over}, label %{end}, label %{inside}")
        self.scoped(inside, lambda: (self.emit(f"{next_left} = sub i64 {left}, 1"), self.emit(f"store i64 {next_left}, ptr {counter}, align 8"),
                                     self.body((head, end)), self.emit(f"br label %{head}")))
        self.lines.append(f"{end}:")

    def switch(self, loop):
        width, end, targets = self.r.choice(WIDTHS), self.label(), [self.label() for _ in range(self.r.randint(1, 4))]
        value = self.value(width)
        self.see()
        self.emit(f"switch i{width} {value}, label %{targets[0]} [")
        for case in sorted({int(self.constant(width)) for _ in range(6)}):
            self.lines.append(f"    i{width} {case}, label %{self.r.choice([*targets, end])}")
        self.lines.append("  ]")
        for label in targets:
            self.scoped(label, lambda: (self.body(loop), self.leave(end, loop)))
        self.lines.append(f"{end}:")

    def leave(self, to, loop):
        kind = self.r.random()
        if kind < 0.08:
            self.end()
        elif loop and kind < 0.25:
            self.emit(f"br label %{self.r.choice(loop)}")
        else:
            self.emit(f"br label %{to}")

    def end(self):
        for name, width in self.slots:
            self.made(width, f"load i{width}, ptr {name}, align {width // 8}")
        self.see()
        if self.is_export:
            at = self.new()
            self.emit(f"{at} = getelementptr inbounds nuw i8, ptr %p, i64 112")
            self.emit(f"call void @llvm.memmove.p0.p0.i64(ptr {at}, ptr %area, i64 128, i1 false)")
        if self.result == "void":
            self.emit("ret void")
        elif not self.result.startswith("{"):
            self.emit(f"ret {self.result} {self.value(int(self.result[1:]))}")
        else:
            whole = "poison"
            for index, part in enumerate(self.result[2:-2].split(", ")):
                value, out = self.r.choice(["%p", "%q"]) if part == "ptr" else self.value(int(part[1:])), self.new()
                self.emit(f"{out} = insertvalue {self.result} {whole}, {part} {value}, {index}")
                whole = out
            self.emit(f"ret {self.result} {whole}")
        self.unseen = []    # a value that is returned is seen by the caller

    def text(self):
        for name, width in self.slots:
            self.emit(f"store i{width} {self.constant(width)}, ptr {name}, align {width // 8}")
        self.emit("%q = getelementptr i8, ptr %p, i64 32")
        self.emit("call void @llvm.memset.p0.i64(ptr %area, i8 3, i64 128, i1 false)")
        self.emit("call void @llvm.memmove.p0.p0.i64(ptr %area, ptr @const, i64 24, i1 false)")
        self.body()
        self.end()
        parameters = "ptr noundef %p, i64 noundef %n" + ("" if self.is_export else ", i32 noundef %m, i8 zeroext %k")
        slots = [f"  {name} = alloca i{width}, align {width // 8}" for name, width in self.slots]
        slots += [f"  {name} = alloca i64, align 8" for name in self.counters] + ["  %area = alloca [128 x i8], align 8", "  %keep = alloca ptr, align 8"]
        head = f"define {'' if self.is_export else 'internal '}{self.result} @{self.name}({parameters}) {{"
        return "\n".join([head, *slots, *self.lines, "}", ""])


def random_module(seed):
    """The text of a module with the export `i64 @uip_x(ptr, i64)`."""
    r, makers, texts = random.Random(seed), [], []
    for name in [*(f"f{at}" for at in range(r.randint(1, 4))), "uip_x"]:
        maker = Maker(r, name, list(makers))
        texts.append(maker.text())
        makers.append(maker)
    const = "".join(f"\\{r.randrange(256):02X}" for _ in range(24))
    declared = [*DECLARED, *(f"i{width} @llvm.{how}.i{width}(i{width}, i{width})" for how in SMALL for width in WIDTHS),
                *(f"i{width} @llvm.bswap.i{width}(i{width})" for width in WIDTHS[1:])]
    return "\n".join([LAYOUT, f'@const = private unnamed_addr constant [24 x i8] c"{const}", align 8', "", *texts,
                      *(f"declare {it}" for it in declared), ""])
