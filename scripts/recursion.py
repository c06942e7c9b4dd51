#!/usr/bin/env python3
"""Whether a function calls itself: directly, around a ring of functions, or through a method.

    scripts/recursion.py [FOLDER]      this repository, or the one in FOLDER: a line for each ring, with status 1
    scripts/recursion.py --self-test   plants a ring of each kind in a copy, and shows that each is found

The proofs speak of a machine whose stack has no end. A function that calls itself could need more stack than there is,
and no clause would say so; a loop needs none. So no function of the program calls itself. What the tests are made of
(cases_*, bench) isn't looked at.

Calls are resolved by path and by receiver, as far as text can tell. `Self::f` and `self.f` are methods of the type at
hand, `T::f` those of the type or trait T, `m::f` is a function of the module m, and a bare `f` one of this module, or
one that a `use` brings in. Of `self.field.f` and of `argument.f` the types are those that stand where the field or the
argument is declared, and a local's are those of what it is bound to; so a method that hands on to a field's method of
its own name is no ring. A type parameter may be whoever has its traits. Where no type is found, it may be any type of
the program that has such a method, but for the names of STD, which are the standard library's there. A function that
is handed on without being called counts as called: an iterator may call it. Not seen: what an operator or `into` calls,
a call by `<T>::f`, through `dyn`, and of a function whose name a local has.
"""
import argparse
import collections
import pathlib
import re
import shutil
import sys
import tempfile

sys.dont_write_bytecode = True  # Nothing is left in the repository.
from sources import code_of, crates_of

# What a receiver of unknown type is asked by these names are methods of the standard library and of the kit's.
STD = set("""advance as_bytes as_mut as_ref as_slice as_str clear clone cmp contains count default drop end eq entry
    extend find first flush fmt from get get_mut gone insert into is_empty is_none is_some iter iter_mut last len map
    max min new next position push read remove send sort sum swap take then to_be_bytes write""".split())

IMPL = re.compile(r"^(?:unsafe )?impl\b\s*(<[^{;]*?>)?\s*((?:\w+::)*\w+(?:<[^{;]*?>)?\s+for\s+)?"
                  r"&?(?:'\w+ )?(?:mut )?(?:\w+::)*(\w+)", re.M)
TRAIT = re.compile(r"^(?:pub(?:\([^)]*\))? )?(?:unsafe )?trait (\w+)", re.M)
TYPE = re.compile(r"^(?:pub(?:\([^)]*\))? )?(?:struct|enum) (\w+)", re.M)
FUNCTION = re.compile(r"(?<!\w)fn (\w+)\s*(<[^{;]*?(?<!-)>)?(?=\()")
CLAUSE_HEAD = re.compile(r"(?:\b(?:ensures|requires|decreases)(?:\s+\w+)?|\bghost\s+\w+\s*=)\s*$")
GIVEN = re.compile(r"\s*->\s*([^{;]*?)\s*(?:\b(?:where|ensures|requires|decreases)\b|[{;])")
# A type parameter, and the traits that it is known by.
GENERIC = re.compile(r"(\w+): ([^,<>]+)")
USE = re.compile(r"(?<!ghost )\buse ((?:\w+::)*)(\{[^}]*\}|\w+(?: as \w+)?)\s*;")
FIELD = re.compile(r"(?:^|[{,(])\s*(?:pub(?:\([^)]*\))? )?(\w+): ([^,}]+(?:<[^>]*>)?[^,}]*)", re.M)
VARIANT = re.compile(r"(?m)^    (\w+)\s*([({][^)}]*[)}])")
ARGUMENT = re.compile(r"(?:mut )?(\w+): ([^:]*?)(?=, (?:mut )?\w+: |,?\s*\)$)", re.S)
LOCAL = re.compile(r"\blet (?:mut )?(\w+)|(?<=\|)([^|;{}]*)(?=\|)")
# What a local is bound to: by let, by a pattern, by a loop or a match.
BOUND = re.compile(r"\b(?:let|for) ([^=;{]*?)(?: in |(?<![=!<>])= )([^;{]*)")
MATCH = re.compile(r"\bmatch ([^{;]*?)\s*\{")
ARM = re.compile(r"(?m)^\s*([^=;]*?)(?:\bif\b[^=]*)?\s*=>")
STEP = re.compile(r"\??\s*\.\s*(\w+)\s*(?:::<[^()]*>)?(\()?")
CALLED = re.compile(r"\.\s*(?P<name>[a-z_]\w*)\s*(?:::<[^()]*>)?\("
                    r"|(?P<path>(?:\w+(?:::<[^()]*?>)?::)+)(?P<last>[a-z_]\w*)\b(?!\s*!)"
                    r"|(?<![\w.:])(?P<bare>[a-z_]\w*)(?=\()|(?<=[(,])\s*(?P<handed>[a-z_]\w*)(?=[,)])")

Function = collections.namedtuple("Function", "crate module owner trait name bounds arguments given body path line")


def closed(code, start):
    """Behind the bracket that closes the one at a place."""
    depth = 0
    for place in range(start, len(code)):
        depth += (code[place] in "([{") - (code[place] in ")]}")
        if depth == 0 and code[place] in ")]}":
            return place + 1
    return len(code)


def body_of(code, place):
    """The body of a function whose arguments end at a place: the first braces that are no clause's. It is empty where a
    trait has no body of it."""
    start = place
    while True:
        found = re.compile(r"[{;]").search(code, place)
        if not found or found[0] == ";":
            return ""
        end = closed(code, found.start())
        if not CLAUSE_HEAD.search(code[start:found.start()]):
            return code[found.start():end]
        start = place = end


def enumerate_text(text):
    """The fields of a tuple struct, by their numbers."""
    return ((str(number), said) for number, said in enumerate(text.split(",")))


class Source:
    """One file: what it brings in by `use`, its types' fields, and its functions."""

    def __init__(self, top, crate, path):
        self.crate, self.path = crate, path.relative_to(top)
        self.module = path.relative_to(top / "crates" / crate / "src").with_suffix("").as_posix().replace("/", "::")
        code = code_of(path)
        self.brought = dict(self.words_brought(code))
        self.types = {it[1]: self.parts(self.block(code, it.end())) for it in TYPE.finditer(code)}
        self.heads = [(it.start(), self.block_end(code, it.end()), it[3], self.trait_of(it[2]), it[1] or "")
                      for it in IMPL.finditer(code)]
        self.heads += [(it.start(), self.block_end(code, it.end()), None, it[1], "") for it in TRAIT.finditer(code)]
        self.functions = [self.function(code, it) for it in FUNCTION.finditer(code)]

    @staticmethod
    def block_end(code, place):
        start = code.find("{", place)
        return len(code) if start < 0 else closed(code, start)

    def block(self, code, place):
        """A type's declaration: up to its closing brace, or to the semicolon of one that has none."""
        end = re.compile(r"[;{]").search(code, place)
        return code[place:end.start() if end and end[0] == ";" else self.block_end(code, place)]

    @staticmethod
    def parts(block):
        """The fields of a struct by their names or numbers, and the variants of an enum, with what stands there."""
        found = dict(FIELD.findall(block)) | dict(VARIANT.findall(block))
        bare = re.match(r"(?:<[^;{]*?>)?\s*\((.*)\)\s*$", block, re.S)
        return found | (dict(enumerate_text(bare[1])) if bare else {})

    @staticmethod
    def trait_of(text):
        return re.match(r"(?:\w+::)*(\w+)", text)[1] if text else None

    @staticmethod
    def words_brought(code):
        """Each word that a `use` brings in: the crate or module before it, and its name there."""
        for before, words in USE.findall(code):
            for one in filter(None, (it.strip() for it in words.strip("{}").split(","))):
                name, _, here = one.partition(" as ")
                path = (before + name).split("::")
                yield (here or path[-1]), (tuple(path[:-1]), path[-1])

    def function(self, code, found):
        behind = closed(code, found.end())
        owner, trait, generics = next((it[2:] for it in self.heads if it[0] < found.start() < it[1]), (None, None, ""))
        given = GIVEN.match(code, behind)
        return Function(self.crate, self.module, owner, trait, found[1], generics + (found[2] or ""),
                        code[found.end():behind], given[1] if given else "", body_of(code, behind), self.path,
                        code.count("\n", 0, found.start()) + 1)


def core_of(top):
    """The crates that the theorem speaks of: those of all groups of crates.txt above the program's, and frame_sim."""
    text = (top / "crates.txt").read_text(encoding="utf-8")
    above = set(re.findall(r"(?m)^(\w+)[^#\n]*:", text[:text.index("\n# program")]))
    return [crate for crate in crates_of(top) if crate in above or crate == "frame_sim"]


class Program:
    """All functions of the program, and which may call which."""

    def __init__(self, top):
        self.sources = [Source(top, crate, path) for crate in core_of(top)
                        for path in sorted((top / "crates" / crate / "src").rglob("*.rt"))]
        self.crates = {source.crate for source in self.sources}
        self.by_name = collections.defaultdict(list)
        for source in self.sources:
            for function in source.functions:
                self.by_name[function.name].append(function)
        every = [function for source in self.sources for function in source.functions]
        self.known = {name for source in self.sources for name in source.types} | {it.trait for it in every if it.trait}
        self.fields = {(source.crate, name): fields for source in self.sources for name, fields in source.types.items()}

    def calls(self):
        return {function: set(Body(self, source, function).called())
                for source in self.sources for function in source.functions}

    def methods(self, types, name):
        """The methods of this name that one of these types, or traits, has."""
        return [it for it in self.by_name[name] if it.owner in types or it.trait in types]

    def types_said(self, text, function):
        """The types and traits of the program that a declaration names."""
        own = function.owner or function.trait
        here = [word for library, word in re.findall(r"(?:\b(\w+)::)?\b(\w+)\b(?!::)", text)
                if library in ("", "crate", "self", "super") or library in self.crates or library[:1].isupper()]
        known_by = {name: re.findall(r"\w+", traits) for name, traits in GENERIC.findall(function.bounds)}
        words = {word for one in here for word in known_by.get(one, [one])}
        return {own if it == "Self" else it for it in words} & self.known

    def given_by(self, functions):
        """The types that a call of one of these functions may give."""
        return {it for one in functions for it in self.types_said(one.given, one)}


class Body:
    """The calls of one function, and the types of what it calls them on. A type is a set of names: all types of the
    program that a declaration names, so that what is in an Option, a slice or a map counts as the whole. None is any
    type."""

    def __init__(self, program, source, function):
        self.program, self.source, self.function = program, source, function
        self.own = {function.owner or function.trait}
        self.locals = {word for one in LOCAL.findall(function.body) for word in re.findall(r"\w+", " ".join(one))}
        self.typed = {name: program.types_said(said, function) for name, said in ARGUMENT.findall(function.arguments)}
        # A local's type is that of what it is made of, and one that is made of another follows it.
        for _ in range(3):
            for pattern, said in self.bound():
                self.bind(pattern, self.type_of(said.strip()))

    def bound(self):
        """Each pattern, with the text of what it is held against."""
        body = self.function.body
        yield from BOUND.findall(body)
        for found in MATCH.finditer(body):
            yield from ((arm, found[1]) for arm in ARM.findall(body[found.end() - 1:closed(body, found.end() - 1)]))

    def bind(self, pattern, whole):
        """Gives the locals of a pattern their types: those of a variant's payload where the program has it."""
        for name in re.findall(r"(?<![\w:])[a-z_]\w*\b(?!::)", pattern):
            if name in self.typed and self.typed[name] is not None or name in ("mut", "ref", "if"):
                continue
            variant = re.search(rf"(\w+)\s*[({{][^(){{}}]*\b{name}\b", pattern)
            payloads = [it[variant[1]] for it in self.program.fields.values() if variant and variant[1] in it]
            inner = {it for text in payloads for it in self.program.types_said(text, self.function)}
            self.typed[name] = inner if payloads else whole

    def called(self):
        body = self.function.body
        for found in CALLED.finditer(body):
            if found["name"]:
                yield from self.methods_of(chain_before(body, found.start()), found["name"])
            elif found["path"]:
                yield from self.by_path(found["path"], found["last"])
            elif (word := found["bare"] or found["handed"]) not in self.locals and word not in self.typed:
                yield from self.by_word(word)

    def methods_of(self, receiver, name):
        types = self.type_of(receiver)
        if types is not None:
            # A field of a type parameter's type is never of the type at hand: a type has an end.
            return [it for it in self.program.methods(types, name)
                    if not receiver.startswith("self.") or it.owner in types or it.owner != self.function.owner]
        return [] if name in STD else [it for it in self.program.by_name[name] if it.owner or it.trait]

    def type_of(self, text):
        """The type of a chain of fields and calls."""
        text = re.sub(r"^(?:&|\*|mut\b|\s)+", "", text)
        found = re.match(r"((?:\w+(?:::<[^()]*?>)?::)*)(\w+)", text)
        if not found:
            return None
        place = found.end()
        if text[place:place + 1] == "(":
            functions = self.by_path(found[1], found[2]) if found[1] else self.by_word(found[2])
            types, place = self.program.given_by(functions) if functions else None, closed(text, place)
        elif found[1]:
            return self.program.types_said(found[1], self.function) or None
        else:
            types = self.own if found[2] == "self" else self.typed.get(found[2])
        while types is not None and (step := STEP.match(text, place)):
            place = closed(text, step.end() - 1) if step[2] else step.end()
            types = self.behind(types, step[1], step[2])
        return types

    def behind(self, types, name, is_call):
        """The types behind one more step: a field's, or those that a method gives. A method that isn't the program's,
        as of an Option, gives what it is asked of."""
        methods = self.program.methods(types, name)
        if is_call:
            return self.program.given_by(methods) if methods else types
        return {it for one in types for it in self.program.types_said(self.field_of(one, name), self.function)}

    def field_of(self, owner, name):
        declared = (fields for (_, one), fields in self.program.fields.items() if one == owner)
        return next((fields[name] for fields in declared if name in fields), "")

    def by_path(self, path, name):
        segments = [it for it in re.sub(r"<[^()]*?>", "", path).split("::") if it]
        last = segments[-1]
        if last == "Self":
            return self.program.methods(self.own, name)
        before, original = self.source.brought.get(last, (segments[:-1], last))
        if last[:1].isupper():
            methods = self.program.methods({original} & self.program.known, name)
            return [it for it in methods if not self.is_elsewhere(before, it.crate)]
        return [it for it in self.program.by_name[name] if not it.owner and not it.trait
                and (original in ("crate", "super") and it.crate == self.source.crate or it.crate == original
                     or it.module.split("::")[-1] == original and not self.is_elsewhere(before, it.crate))]

    def is_elsewhere(self, before, crate):
        """Whether a path begins with another library than this crate."""
        return bool(before) and before[0] not in ("crate", "super", "self", crate)

    def by_word(self, name):
        functions = [it for it in self.program.by_name[name] if not it.owner and not it.trait]
        here = [it for it in functions if (it.crate, it.module) == (self.source.crate, self.source.module)]
        if here or name not in self.source.brought:
            return here
        before, original = self.source.brought[name]
        functions = [it for it in self.program.by_name[original] if not it.owner and not it.trait]
        if before[:1] in ((), ("crate",), ("super",), ("self",)):
            return [it for it in functions if it.crate == self.source.crate]
        return [it for it in functions if it.crate == before[0]]


def chain_before(text, end):
    """The chain of fields and calls that ends at a place: the receiver of the method behind it."""
    place = end
    while place > 0:
        sign = text[place - 1]
        if sign in ")]":
            place = opened(text, place - 1)
        elif sign.isalnum() or sign in "_.?:":
            place -= 1
        elif sign.isspace() and re.match(r"\s*\.", text[place - 1:]):
            place -= 1
        else:
            break
    return text[place:end].strip()


def opened(text, end):
    """Where the bracket opens that closes at a place."""
    depth = 0
    for place in range(end, -1, -1):
        depth += (text[place] in ")]}") - (text[place] in "([{")
        if depth == 0:
            return place
    return 0


def rings(calls):
    """The sets of functions that call each other around, or themselves (Tarjan's components, without recursion)."""
    index, low, stack, on_stack, found, count = {}, {}, [], set(), [], 0
    for root in calls:
        if root in index:
            continue
        work = [(root, iter(calls[root]))]
        index[root] = low[root] = count
        count += 1
        stack.append(root)
        on_stack.add(root)
        while work:
            one, others = work[-1]
            for other in others:
                if other not in index:
                    index[other] = low[other] = count
                    count += 1
                    stack.append(other)
                    on_stack.add(other)
                    work.append((other, iter(calls.get(other, ()))))
                    break
                if other in on_stack:
                    low[one] = min(low[one], index[other])
            else:
                work.pop()
                if work:
                    low[work[-1][0]] = min(low[work[-1][0]], low[one])
                if low[one] == index[one]:
                    ring = []
                    while not ring or ring[-1] != one:
                        ring.append(stack.pop())
                        on_stack.discard(ring[-1])
                    if len(ring) > 1 or one in calls[one]:
                        found.append(ring)
    return found


def named(function):
    return f"{function.owner or function.trait}::{function.name}" if function.owner or function.trait else function.name


def faults(top):
    for ring in rings(Program(top).calls()):
        ring.sort(key=lambda it: (str(it.path), it.line))
        yield f"{ring[0].path}:{ring[0].line}: calls itself: {', '.join(f'{it.crate}::{named(it)}' for it in ring)}"


# A ring of each kind: its text, and the functions that are named; without any where it is none, since a field, or
# another type, has a method of the same name. T stands for a type of its own.
PLANTED = {
    "direct": ("fn direct(n: u64) -> u64 { direct(n - 1) }", "direct"),
    "ring": ("fn first() { second(); }\nfn second() { third(); }\nfn third() { first(); }", "first second third"),
    "path": ("fn around() { crate::planted_path::around(); }", "around"),
    "own": ("struct T;\nimpl T {\n    fn go(&self) { Self::go(self); }\n}\n", "T::go"),
    "method": ("struct T;\nimpl T {\n    fn go(&self) { self.back(); }\n    fn back(&self) { self.go(); }\n}\n",
               "T::go T::back"),
    "argument": ("struct T;\nimpl T {\n    fn go(&self, other: &T) { other.go(self); }\n}\n", "T::go"),
    "field": ("struct T {\n    inner: Option<Box<T>>,\n}\nimpl T {\n    fn go(&self) {\n"
              "        if let Some(inner) = &self.inner { inner.go(); }\n    }\n}\n", "T::go"),
    "variant": ("enum T {\n    Over(Box<T>),\n    End,\n}\nimpl T {\n    fn go(&self) {\n        match self {\n"
                "            T::Over(inner) => inner.go(),\n            T::End => {}\n        }\n    }\n}\n", "T::go"),
    "local": ("struct T;\nimpl T {\n    fn go(&self) {\n        let other = T::made();\n        other.go();\n    }\n"
              "    fn made() -> T { T }\n}\n", "T::go"),
    "unknown": ("struct T;\nimpl T {\n    fn planted_depth(&self, of: impl Fn() -> u8) {\n"
                "        (of)().planted_depth(of);\n    }\n}\n", "T::planted_depth"),
    "default": ("trait T {\n    fn go(&self) { self.go(); }\n}\n", "T::go"),
    "bound": ("pub trait T {\n    fn go(&self);\n}\npub fn call<C: T>(one: &C) { one.go(); }\nstruct Other;\n"
              "impl T for Other {\n    fn go(&self) { call(self); }\n}\n", "call Other::go"),
    "handed": ("fn each(words: &[u8]) { words.iter().map(inner); }\nfn inner(word: &u8) { each(&[*word]); }\n",
               "each inner"),
    "delegated": ("struct In;\nimpl In {\n    fn go(&self) {}\n}\nstruct T {\n    inner: In,\n}\nimpl T {\n"
                  "    fn go(&self) { self.inner.go(); }\n}\n", ""),
    "wrapped": ("trait Goes {\n    fn go(&self);\n}\nstruct T<G> {\n    inner: G,\n}\nimpl<G: Goes> Goes for T<G> {\n"
                "    fn go(&self) { self.inner.go(); }\n}\n", ""),
    "library": ("struct T(other::T);\nimpl T {\n    fn go(&self) { self.0.go(); }\n}\n", ""),
}


def copy_of(top, room):
    copy = room / "copy"
    (copy / "crates").mkdir(parents=True)
    shutil.copy(top / "crates.txt", copy)
    for crate in core_of(top):
        shutil.copytree(top / "crates" / crate / "src", copy / "crates" / crate / "src")
    return copy


def self_test(top):
    """Each planted ring gives its own line and no other, and what is none gives none."""
    with tempfile.TemporaryDirectory(prefix="recursion-") as room:
        copy = copy_of(top, pathlib.Path(room))
        before = list(faults(copy))
        wanted = []
        for kind, (text, functions) in PLANTED.items():
            own = f"Planted{kind.capitalize()}"
            path = copy / "crates" / "sums" / "src" / f"planted_{kind}.rt"
            path.write_text(re.sub(r"\bT\b", own, text))
            if functions:
                names = ", ".join("sums::" + re.sub(r"\bT\b", own, one) for one in functions.split())
                wanted.append((path.relative_to(copy), names))
        found = [it for it in faults(copy) if it not in before]
        said = sorted((it.split(":")[0], it.partition(" calls itself: ")[2]) for it in found)
        if said != sorted((str(path), names) for path, names in wanted):
            sys.exit("recursion: of what is planted it says\n" + "\n".join(found))
        print("".join(f"recursion: found {line}\n" for line in found), end="")


def main():
    parser = argparse.ArgumentParser(description=__doc__, formatter_class=argparse.RawDescriptionHelpFormatter)
    parser.add_argument("folder", nargs="?", type=pathlib.Path, default=pathlib.Path(__file__).resolve().parent.parent)
    parser.add_argument("--self-test", action="store_true")
    given = parser.parse_args()
    if given.self_test:
        return self_test(given.folder)
    found = list(faults(given.folder))
    for line in found:
        print(line)
    if found:
        sys.exit(f"recursion: {len(found)} rings")
    print(f"recursion: of {sum(len(it.functions) for it in Program(given.folder).sources)} functions none calls itself")


if __name__ == "__main__":
    main()
