#!/usr/bin/env python3
"""Computes definitions of specs/*.antt on values, and plays a script by them.

  interop/definitions.py SCRIPT [CRATES [COMMAND]]     what a replay of SCRIPT tells, or what COMMAND writes of it (migrate;
                                                       bridge; 'replay --mux'; capture, with the capture behind
                                                       it; 'relay --turns 1 --bridge', to which nothing comes and
                                                       which can send to no port 0), by the definitions in the
                                                       folder CRATES. 'relay', 'relay --mux' and 'relay --bridge' take
                                                       the moments from their clock and the datagrams from their
                                                       link, and what they send is told too

It reads clauses, records, data, lambdas, `let`, `if` and `do`; types are passed over, so it is no checker. Lists of numbers
are tuples. The words of std are written by hand below, the block cipher and the code are those of Python, and session keys
are remembered by their master key.
"""
import base64
import hashlib
import hmac
import os
import re
import sys
import threading

from cryptography.hazmat.primitives.ciphers import Cipher, algorithms, modes

sys.setrecursionlimit(10_000_000)
STACK_OCTETS = 1 << 32
LONG_SCRIPT = 1 << 16
BEGAN = 1_000_000  # the moment at which a relay begins
OUTSIDE = ("std", "base64", "core", "sha1", "hex", "itoa", "memchr", "rand_pcg", "rand_core")
VARIANTS = "TheVariants"


class Built:
    """A value of a type with several constructors."""
    __slots__ = ("name", "args")

    def __init__(self, name, args=()):
        self.name, self.args = name, args

    def __eq__(self, other):
        return isinstance(other, Built) and (self.name, self.args) == (other.name, other.args)

    def __hash__(self):
        return hash(self.name)


class Growing(Built):
    """One of the program's types, whose number of arguments isn't known here: it takes what comes."""
    __slots__ = ()


class Record:
    __slots__ = ("fields",)

    def __init__(self, fields):
        self.fields = fields

    def __eq__(self, other):
        return isinstance(other, Record) and self.fields == other.fields

    def __hash__(self):
        return len(self.fields)


class Function:
    """A function of so many arguments, and those that it has been given."""
    __slots__ = ("wants", "body", "given")

    def __init__(self, wants, body, given=()):
        self.wants, self.body, self.given = wants, body, given


def apply(f, x):
    if isinstance(f, Growing):
        return Growing(f.name, f.args + (x,))
    given = f.given + (x,)
    return f.body(*given) if len(given) == f.wants else Function(f.wants, f.body, given)


def call(f, *xs):
    for x in xs:
        f = apply(f, x)
    return f


def tuple_of(xs):
    return Record({str(i): x for i, x in enumerate(xs)})


NONE = Built("None")


def some(x):
    return Built("Some", (x,))


# ---- reading

WORDS = re.compile(
    r"(?P<number>0x[0-9a-fA-F]+|\d+)|(?P<operator>>>=|==|&&|\|\||\+\+|-ℤ|\+ℤ)|(?P<name>[A-Za-z_ℕℤ⊥¬][A-Za-z0-9_']*|\[\])"
    r"|(?P<sign>[∷≡→×≤←+*/%^<⊎-])|(?P<mark>.)"
)
FIELD = re.compile(r"\.([A-Za-z0-9_«][A-Za-z0-9_]*)")
# how strongly an operator binds, and whether it goes on to the right
BINDS = {
    ">>=": (1, 0), "||": (2, 1), "&&": (3, 1), "==": (4, 0), "∷": (5, 1), "++": (5, 1), "+": (6, 0), "-": (6, 0),
    "-ℤ": (6, 0), "+ℤ": (6, 0), "*": (7, 0), "/": (7, 0), "%": (7, 0), "^": (8, 1),
}


def words_of(text):
    """Each word: its kind, its value, its column, and whether it is the first of its line."""
    found, at, start = [], 0, 0
    while at < len(text):
        if text[at] == "\n":
            at, start = at + 1, at + 1
            continue
        if text[at] in " \t":
            at += 1
            continue
        if text.startswith("--", at) and (at == 0 or text[at - 1] in " \n\t"):
            while at < len(text) and text[at] != "\n":
                at += 1
            continue
        place = (at - start, not text[start:at].strip())
        field = FIELD.match(text, at) if at and not text[at - 1].isspace() else None
        if text[at] == '"':
            end = text.index('"', at + 1)
            found.append(("text", text[at + 1:end].encode().decode("unicode_escape"), *place))
            at = end + 1
        elif field:
            found.append(("field", field[1], *place))
            at = field.end()
        else:
            word = WORDS.match(text, at)
            kind = word.lastgroup
            value = int(word[0], 0) if kind == "number" else word[0]
            found.append(("operator" if kind == "sign" else kind, value, *place))
            at = word.end()
    return found


def depth_of(word):
    return (word[1] in ("(", "{")) - (word[1] in (")", "}"))


class Reader:
    """Reads an expression into a tree of tuples."""

    def __init__(self, words):
        self.words, self.at = words, 0

    def peek(self):
        return self.words[self.at] if self.at < len(self.words) else ("end", None, 0, True)

    def next(self):
        word = self.peek()
        self.at += 1
        return word

    def want(self, value):
        word = self.next()
        if word[1] != value:
            raise SyntaxError(f"{value} is wanted, not {word} behind {self.words[max(0, self.at - 8):self.at]}")

    def whole(self):
        tree = self.expression()
        if self.at < len(self.words):
            raise SyntaxError(f"more than an expression: {self.words[self.at:self.at + 6]}")
        return tree

    def expression(self, least=0):
        kind, value = self.peek()[:2]
        if (kind, value) == ("mark", "λ"):
            return self.function()
        if (kind, value) == ("name", "if"):
            self.next()
            test = self.expression()
            self.want("then")
            then = self.expression()
            self.want("else")
            return ("if", test, then, self.expression())
        if (kind, value) == ("name", "let"):
            self.next()
            name = self.next()[1]
            while self.peek()[1] != "=":
                self.next()
            self.next()
            bound = self.expression()
            self.want("in")
            return ("let", name, bound, self.expression())
        if (kind, value) == ("name", "do"):
            return self.steps()
        left = self.applied()
        while True:
            kind, value = self.peek()[:2]
            if kind != "operator" or value not in BINDS or BINDS[value][0] < least:
                return left
            self.next()
            strength, rightwards = BINDS[value]
            left = ("operator", value, left, self.expression(strength if rightwards else strength + 1))

    def function(self):
        self.next()
        names = []
        while True:
            kind, value = self.next()[:2]
            if kind == "name":
                names.append(value)
            elif value == "(":
                names.append(self.next()[1])
                self.pass_over(1)
            else:
                return ("function", names, self.expression())

    def pass_over(self, depth):
        while depth:
            depth += depth_of(self.next())

    def steps(self):
        self.next()
        indent, steps = self.peek()[2], []
        while True:
            kind, value, column, first = self.peek()
            if kind == "end" or value == ")" or (first and column < indent):
                break
            end, depth = self.at, 0
            while end < len(self.words):
                word = self.words[end]
                if end > self.at and depth == 0 and word[3] and word[2] <= indent:
                    break
                depth += depth_of(word)
                if depth < 0:
                    break
                end += 1
            part, self.at = self.words[self.at:end], end
            named = len(part) > 1 and part[1][1] == "←"
            steps.append((part[0][1], Reader(part[2:]).whole()) if named else (None, Reader(part).whole()))
        tree = steps[-1][1]
        for name, value in reversed(steps[:-1]):
            tree = ("operator", ">>=", value, ("function", [name], tree))
        return tree

    def applied(self):
        tree = self.atom()
        while True:
            kind, value = self.peek()[:2]
            is_name = kind == "name" and value not in ("then", "else", "in", "where", "if", "let")
            if kind in ("number", "text") or is_name or (kind, value) == ("mark", "("):
                tree = ("apply", tree, self.atom())
            elif value == "{":
                self.next()
                self.pass_over(1)
            elif (kind, value) == ("mark", "λ"):
                tree = ("apply", tree, self.expression())
            else:
                return tree

    def atom(self):
        kind, value = self.next()[:2]
        if kind == "number":
            tree = ("value", value)
        elif kind == "text":
            tree = ("value", tuple(value.encode()))
        elif (kind, value) == ("name", "record"):
            tree = self.record()
        elif kind == "name":
            tree = ("name", value)
        elif value == "(":
            tree = self.bracket()
        else:
            raise SyntaxError(f"no expression begins with {value} behind {self.words[max(0, self.at - 8):self.at]}")
        while self.peek()[0] == "field":
            tree = ("field", tree, self.next()[1])
        return tree

    def record(self):
        base = self.atom() if self.peek()[1] != "{" else None
        self.want("{")
        fields = []
        while self.peek()[1] != "}":
            name = str(self.next()[1])
            self.want("=")
            fields.append((name, self.expression()))
            if self.peek()[1] == ";":
                self.next()
        self.want("}")
        return ("record", base, fields)

    def bracket(self):
        parts = [self.expression()]
        while self.peek()[1] == ",":
            self.next()
            if self.peek()[1] == ")":
                break
            parts.append(self.expression())
        if self.peek()[1] == ":":
            depth = 0
            while depth or self.peek()[1] != ")":
                depth += depth_of(self.next())
        self.want(")")
        return parts[0] if len(parts) == 1 else ("tuple", parts)


# ---- the words of std and of the kit's crates

def split_by(test, xs):
    parts, now = [], []
    for x in xs:
        if apply(test, x):
            parts.append(tuple(now))
            now = []
        else:
            now.append(x)
    return tuple(parts + [tuple(now)])


def joined(separator, parts):
    octets = []
    for i, part in enumerate(parts):
        octets += ([separator] if i else []) + list(part)
    return tuple(octets)


def base64_octets(engine, text):
    """What base64 decodes, with the padding that the engine wants and no stray bits."""
    octets = bytes(text)
    body = octets.rstrip(b"=")
    over = len(body) % 4
    pads = {0: 0, 2: 2, 3: 1}.get(over)
    if over == 1 or not re.fullmatch(rb"[A-Za-z0-9+/]*", body) or len(octets) - len(body) != (pads if engine == "standard" else 0):
        return Built("Err", (Built("tt"),))
    decoded = base64.b64decode(body + b"=" * pads)
    same = base64.b64encode(decoded).rstrip(b"=") == body
    return Built("Ok", (tuple(decoded),)) if same else Built("Err", (Built("tt"),))


def digits_value(base, text):
    n = 0
    for octet in text:
        if not 48 <= octet <= 57:
            return 0
        n = n * base + octet - 48
    return n


def at_or(xs, i, other):
    return xs[i] if i < len(xs) else other


def first_of(test, xs):
    return next((some(x) for x in xs if apply(test, x)), NONE)


def mapped_where_some(f, xs):
    found = (apply(f, x) for x in xs)
    return tuple(it.args[0] for it in found if it.name == "Some")


def aes_encrypt(key, block):
    cipher = Cipher(algorithms.AES(bytes(key)), modes.ECB()).encryptor()  # one block: the cipher itself
    return tuple(cipher.update(bytes(block)))


def of_option(option, none, f):
    return none if option.name == "None" else f(option.args[0])


VALUES = {"true": True, "false": False, "[]": (), "None": NONE, "tt": Built("tt"), "zero": 0, "standard": "standard", "standard_no_pad": "", "w32": 4}
FUNCTIONS = {
    "Some": some, "Ok": lambda x: Built("Ok", (x,)), "Err": lambda x: Built("Err", (x,)), "suc": lambda n: n + 1, "pos": lambda n: n, "nat_abs": abs,
    "nat_lt": lambda a, b: a < b, "nat_le": lambda a, b: a <= b, "nat_eq": lambda a, b: a == b, "beq": lambda a, b: a == b, "not": lambda a: not a,
    "min": lambda a, b: min(a, b), "max": lambda a, b: max(a, b), "sum": sum, "bit_xor": lambda a, b: a ^ b, "bit_and": lambda a, b: a & b,
    "length": len, "take": lambda n, xs: xs[:n], "drop": lambda n, xs: xs[n:], "replicate": lambda n, x: (x,) * n,
    "map": lambda f, xs: tuple(apply(f, x) for x in xs), "filter": lambda f, xs: tuple(x for x in xs if apply(f, x)),
    "flat_map": lambda f, xs: tuple(y for x in xs for y in apply(f, x)), "filter_map": mapped_where_some, "find": first_of,
    "list_any": lambda f, xs: any(apply(f, x) for x in xs), "list_all": lambda f, xs: all(apply(f, x) for x in xs),
    "count_by": lambda f, xs: sum(1 for x in xs if apply(f, x)), "starts_with": lambda eq, xs, ys: xs[:len(ys)] == ys,
    "slice_split": split_by, "slice_index": lambda xs, i: at_or(xs, i, 0), "slice_index_or": at_or, "get_or": at_or,
    "slice_get": lambda xs, i: some(xs[i]) if i < len(xs) else NONE, "set": lambda xs, i, x: xs[:i] + (x,) + xs[i + 1:] if i < len(xs) else xs,
    "range_with_len": lambda first, n: tuple(range(first, first + n)), "join_with_byte": joined, "bytes_eq": lambda a, b: a == b,
    "option_map": lambda f, o: of_option(o, NONE, lambda x: some(apply(f, x))), "option_and_then": lambda f, o: of_option(o, NONE, lambda x: apply(f, x)),
    "option_or": lambda a, b: b if a.name == "None" else a, "option_map_or": lambda f, o, d: of_option(o, d, lambda x: apply(f, x)),
    "option_to_list": lambda o: of_option(o, (), lambda x: (x,)), "is_some": lambda o: o.name == "Some", "is_none": lambda o: o.name == "None", "is_ok": lambda r: r.name == "Ok",
    "decimal": lambda n: tuple(str(n).encode()), "signed_decimal": lambda n: tuple(str(n).encode()), "codes": lambda text: text,
    "digits_value": digits_value, "is_ascii_digit": lambda c: 48 <= c <= 57, "encode_lower": lambda xs: tuple(bytes(xs).hex().encode()),
    "encode_of": lambda engine, xs: tuple(base64.b64encode(bytes(xs))), "decode_of": base64_octets,
    "from_be_bytes": lambda width, xs: int.from_bytes(bytes(xs), "big"), "to_be_bytes": lambda width, n: tuple(n.to_bytes(width, "big")),
}
# definitions that are computed by Python's libraries, or that carry a proof
INSTEAD = {
    "aes_encrypt": Function(2, aes_encrypt),
    "hmac_sha1": Function(2, lambda key, xs: tuple(hmac.new(bytes(key), bytes(xs), hashlib.sha1).digest())),
    "as_octets": Function(1, lambda xs: Record({"items": tuple(x % 256 for x in xs)})),
}
OPERATORS = {
    "+": lambda a, b: a + b, "+ℤ": lambda a, b: a + b, "-": lambda a, b: max(0, a - b), "-ℤ": lambda a, b: a - b, "*": lambda a, b: a * b,
    "/": lambda a, b: a // b if b else 0, "%": lambda a, b: a % b if b else a, "^": lambda a, b: a ** b, "==": lambda a, b: a == b,
    "∷": lambda a, b: (a,) + b, "++": lambda a, b: a + b,
}


def std_word(name):
    if name in VALUES:
        return VALUES[name]
    f = FUNCTIONS[name]
    return Function(f.__code__.co_argcount if hasattr(f, "__code__") else 1, f)


# ---- files of definitions

class Module:
    """A file of definitions: what it declares, and what it takes from others."""
    crates = "crates"
    loaded = {}

    @classmethod
    def at(cls, path):
        if path not in cls.loaded:
            cls.loaded[path] = cls(path)
        return cls.loaded[path]

    def __init__(self, path):
        self.path, self.taken, self.aliases, self.clauses, self.built, self.values = path, {}, {}, {}, {}, {}
        parts = path.split(".")
        with open(os.path.join(self.crates, parts[0], "specs", *parts[2:]) + ".antt", encoding="utf-8") as file:
            for item in self.items(file.read()):
                self.take(item)

    @staticmethod
    def items(text):
        item = []
        for line in text.split("\n"):
            if line.startswith("--"):
                continue
            if line and not line[0].isspace() and line[0] not in "})" and item:
                yield "\n".join(item)
                item = []
            if line or item:
                item.append(line)
        if item:
            yield "\n".join(item)

    def take(self, item):
        words = item.split()
        if not words or words[0] in ("infixl", "infixr", "infix") or "record" in words[:2]:
            return
        if "use" in words[:2]:
            self.take_names(item.removeprefix("pub "))
        elif "data" in words[:2]:
            self.take_data(item)
        elif words[0] not in ("abbrev", "unfoldable", "pub") or " : " not in item.split("\n")[0]:
            self.take_clause(item)

    def take_names(self, item):
        path, names, alias = re.match(r"use Rattle\.([A-Za-z0-9_.]+?)(?:\.\{(.*)\}| as (\w+))?\s*$", item, re.S).groups()
        if names is None:
            self.aliases[alias or path.split(".")[-1]] = path
            return
        for name in names.split(","):
            name, _, here = name.strip().partition(" as ")
            self.taken[(here or name).strip("◌")] = (path, name.strip("◌"))

    def take_data(self, item):
        of = item.split("data")[1].split()[0]
        for line in item.split("\n")[1:]:
            name, is_built, kind = line.split("--")[0].strip().partition(" : ")
            if is_built:
                depth = arrows = 0
                for sign in kind:
                    depth += (sign == "(") - (sign == ")")
                    arrows += sign == "→" and depth == 0
                self.built[name] = (f"{of}.{name}", arrows)

    def take_clause(self, item):
        words, depth = words_of(item), 0
        for end, word in enumerate(words):
            depth += depth_of(word)
            if depth == 0 and word[1] == "=":
                break
        else:
            return
        head, body = words[:end], words[end + 1:]
        for i, word in enumerate(head):
            depth += depth_of(word)
            if depth == 0 and word[0] == "operator" and word[1] != "∷":
                self.clauses.setdefault(word[1], []).append(([head[:i], head[i + 1:]], body))
                return
        self.clauses.setdefault(head[0][1], []).append((head[1:], body))

    # ---- names

    def builder(self, name):
        """The full name of what builds a value, or None where the name is no such."""
        if name in ("None", "Some", "Ok", "Err", "true", "false", "[]", "zero", "suc", "tt"):
            return name
        if name in self.built:
            return self.built[name][0]
        path, there = self.taken.get(name, ("", ""))
        parts = path.split(".")
        if parts[-1] == VARIANTS:
            return f"{parts[-2]}.{there}"
        if not path or ".declared." in path or parts[0] in OUTSIDE:
            return None
        return Module.at(path).built.get(there, (None,))[0]

    def builder_of(self, alias, name):
        path = self.aliases[alias]
        return f"{path.split('.')[-2]}.{name}" if path.endswith(VARIANTS) else Module.at(path).built[name][0]

    def value(self, name):
        if name not in self.values:
            self.values[name] = self.find(name)
        return self.values[name]

    def find(self, name):
        if name in self.clauses:
            return remembered(self.function(name)) if name == "session_keys" else self.function(name)
        if name in self.built:
            full, wants = self.built[name]
            return Built(full) if wants == 0 else Function(wants, lambda *args: Built(full, args))
        if name not in self.taken:
            return std_word(name)
        path, there = self.taken[name]
        if there in INSTEAD:
            return INSTEAD[there]
        if path.split(".")[0] in OUTSIDE:
            return std_word(there)
        if path.endswith(VARIANTS):
            return Growing(f"{path.split('.')[-2]}.{there}")
        return Module.at(path).value(there)

    # ---- patterns

    def patterns(self, words):
        found, i = [], 0
        while i < len(words):
            kind, value = words[i][:2]
            if value in ("(", "{"):
                depth, end = 1, i + 1
                while depth:
                    depth += depth_of(words[end])
                    end += 1
                if value == "(":
                    found.append(self.pattern(words[i + 1:end - 1]))
                i = end
                continue
            if i + 1 < len(words) and words[i + 1][0] == "field":
                found.append(("built", self.builder_of(value, words[i + 1][1]), []))
                i += 1
            elif value == "_":
                found.append(("any",))
            else:
                full = self.builder(value)
                found.append(("built", full, []) if full else ("name", value))
            i += 1
        return found

    def pattern(self, words):
        parts, depth = [[]], 0
        for i, word in enumerate(words):
            depth += depth_of(word)
            if depth == 0 and word[1] == "∷":
                return ("cons", self.pattern(words[:i]), self.pattern(words[i + 1:]))
            if depth == 0 and word[1] == ",":
                parts.append([])
            else:
                parts[-1].append(word)
        if len(parts) > 1:
            return ("tuple", [self.pattern(it) for it in parts])
        found = self.patterns(words)
        return ("built", found[0][1], found[1:]) if found[0][0] == "built" else found[0]

    # ---- functions

    def function(self, name):
        clauses = []
        for head, body in self.clauses[name]:
            patterns = [self.pattern(it) if len(it) > 1 and it[0][1] != "(" else self.patterns(it)[0] for it in head] if name in BINDS else self.patterns(head)
            clauses.append((patterns, self.compiled(Reader(body).whole())))
        if not clauses[0][0]:
            return clauses[0][1]({})

        def run(*args):
            for patterns, body in clauses:
                names = {}
                if all(fits(pattern, arg, names) for pattern, arg in zip(patterns, args)):
                    return body(names)
            raise ValueError(f"no clause of {self.path}.{name} fits")

        return Function(len(clauses[0][0]), run)

    def compiled(self, tree):
        """A function from the names that are bound to the value of the expression."""
        return getattr(self, f"compiled_{tree[0]}")(*tree[1:])

    def compiled_value(self, value):
        return lambda names: value

    def compiled_name(self, name):
        return lambda names: names[name] if name in names else self.value(name)

    def compiled_field(self, tree, field):
        of = self.compiled(tree)
        if tree[0] != "name" or tree[1] not in self.aliases:
            return lambda names: of(names).fields[field]
        alias, path = tree[1], self.aliases[tree[1]]

        def run(names):
            if alias in names:
                return names[alias].fields[field]
            return Growing(f"{path.split('.')[-2]}.{field}") if path.endswith(VARIANTS) else Module.at(path).value(field)

        return run

    def compiled_apply(self, f, x):
        f, x = self.compiled(f), self.compiled(x)
        return lambda names: apply(f(names), x(names))

    def compiled_function(self, args, body):
        body = self.compiled(body)
        return lambda names: Function(len(args), lambda *given: body({**names, **dict(zip(args, given))}))

    def compiled_if(self, test, then, other):
        test, then, other = self.compiled(test), self.compiled(then), self.compiled(other)
        return lambda names: then(names) if test(names) else other(names)

    def compiled_let(self, name, bound, body):
        bound, body = self.compiled(bound), self.compiled(body)
        return lambda names: body({**names, name: bound(names)})

    def compiled_operator(self, sign, a, b):
        a, b = self.compiled(a), self.compiled(b)
        if sign == "&&":
            return lambda names: a(names) and b(names)
        if sign == "||":
            return lambda names: a(names) or b(names)
        if sign == ">>=":
            return lambda names: call(self.value(sign), a(names), b(names))
        compute = OPERATORS[sign]
        return lambda names: compute(a(names), b(names))

    def compiled_record(self, base, fields):
        base = self.compiled(base) if base else None
        fields = [(name, self.compiled(tree)) for name, tree in fields]
        return lambda names: Record({**(base(names).fields if base else {}), **{name: of(names) for name, of in fields}})

    def compiled_tuple(self, parts):
        parts = [self.compiled(it) for it in parts]
        return lambda names: tuple_of([it(names) for it in parts])


def fits(pattern, value, names):
    """Whether a value has this form; its parts are bound to the pattern's names."""
    kind = pattern[0]
    if kind == "name":
        names[pattern[1]] = value
        return True
    if kind == "any":
        return True
    if kind == "cons":
        return value != () and fits(pattern[1], value[0], names) and fits(pattern[2], value[1:], names)
    if kind == "tuple":
        return all(fits(it, value.fields[str(i)], names) for i, it in enumerate(pattern[1]))
    full, parts = pattern[1:]
    if full in VALUES and full != "None":
        return full == "tt" or (value is VALUES[full] if isinstance(VALUES[full], bool) else value == VALUES[full])
    if full == "suc":
        return value > 0 and fits(parts[0], value - 1, names)
    return value.name == full and all(fits(it, arg, names) for it, arg in zip(parts, value.args))


def remembered(keys_of):
    """The session keys of a master key, each computed once."""
    known = {}

    def keys(master):
        key = (master.fields["suite"].name, master.fields["key"], master.fields["salt"])
        if key not in known:
            known[key] = apply(keys_of, master)
        return known[key]

    return Function(1, keys)


def definition(path, name):
    return Module.at(path).value(name)


def events_of(script):
    """The events of a replay of these octets, by the definition of their trace."""
    return call(definition("sg_trace.specs.Trace", "replayed"), tuple(script), ()).fields["events"]


def replayed(script):
    """The lines of what a replay tells, by the definitions of a trace, of a step and of an outcome's text."""
    step, line = definition("sg_gateway.specs.Step", "step"), definition("sg_outcome.specs.OutcomeText", "outcome_line")
    world = definition("sg_gateway.specs.World", "empty")
    for event in events_of(script):
        given = call(step, world, event)
        world = given.fields["world"]
        for outcome in given.fields["outcomes"]:
            yield bytes(call(line, outcome))


def muxed_by_events(script):
    """The same of a replay whose legs may share ports, one event behind another as `outcomes_in` has them."""
    after, stepped = (definition("sg_mux.specs.Via", name) for name in ("muxing_after", "stepped"))
    line = definition("sg_outcome.specs.OutcomeText", "outcome_line")
    world, calls = definition("sg_gateway.specs.World", "empty"), definition("sg_mux.specs.Muxed", "nobody")
    for event in events_of(script):
        given = call(after, world, calls, event)
        world, calls = call(stepped, world, calls, event).fields["world"], given.fields["calls"]
        for outcome in given.fields["told"]:
            yield bytes(call(line, outcome))


def muxed(script):
    """What is written of it, by the definition of its text; of a long script, whose text at once takes much memory, one event behind another."""
    if len(script) > LONG_SCRIPT:
        yield from muxed_by_events(script)
    else:
        yield bytes(call(definition("sg_playback.specs.Replay", "output_in"), True, events_of(script)))


def bridged_by_lines(script):
    """The lines of what a bridge tells, by the definitions of what its lines say, of a part of it and of an outcome's text."""
    bridging = definition("sg_pairs.specs.Bridged", "bridging")
    line = definition("sg_pairs.specs.BridgeText", "bridge_outcome_line")
    world, calls = definition("sg_gateway.specs.World", "empty"), definition("sg_pairs.specs.Pairs", "no_members")
    for said in call(definition("sg_bridge.specs.Bridge", "bridge_trace"), tuple(script), ()).fields["deeds"]:
        given = call(bridging, world, calls, said)
        world, calls = given.fields["world"], given.fields["calls"]
        for outcome in given.fields["told"]:
            yield bytes(call(line, outcome))


def bridged(script):
    """What is written of it, by the definition of its text; of a long script one line behind another."""
    if len(script) > LONG_SCRIPT:
        yield from bridged_by_lines(script)
    else:
        said = call(definition("sg_bridge.specs.Bridge", "bridge_trace"), tuple(script), ()).fields["deeds"]
        yield bytes(call(definition("sg_bridge.specs.Bridge", "bridge_text"), said))


def migrated(script):
    """A script of version 1 in version 2, by its definition."""
    yield bytes(call(definition("sg_migrate.specs.Migrated", "migrated"), tuple(script)))


def captured(source):
    """What is written of a script and the capture behind it, by the definition of their trace's text."""
    trace = call(definition("sg_trace.specs.Captured", "captured"), tuple(source), ())
    world, output = definition("sg_gateway.specs.World", "empty"), definition("sg_trace.specs.Captured", "output_of")
    yield bytes(call(output, world, trace.fields["occurrences"]))


def live(script):
    """A script of version 1 whose ticks go on, and whose datagrams come over the network at the moments of its ticks: a wait
    stands in the place of each, and a tick has two turns, of which the second takes what comes right behind it. With it the
    readings of the clock, and what is received in each turn."""
    came, nothing = (definition("sg_edge.specs.Links", name) for name in ("Came", "Nothing"))
    lines, readings, receipts, moment, word = [], [BEGAN], [], 0, None
    for line in script.splitlines(keepends=True):
        before, (word, *values) = word, line.split()
        if word == b"tick":
            readings += BEGAN + moment, BEGAN + int(values[0])
            receipts += nothing, nothing
            moment = int(values[0])
        elif word == b"in":
            host, port = values[1].split(b":")
            source = Record({"ip": tuple(int(it) for it in host.split(b".")), "port": int(port)})
            receipt = call(came, int(values[0]), source, tuple(bytes.fromhex(values[2].decode().strip("-"))))
            if before == b"tick":
                receipts[-1] = receipt
                continue
            readings.append(BEGAN + moment)
            receipts.append(receipt)
            line = b"tick %d\n" % moment
        lines.append(line)
    return b"".join(lines), tuple(readings), tuple(receipts)


def acts_of(kind, muxes, script, readings, receipts):
    """What a relay does for its deeds, by the definition of its weaving and by those of its kind."""
    weaves, acts = (definition(f"sg_relay.specs.{kind}", name) for name in ("weaves", "acts"))
    deeds = call(definition("sg_relay.specs.Weaving", "woven"), weaves, tuple(script), readings, receipts, ()).fields["deeds"]
    return call(acts, *muxes, deeds)


def relayed(kind, *muxes):
    """What a relay of this kind tells and sends, to which the datagrams come over the network."""
    def told(script):
        line, sent = definition("sg_outcome.specs.OutcomeText", "outcome_line"), Growing("Outcome.Out")
        for act in acts_of(kind, muxes, *live(script)):
            yield bytes(act.args[1] if act.name == "Act.Tells" else call(line, call(sent, *act.args)))
    return told


def written(kind, *muxes):
    """What a relay of this kind writes, to which nothing comes, and which can send a packet to each port but 0."""
    def told(script):
        for act in acts_of(kind, muxes, script, (0,), ()):
            goes = act.name == "Act.Sends" and act.args[1].fields["port"] > 0
            yield bytes(call(definition("sg_relay.specs.Asked", "written_as"), act, goes))
    return told


COMMANDS = {
    "replay": replayed, "replay --mux": muxed, "bridge": bridged, "migrate": migrated, "capture": captured,
    "relay": relayed("Plain", False), "relay --mux": relayed("Plain", True), "relay --bridge": relayed("Joined"),
    "relay --turns 1 --bridge": written("Joined"),
}


def main(words):
    if len(words) not in (1, 2, 3) or words[2:] and words[2] not in COMMANDS:
        print(__doc__, file=sys.stderr)
        return 2
    if words[1:]:
        Module.crates = words[1]
    told_by = COMMANDS[words[2] if words[2:] else "replay"]
    with open(words[0], "rb") as file:
        for line in told_by(file.read()):
            sys.stdout.buffer.write(line)
    return 0


def in_deep_stack(run, words):
    """What `run` gives for these words: definitions recur once for each octet of a script."""
    given = []
    threading.stack_size(STACK_OCTETS)
    thread = threading.Thread(target=lambda: given.append(run(words)))
    thread.start()
    thread.join()
    return given[0] if given else 1


if __name__ == "__main__":
    sys.exit(in_deep_stack(main, sys.argv[1:]))
