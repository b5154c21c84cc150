"""Which functions of a crate a function calls: by the file it stands in, by what that file imports, and by the type
that a method is called on.

A method is known by the type of what it is called on: `self` and its fields, a parameter, a local that is made by a
type's function or by a function whose result is known. A call on anything else counts only where one type alone has
a method of that name and the standard library has none. So a call may be missed; none is taken for another's.
"""
import os
import re
from collections import defaultdict

import sources

# methods of the standard library: on a value whose type is not known, a call of one of these is nobody's here
OF_STD = set("""
    and_then as_bytes as_mut_slice as_ref as_slice at begin bytes capacity chars checked_add checked_sub clamp clear clone
    close cmp collect contains copied copy copy_from_slice count default drain drop elapsed end ends_with entries entry
    enumerate eq err extend extend_from_slice fill filter find first flush fmt fold from get get_mut hash index insert
    into into_inner is_empty is_err is_none is_ok is_same is_some iter iter_mut join keys kind last len load lock map
    map_err max min new next of ok ok_or open pop position push push_reserved put read remove replace reserve resize
    rev reverse saturating_add set skip sort split split_at starts_with step_by store sum swap take tell text then
    then_some to_vec trim truncate try_clone unwrap_or update values windows with_capacity write write_all zip""".split())
IMPORT = re.compile(r"^(?:pub )?use ((?:\w+::)+)(\*|\w+(?: as \w+)?|\{[^}]*\});", re.M | re.S)
STRUCT = re.compile(r"^(?:pub(?:\([a-z]+\))? )?struct (\w+)[^;{(]*\{(.*?)^\}", re.M | re.S)
FIELD = re.compile(r"^\s*(?:pub(?:\([a-z]+\))? )?(\w+): ([^\n]*?),?$", re.M)
IMPL_OF_TRAIT = re.compile(r"^impl\b[^{]*?\b(\w+)(?:<[^{]*?>)? for [^{]*", re.M)
GENERICS = re.compile(r"\b(fn \w+)<.*?>\((?=\s*(?:\)|&|mut\b|self\b|\w+:))", re.S)
PARAMETER = re.compile(r"(?:mut )?(\w+): ([^,)\n]+)")
BOUND = re.compile(r"\b([A-Z]\w*): ([A-Z]\w*)")
RESULT = re.compile(r"\) -> (.*?)(?:\s*\{|\s*;|\n|$)")
LOCAL = re.compile(r"\blet (?:mut )?(?:(?:Some|Ok|Err)\((?:mut )?(\w+)\)|(\w+))(?:: ([^=;]+?))? = (?:match )?([^;{]+)")
TAKEN_APART = re.compile(r"\blet (\w+) \{([^}]*)\} =")
LOOP = re.compile(r"\bfor (?:mut )?(\w+) in ([^{]+)\{")
NAMED = re.compile(r"(?<![\w.:])((?:\w+(?:::<[^()]*?>)?::)*)(\w+)\b")
METHOD = re.compile(r"\.(\w+)(?:::<[^()]*?>)?\(")
HEAD = re.compile(r"(?:\w+(?:::<[^()]*?>)?::)*\w+(?:::<[^()]*?>)?")
WRAPPERS = ("Option", "Result", "Box", "MutexGuard", "Mutex")
KEEPING = ("as_ref", "as_mut", "as_mut_slice", "as_slice", "into_inner", "iter", "iter_mut", "lock", "ok")
CLOSING = {")": "(", "]": "["}


def bare(text):
    """A body without comments and texts."""
    text = re.sub(r"//[^\n]*", "", text)
    return re.sub(r"\s*\n\s*\.", ".", re.sub(r'"(?:\\.|[^"\\])*"', '""', text))


def before(text, end):
    """The expression that ends there: names, fields, calls and places in brackets."""
    start = end
    while start > 0:
        sign = text[start - 1]
        if sign in CLOSING:
            depth, at = 0, start - 1
            while at >= 0:
                depth += (text[at] == sign) - (text[at] == CLOSING[sign])
                if not depth:
                    break
                at -= 1
            start = max(at, 0)
        elif sign.isalnum() or sign in "_.:?":
            start -= 1
        else:
            break
    return text[start:end]


def after_brackets(text):
    """What follows the brackets that a text begins with."""
    depth = 0
    for at, sign in enumerate(text):
        depth += (sign in "([") - (sign in ")]")
        if not depth:
            return text[at + 1:]
    return ""


class File:
    """What the names of a file stand for: each import with the path that it comes by."""

    def __init__(self, path):
        self.path, self.text = path, sources.read(path)
        self.imports, self.opens = {}, []
        for way, what in IMPORT.findall(self.text):
            if what == "*":
                self.opens.append(way)
                continue
            for entry in what.strip("{}").split(","):
                name, _, renamed = entry.strip().rpartition("::")[2].partition(" as ")
                inner = entry.strip().rpartition("::")[0]
                if name:
                    self.imports[(renamed or name).strip()] = (f"{way}{inner}", name.strip())


class Names:
    """The functions of a crate and of its tests, and which of them a call means."""

    def __init__(self, crate, every):
        self.crate, self.every = crate, every
        paths = {one.path for one in every}
        paths |= {path for path in (f"{os.path.dirname(one)}/lib.rt" for one in paths) if os.path.exists(path)}
        self.files = {path: File(path) for path in sorted(paths)}
        self.free, self.methods, self.fields = defaultdict(list), defaultdict(list), {}
        for one in every:
            (self.methods if one.of else self.free)[one.name].append(one)
        self.types, self.traits = {one.of for one in every if one.of}, defaultdict(list)
        for file in self.files.values():
            for name, inner in STRUCT.findall(file.text):
                self.types.add(name)
                self.fields.setdefault(name, {}).update(FIELD.findall(inner))
            for found in IMPL_OF_TRAIT.finditer(file.text):
                end = file.text.find("\n}", found.end())
                self.traits[found[1]] += [one for one in every if one.path == file.path and one.of
                                          and found.start() <= one.start < end]

    def type_in(self, text, of=""):
        """The type of this crate that a written type is, below references, options and results. A list of a type
        has the type's name in brackets."""
        text, is_list = text or "", False
        for word in re.findall(r"\b[A-Z]\w*\b|\[", text):
            if word in ("[", "Vec", "Seq"):
                is_list = True
            elif word not in WRAPPERS:
                name = of if word == "Self" else word
                name = name if name in self.types or name in self.traits else ""
                return f"[{name}]" if is_list and name else name
        return ""

    def is_module(self, function, way):
        """Whether a path of an import, or the one written at a call, leads to the function's module."""
        last = [it for it in way.split("::") if it]
        stem = [it for it in sources.module_of(function.path, os.path.dirname(function.path))]
        is_test = "/tests" in function.path or "_tests/" in function.path
        if not last or last[-1] in ("super", "self", "crate", self.crate):
            # what a crate, or the module above, gives out
            return not is_test or last[-1:] in (["super"], ["self"], ["crate"])
        if last[-1] in stem or not stem and last[-1] == os.path.basename(os.path.dirname(function.path)):
            return True
        return len(last) > 1 and last[-1] in function.path.split("/")

    def free_of(self, path, way, name):
        """The free functions that a name means in a file."""
        file, found = self.files[path], self.free.get(name, [])
        if not found:
            return []
        if way:
            head = way.split("::")[0]
            if head in file.imports:
                way = "::".join([*file.imports[head]])
            return [one for one in found if self.is_module(one, way)]
        here = [one for one in found if one.path == path]
        if here:
            return here
        if name in file.imports:
            way, name = file.imports[name]
            return [one for one in self.free.get(name, []) if self.is_module(one, way)]
        if f"{self.crate}::" in file.opens:
            return [one for one in found if f"/{self.crate}/" in one.path]
        above = os.path.dirname(path)
        for one in (f"{above}.rt", f"{above}/lib.rt"):
            if "super::" in file.opens and one in self.files and one != path:
                return self.free_of(one, "", name)
        return []

    def renamed(self, path, name):
        """A type's own name, where a file imports it under another."""
        return self.files[path].imports.get(name, ("", name))[1]

    def of_type(self, of, name):
        """The methods of that name of a type, or of each type that has a trait."""
        found = [one for one in self.methods.get(name, []) if one.of == of]
        return found or [one for one in self.traits.get(of, []) if one.name == name]

    def result_of(self, functions):
        """The type that functions give, where all give one."""
        found = {self.type_in((RESULT.search(one.head) or ["", ""])[1], one.of) for one in functions}
        return found.pop() if len(found) == 1 else ""

    def called_by_path(self, function, written):
        """The functions that a path such as `Book::open` or `place_of` means."""
        words = re.sub(r"::<[^()]*?>", "", written).split("::")
        *way, name = words
        if way and way[-1][:1].isupper():
            of = function.of if way[-1] == "Self" else self.renamed(function.path, way[-1])
            return self.of_type(of, name)
        return self.free_of(function.path, "::".join(way), name)

    def locals_of(self, function):
        """The types of a function's parameters and locals, where they can be seen."""
        known = {"self": function.of} if function.of else {}
        signature = re.split(r"\n\s+(?:requires|ensures)\b", function.head)[0]
        bounds = dict(BOUND.findall(signature))
        for name, written in PARAMETER.findall(GENERICS.sub(r"\1(", signature, count=1)):
            of = self.type_in(re.sub(r"\b[A-Z]\w*\b", lambda it: bounds.get(it[0], it[0]), written), function.of)
            known.setdefault(name, of)
        body = bare(function.body)
        for of, names in TAKEN_APART.findall(body):
            for field, _, name in (it.strip().partition(": ") for it in names.split(",")):
                known[(name or field).removeprefix("mut ")] = self.type_in(self.fields.get(of, {}).get(field, ""))
        for found in sorted([*LOCAL.finditer(body), *LOOP.finditer(body)], key=lambda it: it.start()):
            if found.re is LOOP:
                name, of = found[1], self.type_of(found[2], known, function).strip("[]")
            else:
                name = found[1] or found[2]
                of = self.type_in(found[3], function.of) or self.type_of(found[4], known, function)
            known[name] = of
        return known

    def type_of(self, text, known, function):
        """The type of an expression: a name or a call, with fields, calls of methods and places in brackets."""
        text = re.sub(r"^(?:[&*]|mut\b|\s)+", "", text)
        head = HEAD.match(text)
        if not head:
            return ""
        name, rest = head[0], text[head.end():]
        if rest.startswith("("):
            of, rest = self.result_of(self.called_by_path(function, name)), after_brackets(rest)
        elif name[:1].isupper() and "::" not in name:
            return self.type_in(name, function.of)
        else:
            of = known.get(name, "")
        while of and rest:
            step = re.match(r"\.(\w+)(?:::<[^()]*?>)?", rest)
            if rest[0] == "?":
                rest = rest[1:]
            elif rest[0] == "[":
                of, rest = of.strip("[]") if ".." not in rest else of, after_brackets(rest)
            elif step and rest[step.end():step.end() + 1] == "(":
                rest = after_brackets(rest[step.end():])
                methods = self.of_type(of, step[1])
                if methods or step[1] not in KEEPING:
                    of = self.result_of(methods)
            elif step:
                of, rest = self.type_in(self.fields.get(of, {}).get(step[1], "")), rest[step.end():]
            else:
                break
        return of

    def called(self, function):
        """The functions that a function calls, or hands to another."""
        body, known, found = bare(function.body), self.locals_of(function), []
        body = body[body.find("{") + 1:]
        for named in NAMED.finditer(body):
            # a local may have the name of the function that makes it
            if named[1] or named[2] not in known or body[named.end():named.end() + 1] == "(":
                found += self.called_by_path(function, f"{named[1]}{named[2]}")
        for call in METHOD.finditer(body):
            of, name = self.type_of(before(body, call.start()), known, function), call[1]
            if of:
                found += self.of_type(of, name)
            elif name not in OF_STD and len({one.of for one in self.methods.get(name, [])}) == 1:
                found += self.methods[name]
        return list({id(one): one for one in found if one is not function}.values())
