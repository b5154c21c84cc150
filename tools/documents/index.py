"""From a clause to all that it rests on: build/docs/index.md, made from the sources.

For each crate a list of the public functions, with the wrong bodies that turn each, the clauses that were seen
to refuse one, and the tests that run it; and one of the words that their clauses use: where a word is defined, which
heading of the public standard its module states, and the functions that are promised by it. Which function a call
means is found by the file it stands in, by what that imports, and by the type that a method is called on (calls.py).

Missing is a public function without a wrong body that no line of index-exceptions.txt tells of, a word without a
comment above it, a clause or a definition that uses a module of specs/code/, and a module that its crate's page does
not name.
"""
import functools
import os
import re
import textwrap
from collections import defaultdict

from documents import calls
from gate import stands
from sources import ROOT, crates, files, read

FUNCTION = re.compile(r"^(\s*)(pub(?:\([a-z]+\))? )?(?:const )?fn (\w+)")
WORD_DEFINED = re.compile(
    r"\s*(?:abbrev|unfoldable) pub ([\w']+)|(?:pub (?:record |data )?|record pub )([\w']+)")
WORD = re.compile(r"[A-Za-z_][\w']*")
CONSTANT = re.compile(r"^(?:pub(?:\([a-z]+\))? )?(?:const|static) (\w+):.*?;$", re.M | re.S)
# the crate that has laws alone
LAWS = "hg_theorems"
GHOST = re.compile(r"(?m)^ghost use Rattle\.(hg_\w+)\.specs\.([\w.]+)\.\{([^}]*)\}")


ABOUT = """\
Made by `make docs` from the sources. For each crate the public functions, with the wrong bodies that turn each,
those that each clause was seen to refuse, and the tests that run it; and the words that their clauses use, with the
module of `specs/` that defines each, and the heading of the public standard that this module states.
[Definitions](definitions.md) has the comment above each word, [wrong bodies](wrong-bodies.md) what each turns, and
[examples](examples.md) what the tests show."""


def is_of_tests(path):
    """Whether a file holds tests: in a crate of their own, or, for the topmost crates, beside the code."""
    return "_tests/" in path or "/tests" in path


class Function:
    """A function of a crate: its signature with its clauses, and its body."""

    def __init__(self, crate, path, name, public, head, body, start, end):
        self.crate, self.path, self.name, self.public = crate, path, name, public
        self.head, self.body, self.start, self.end = head, body, start, end
        self.is_test, self.is_given, self.of = False, False, ""

    def is_law(self):
        """Whether it does nothing but call other laws."""
        inner = re.sub(r"//[^\n]*", "", self.body[self.body.find("{") + 1:self.body.rfind("}")])
        return re.sub(r"\w+(::<[^()]*>)?\([^()]*\);?", "", inner).strip() == "" and self.clauses() != ""

    def clauses(self):
        """What follows `requires` and `ensures`."""
        found = re.search(r"^\s*(requires|ensures)\b", self.head, re.M)
        return self.head[found.start():] if found else ""


def functions_of(crate, path):
    """The functions of a file, in their order."""
    text = read(path)
    lines = text.split("\n")
    offsets, place = [], 0
    for line in lines:
        offsets.append(place)
        place += len(line) + 1
    number, of = 0, ""
    while number < len(lines):
        if re.match(r"(unsafe )?impl\b", lines[number]):
            named = lines[number].split(" for ")[-1].removeprefix("impl")
            named = re.sub(r"^<.*?>+ (?=\w)", "", named.strip())
            of = (re.search(r"\b([A-Z]\w*)", named) or [""])[0]
        elif lines[number].startswith("}"):
            of = ""
        found = FUNCTION.match(lines[number])
        if not found:
            number += 1
            continue
        indent, first = found.group(1), number
        # the body begins with the first line that ends with a brace at the signature's own depth
        begin = first
        ends = re.compile(rf"^{indent}(\{{.*|.*[^=] \{{|.*\{{\}}|.*;)$")
        while begin < len(lines) and not ends.match(lines[begin]):
            begin += 1
        end = begin
        if begin < len(lines) and not lines[begin].rstrip().endswith(("{}", "}", ";")):
            while end + 1 < len(lines) and lines[end + 1] != f"{indent}}}":
                end += 1
            end += 1
        head = "\n".join(lines[first:begin + 1])
        body = "\n".join(lines[begin:end + 1])
        stop = offsets[end + 1] if end + 1 < len(lines) else len(text)
        public = (found.group(2) or "").strip() == "pub"
        function = Function(crate, path, found.group(3), public, head, body, offsets[first], stop)
        function.of = of if indent else ""
        function.is_test = any("#[test]" in line for line in lines[max(0, first - 3):first])
        yield function
        number = end + 1


def edits_of(crate):
    """The wrong bodies of a crate: name, file and the text that each replaces."""
    folder = f"{ROOT}/crates/{crate}/wrong"
    for path in files(folder, ".edit"):
        file, name = None, os.path.basename(path)[:-5]
        text = read(path)
        for part in re.split(r"^(?=file: |old: |new: )", text, flags=re.M):
            if part.startswith("file: "):
                file = part[6:].strip()
            elif part.startswith("old: "):
                yield name, f"{ROOT}/crates/{crate}/{file}", part[5:].rstrip("\n")


def turned_by(path, old, every):
    """The functions that a text of a file stands in. Where it is of a constant, those of the file that name it;
    where of a type, all of them."""
    text, here = read(path), [function for function in every if function.path == path]
    place = text.find(old)
    within = [function for function in here if function.start <= place < function.end]
    for item in CONSTANT.finditer(text):
        if not within and item.start() <= place < item.end():
            return [it for it in here if re.search(rf"\b{item[1]}\b", text[it.start:it.end])]
    return within or here


def refusals_of(crate):
    """Which wrong bodies each clause refuses, as their heads tell: by the function, then by the clause."""
    found = defaultdict(lambda: defaultdict(list))
    for path in files(f"{ROOT}/crates/{crate}/wrong", ".edit"):
        head = re.match(r"breaks: ([\w:]+), (?:clause (\w+)|(its clause))$", read(path).split("\n")[0])
        if head:
            found[head.group(1)][f"clause `{head.group(2)}`" if head.group(2) else "the clause"].append(
                os.path.basename(path)[:-5])
    return found


def reached(function, calls_of, seen=None):
    """The function, and those that it calls and that its crate gives to nobody."""
    seen = set() if seen is None else seen
    if id(function) in seen:
        return []
    seen.add(id(function))
    all_of_it = [function]
    for callee in calls_of(function):
        if not callee.is_given and not is_of_tests(callee.path):
            all_of_it += reached(callee, calls_of, seen)
    return all_of_it


def run_by(tests, calls_of):
    """The tests that call each function, themselves or by functions of tests."""
    runs = defaultdict(list)
    for test in tests:
        left, seen = [test], {id(test)}
        while left:
            for one in calls_of(left.pop()):
                if id(one) not in seen:
                    seen.add(id(one))
                    if is_of_tests(one.path):
                        left.append(one)
                    else:
                        runs[id(one)].append(test.name)
    return runs


def api(crate):
    """The names that a crate gives out, and the modules that are open."""
    text = ""
    for name in ("lib.rt", "main.rt"):
        if os.path.exists(f"{ROOT}/crates/{crate}/src/{name}"):
            text += read(f"{ROOT}/crates/{crate}/src/{name}")
    given = set()
    for _, group in re.findall(r"^pub use ([\w:]*?)(\w+|\{[^}]*\});", text, re.M):
        given |= set(re.findall(r"\w+", group))
    is_program = "main.rt" in os.listdir(f"{ROOT}/crates/{crate}/src")
    return given, set(re.findall(r"^pub mod (\w+);", text, re.M)), is_program


def definitions(crate):
    """Where each word of a crate's specs/ is defined: its module, and the sentence that stands before it."""
    found = {}
    for path in files(f"{ROOT}/crates/{crate}/specs", ".antt"):
        module = os.path.relpath(path, f"{ROOT}/crates/{crate}/specs")[:-5].replace("/", ".")
        before = []
        for line in read(path).split("\n"):
            text = line.strip()
            if text.startswith("-- ") or text == "--":
                before.append(text[3:])
                continue
            word = WORD_DEFINED.match(line)
            word = word and (word.group(1) or word.group(2))
            if word and word not in ("mod", "record", "data", "unfoldable", "abbrev"):
                found.setdefault(word, (module, " ".join(before)))
            before = []
    return found


def handed_on(crate):
    """The words that a crate's specs/ hand on from a crate below, each with that crate."""
    for path in files(f"{ROOT}/crates/{crate}/specs", ".antt"):
        for lower, words in re.findall(r"^pub use Rattle\.(\w+)\.specs\.[\w.]+\.\{([^}]*)\}", read(path), re.M):
            if lower in crates():
                yield from ((word.strip(), lower) for word in words.split(","))


def standard():
    """The heading of the public standard that each module of specs/ states."""
    told = {}
    for line in read(f"{ROOT}/tools/documents/standard.txt").splitlines():
        if line.strip() and not line.startswith("#"):
            module, _, heading = line.partition(": ")
            told[module.strip()] = heading.strip()
    return told


def exceptions():
    told = {}
    for line in read(f"{ROOT}/tools/documents/index-exceptions.txt").splitlines():
        if line.strip() and not line.startswith("#"):
            function, _, why = line.partition(": ")
            told[function.strip()] = why.strip()
    return told


def listed(names, most=3):
    names = list(dict.fromkeys(names))
    more = f" and {len(names) - most} more" if len(names) > most else ""
    return ", ".join(f"`{name}`" for name in names[:most]) + more


def bullet(text):
    """A line of a list, within the width."""
    how = {"subsequent_indent": "  ", "break_long_words": False, "break_on_hyphens": False}
    return "\n".join(textwrap.wrap(f"- {text}", 110, **how))


def is_of_code(module):
    """Whether a module of specs/ tells how the code keeps its values, and not what a contract says."""
    return module.startswith("code.")


def strays(crate):
    """What stands in a crate's specs/ where it should not: a use of a module of specs/code/ in another one,
    and a module that the crate's page does not name."""
    path = f"{ROOT}/docs/crates/{crate}.md"
    page = read(path) if os.path.exists(path) else ""
    for path in files(f"{ROOT}/crates/{crate}/specs", ".antt"):
        module = os.path.relpath(path, f"{ROOT}/crates/{crate}/specs")[:-5]
        if not module.startswith("code") and re.search(r"\.specs\.code\.", read(path)):
            yield f"{crate} {module}: it uses a module of specs/code/, which no contract speaks of"
        is_list = module == "Lib" or os.path.isdir(path[:-5])
        if not is_list and f"`{module.removeprefix('code/')}`" not in page:
            yield f"{crate} {module}: docs/crates/{crate}.md does not name it"


def make():
    """The page, and what is missing: the lines of --check."""
    headings, excused = standard(), exceptions()
    out, missing, seen_keys = [], [], set()
    say = out.append
    say("# From a clause to all that it rests on")
    say("")
    say(ABOUT)
    known = {crate: definitions(crate) for crate in crates()}
    for crate in crates():
        for word, lower in handed_on(crate):
            known[crate].setdefault(word, known[lower].get(word, ("", "")))
    for crate in crates():
        every, imports = [], {}
        folders = (f"{ROOT}/crates/{crate}/src", f"{ROOT}/crates/{crate}_tests/src",
                   *(f"{ROOT}/crates/{it}/src" for it in stands.HELPERS))
        for path in (path for folder in folders for path in files(folder, ".rt")):
            imports[path] = {}
            for below, module, group in GHOST.findall(read(path)):
                for entry in group.split(","):
                    name, _, renamed = entry.strip().partition(" as ")
                    if ".declared." not in f".{module}.":
                        imports[path][(renamed or name).strip()] = (below, name.strip())
            every += functions_of(crate, path)
        calls_of = functools.lru_cache(None)(calls.Names(crate, every).called)
        turned = defaultdict(list)
        for name, path, old in edits_of(crate):
            for function in turned_by(path, old, every):
                turned[id(function)].append(name)
        refusals = refusals_of(crate)
        runs = run_by((f for f in every if is_of_tests(f.path) and f.is_test), calls_of)
        given, opened, is_program = api(crate)
        public = []
        for function in every:
            inside = os.path.relpath(function.path, f"{ROOT}/crates/{crate}/src")
            module = inside.split("/")[0].removesuffix(".rt")
            is_given = (function.of or function.name) in given or module in opened
            is_code = function.public and not is_of_tests(function.path)
            function.is_given = is_code and (is_given or is_program)
            if function.is_given:
                public.append(function)
        say("")
        say(f"## {crate}")
        say("")
        say("Public functions:")
        say("")
        used = defaultdict(list)
        for function in public:
            names = [name for one in reached(function, calls_of) for name in turned[id(one)]]
            where = os.path.relpath(function.path, f"{ROOT}/crates/{crate}/src")
            shown = f"{function.of}::{function.name}" if function.of else function.name
            key = f"{crate} {shown}"
            seen_keys.add(key)
            is_law = function.is_law() or where in ("law.rt", "laws.rt") or crate == LAWS
            bodies = listed(names) or ("a law" if is_law else excused.get(key, ""))
            if not bodies:
                missing.append(f"{key} ({where}): no wrong body turns it")
            if names:
                bodies = f"turned by {bodies}"
            tests = listed(runs[id(function)])
            seen = refusals[f"{where.removesuffix('.rt').replace('/', '::')}::{shown}"]
            clauses = "".join(f"; {clause} refuses {listed(seen[clause])}" for clause in sorted(seen))
            say(bullet(f"`{shown}` (`{where}`): {bodies}{clauses}{'; run by ' + tests if tests else ''}"))
            for word in dict.fromkeys(WORD.findall(function.clauses())):
                if word in imports[function.path]:
                    used[imports[function.path][word]].append(shown)
        if used:
            say("")
            say("Words of their clauses:")
            say("")
        for (below, word), names in sorted(used.items()):
            module, told = known[below].get(word, ("", ""))
            heading = headings.get(f"{below} {module}", headings.get(below, ""))
            if not told:
                missing.append(f"{below} {word} ({module}): no comment above it")
            if is_of_code(module):
                missing.append(f"{below} {word} ({module}): a public clause of {crate} uses it")
            by = f", by {heading}" if heading else ""
            say(bullet(f"`{word}`, of `{below}` {module}{by}: promised by {listed(names)}"))
        missing += strays(crate)
    missing += [f"{it}: index-exceptions.txt tells of it, and it is not there" for it in excused if it not in seen_keys]
    return "\n".join(out) + "\n", missing
