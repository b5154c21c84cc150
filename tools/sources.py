"""What all tools share: the crates in their order, their files, and their functions.

A function is named as the prover names it, by the module and the type that it belongs to.
"""
import os
import re

ROOT = os.path.dirname(os.path.dirname(os.path.abspath(__file__)))

FUNCTION = re.compile(r"^(\s*)(pub(?:\([a-z]+\))? )?(?:const )?fn (\w+)")
TYPE = re.compile(r"^(?:pub(?:\([a-z]+\))? )?(?:struct|enum|trait|type) (\w+)", re.M)
IMPL = re.compile(r"(?:unsafe )?impl\b")


def shows_usage(page, words, known):
    """Prints what a script says of itself, where it is asked for that, or was given a word that is none of those it knows
    and no crate. Whether it did."""
    strange = [it for it in words if it not in known and not (it[:1].isalpha() and os.path.isdir(f"{ROOT}/crates/{it}"))]
    if strange:
        print(page.strip())
    return bool(strange)


def read(path):
    with open(path, encoding="utf-8") as file:
        return file.read()


def write(path, text):
    os.makedirs(os.path.dirname(path), exist_ok=True)
    with open(path, "w", encoding="utf-8") as file:
        file.write(text)


def rows(top=ROOT):
    """Each crate's line of crates.txt, by its name, in the order of that file."""
    lines = [line for line in read(f"{top}/crates.txt").splitlines() if line.strip() and not line.startswith("#")]
    return {line.split(":")[0].split()[0]: line for line in lines}


def uses(top=ROOT):
    """The crates of the repository that each crate uses, from below."""
    lines = rows(top)
    return {name: [it for it in line.partition(":")[2].split() if it in lines] for name, line in lines.items()}


def crates():
    """The crates without those of tests, in their order."""
    return [it for it in rows() if not it.endswith("_tests")]


def with_wrong_bodies():
    return [it for it in crates() if os.path.isdir(f"{ROOT}/crates/{it}/wrong")]


def below(crate, used):
    """The crates that a crate stands on, with those that these stand on."""
    return {it for dep in used[crate] for it in (dep, *below(dep, used))}


def files(folder, suffix):
    """The files below a folder whose names end so, in order; what the prover made is left out."""
    for place, folders, names in os.walk(folder):
        folders[:] = sorted(it for it in folders if it != "out")
        for name in sorted(names):
            if name.endswith(suffix):
                yield os.path.join(place, name)


def stat_of(process):
    """The fields after a process's name, as the system has them: its state is the first."""
    return read(f"/proc/{process}/stat").rpartition(")")[2].split()


def without_arguments(text):
    """A type or a trait without what stands in angle brackets."""
    depth, kept = 0, []
    for at, sign in enumerate(text):
        if sign == "<":
            depth += 1
        elif sign == ">" and text[at - 1] != "-":
            depth -= 1
        elif depth == 0:
            kept.append(sign)
    return "".join(kept)


def last_word(text):
    """The name that a path ends with: `fmt::Debug` is `Debug`, `&mut W` is `W`."""
    words = re.findall(r"\w+", without_arguments(text))
    return words[-1] if words else ""


def parts_of_impl(line):
    """The trait, or nothing, and the type of an `impl` line."""
    head = line.split(" where")[0].rstrip(" {").removeprefix("unsafe ").removeprefix("impl")
    given = re.search(r"\bFrom<(.*)> for ", head)
    of_trait, is_trait, of_type = without_arguments(head).rpartition(" for ")
    if given:
        # from whatever is of a bound, as in `impl<E: Into<NoMemory>> From<E> for Fault`, it is `From` alone
        is_any = head.startswith(f"<{given[1]}: ")
        return "From" if is_any else f"From{last_word(given[1])}", last_word(of_type)
    # an impl on a type at a built-in type: `Seq<u8, A>` is `Seq+u8+A`
    made = re.search(r"\b([A-Z]\w*)<([^<>]*)>\s*$", head)
    if not is_trait and made and re.search(r"\b(u\d+|i\d+|bool|char)\b", made[2]):
        return "", "+".join([made[1], *re.findall(r"\w+", made[2])])
    return (last_word(of_trait) + named_arguments(head) if is_trait else ""), last_word(of_type)


def named_arguments(head):
    """What the prover adds to the name of a trait that an `impl` line has at types of its own: those of
    `impl<A> Visit<(), A> for Row<A>` are `Unit`, of `Visit<Reader<&File>, A>` `ReaderRefFile`, of `Visit<u8, A>` `U8`."""
    behind = without_front(head)
    given = re.findall(r"(?:^<|, )(?:const )?(\w+)", head.removesuffix(behind))
    of_trait = re.match(r"\s*[\w:]+<(.*)> for ", behind)
    if not of_trait:
        return ""
    words = re.findall(r"'\w+|\(\)|&|\w+", of_trait[1])
    named = {"()": "Unit", "&": "Ref"}
    words = [it for it in words if it not in (*given, "mut") and not it.startswith("'")]
    return "".join(named.get(it, it[0].upper() + it[1:]) for it in words)


def without_front(head):
    """An `impl` line behind its parameters."""
    if not head.startswith("<"):
        return head
    depth = 0
    for at, sign in enumerate(head):
        depth += (sign == "<") - (sign == ">" and head[at - 1] != "-")
        if depth == 0:
            return head[at + 1:]
    return ""


class Function:
    """A function of a file: its name, its type and trait, and where it stands in the text."""

    def __init__(self, path, name, public, of, of_trait, module, start, begin, end):
        self.path, self.name, self.public, self.of, self.of_trait = path, name, public, of, of_trait
        self.module, self.start, self.begin, self.end = module, start, begin, end
        self.is_test = False

    def full_name(self, homes):
        """Its name as the prover has it, below the crate. A function of a type stands where the type does, one of
        a trait's impl where the impl does."""
        if not self.of:
            return "::".join([*self.module, self.name])
        if self.of_trait:
            return "::".join([*self.module, f"{self.of}{self.of_trait}", self.name])
        return "::".join([*homes.get(self.of.partition("+")[0], self.module), self.of, self.name])


def module_of(path, folder):
    """The module that a file holds, as a list of names."""
    inside = os.path.relpath(path, folder).removesuffix(".rt").removesuffix(".rs").split("/")
    if inside[-1] in ("lib", "main", "mod"):
        inside.pop()
    return inside


def opened(line):
    """How many brackets a line opens that it does not close; what stands in a comment is no bracket."""
    code = re.sub(r"b?'(?:\\.|[^'\\])'|//.*", "", line)
    return sum(it in "([{" for it in code) - sum(it in ")]}" for it in code)


def functions_of(path, folder):
    """The functions of a file, in their order, and those inside of traits with a body."""
    text = read(path)
    lines = text.split("\n")
    offsets, place = [], 0
    for line in lines:
        offsets.append(place)
        place += len(line) + 1
    number, of, of_trait = 0, "", ""
    while number < len(lines):
        line = lines[number]
        if IMPL.match(line):
            head = line
            while not head.rstrip().endswith(("{", "}")) and number + 1 < len(lines):
                number += 1
                head += f" {lines[number].strip()}"
            of_trait, of = parts_of_impl(head)
            # an impl on a type parameter is named by its trait alone
        elif line.startswith("}"):
            of, of_trait = "", ""
        found = FUNCTION.match(line)
        if not found:
            number += 1
            continue
        indent, first = found.group(1), number
        # the body begins with the first line that ends with a brace at the signature's own depth
        begin, depth = first, 0
        ends = re.compile(rf"^{indent}(\{{.*|.*[^=] \{{|.*\{{\}}|.*;)$")
        while begin < len(lines):
            line = lines[begin]
            if ends.match(line) and depth + opened(line.removesuffix("{")) == 0:
                break
            depth += opened(line)
            begin += 1
        end = begin
        if begin < len(lines) and not lines[begin].rstrip().endswith(("{}", "}", ";")):
            while end + 1 < len(lines) and lines[end + 1] != f"{indent}}}":
                end += 1
            end += 1
        stop = offsets[end + 1] if end + 1 < len(lines) else len(text)
        public = (found.group(2) or "").strip() == "pub"
        inner = (of, of_trait) if indent else ("", "")
        function = Function(path, found.group(3), public, *inner, module_of(path, folder), offsets[first],
                            offsets[min(begin, len(lines) - 1)], stop)
        function.is_test = any("#[test]" in it for it in lines[max(0, first - 3):first])
        yield function
        number = end + 1


def homes_of(folder):
    """The module in which each type of a crate is defined."""
    found = {}
    for path in files(folder, ".rt"):
        for name in TYPE.findall(read(path)):
            found.setdefault(name, module_of(path, folder))
    return found


def functions(folder):
    """Every function below a crate's src/, by its full name; tests and what belongs to them are left out."""
    homes, found = homes_of(folder), {}
    for path in files(folder, ".rt"):
        if "/tests" in path.removeprefix(folder):
            continue
        for function in functions_of(path, folder):
            found[function.full_name(homes)] = function
    return found
