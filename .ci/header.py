"""header.py HEADER FOLDER README [ARCHIVE]: include/klovdrun.h and the Rust crate whose sources are in FOLDER say what the exports of
crates/klovdrun_c and the structs that they answer say.

Reads the exports' signatures and the structs from the Rattle sources, writes what C and Rust must say of them, and compares: names, order,
types, sizes, constants, the version, the refusals of each call with their names and sentences, the numbers of formats and kinds, and the
functions that the archive has. The rule for "complete as announced" is word for word the same in the header, in README and in the crate; and
what it says of a recording that begins swapped is so in the help of both intakes.
Rests on the sources' own layout, which `rt fmt` keeps, and on the programs that the environment names as CC and NM.
"""
import os
import re
import subprocess
import sys

SCALARS = {"u8": ("uint8_t", 1), "u32": ("uint32_t", 4), "u64": ("uint64_t", 8), "usize": ("size_t", 8)}
RATTLE = "crates/klovdrun/src/lib.rt"
EXPORTS = "crates/klovdrun_c/src/lib.rt"
STRUCTS = {"Reader": "crates/reader/src/lib.rt", "Answer": "crates/numbers/src/lib.rt", "Tallied": "crates/numbers/src/lib.rt",
           "Entry": "crates/numbers/src/lib.rt", "Opened": RATTLE}
CONSTANTS = {"LIMIT": "blocks::LIMIT", "PACKET": "packets::PACKET", "FRAME": "frames::FRAME", "PAYLOAD": "blocks::PAYLOAD",
             "BLOCK": "blocks::BLOCK", "HOLD": "hold::HOLD", "QP_WORDS": "qp::ENTRY", "QP7_WORDS": "qp7::ENTRY",
             "INDEX_FRONT": "index::FRONT", "INDEX_ENTRY": "entries::ENTRY"}
IN_HEADER = ("LIMIT", "PACKET", "FRAME", "BLOCK", "PAYLOAD", "QP_WORDS", "QP7_WORDS", "INDEX_FRONT", "INDEX_ENTRY")
IN_RUST = ("LIMIT", "PACKET", "FRAME", "PAYLOAD", "BLOCK", "QP_WORDS", "QP7_WORDS", "INDEX_FRONT", "INDEX_ENTRY")
ENDS = ("STRICT", "LENIENT")  # the reader's ends, by which one is meant
BESIDE = {2: "LIMIT", 7: "HOLD", 17: "LIMIT"}  # refusals whose number beside is a constant
HELPS = {"host/c/intake.c": r'^static const char help\[\] =\n(.*?);\n\n',
         "host/examples/intake.rs": r'^const HELP: &str = "\\\n(.*?)^";$'}  # where the help of the intakes stands
LISTS = ("crates/klovdrun/specs/Refusals.antt", "crates/tally/specs/Tallies.antt")  # where the exports' lists of refusals are defined
wrong = []


def text(path):
    with open(path, encoding="utf-8") as file:
        return file.read()


def squeeze(words):
    return re.sub(r"\s+", " ", words).strip()


def say(where, expected, found):
    wrong.append(f"{where}: expected {expected}, found {found}")


def exports():
    """Each export as (name, [(parameter, type)], result)."""
    found = []
    pattern = r'#\[unsafe\(no_mangle\)\]\s+pub extern "C" fn (\w+)\((.*?)\) -> (\w+)\s'
    for name, inside, result in re.findall(pattern, text(EXPORTS), re.S):
        words = [word.split(":", 1) for word in squeeze(inside).rstrip(",").split(",") if word]
        found.append((name, [(one.strip(), other.strip()) for one, other in words], result))
    return found


def fields(name):
    inside = re.search(r"#\[repr\(C\)\]\s+(?:#\[derive\([^)]*\)\]\s+)?pub struct " + name + r" \{(.*?)\n\}", text(STRUCTS[name]), re.S).group(1)
    return re.findall(r"(?:pub )?(\w+): ([^,\n]+),", inside)


def layout(name):
    """The size and the alignment of a struct by C's rules, and each field's place."""
    at, most, places = 0, 1, []
    for field, kind in fields(name):
        size, align = measure(kind)
        at = -(-at // align) * align
        places.append((field, at))
        at, most = at + size, max(most, align)
    return -(-at // most) * most, most, places


def measure(kind):
    array = re.fullmatch(r"\[(\w+); (\w+)\]", kind)
    if array:
        size, align = measure(array.group(1))
        return size * int(array.group(2)), align
    if kind in SCALARS:
        return SCALARS[kind][1], SCALARS[kind][1]
    size, align, _ = layout(kind)
    return size, align


def c_type(kind):
    return SCALARS[kind][0] if kind in SCALARS else "klov_" + kind.lower()


def c_parameters(name, kind):
    part = re.fullmatch(r"&(mut )?\[(\w+)\]", kind)
    if part:
        const = "" if part.group(1) else "const "
        return [f"{const}{c_type(part.group(2))} *{name}", f"size_t {name}_len"]
    if kind.startswith("&mut "):
        return [f"{c_type(kind[5:])} *{name}"]
    return [f"{c_type(kind)} {name}"]


def rust_parameters(name, kind):
    part = re.fullmatch(r"&(mut )?\[(\w+)\]", kind)
    if part:
        return [f"{name}: {'*mut' if part.group(1) else '*const'} {part.group(2)}", f"{name}_len: usize"]
    if kind.startswith("&mut "):
        return [f"{name}: *mut {kind[5:]}"]
    return [f"{name}: {kind}"]


def refusals():
    """The numbers that each export refuses by, in order, as the definitions list them. The comment over a list names its exports."""
    found, pattern = {}, r"^(-- [^\n]*)\nabbrev pub (\w+)_refusals : List ℕ\n\2_refusals = ([\d ∷]*)\[\]$"
    for path in LISTS:
        for comment, name, numbers in re.findall(pattern, text(path), re.M):
            for export in re.findall(r"`(klov_\w+)`", comment) or [f"klov_{name}"]:
                found[export] = [int(number) for number in re.findall(r"\d+", numbers)]
    return found


def told(header, export):
    """The numbers that the header's comment over a declaration gives: those after the export's own name, if it is there, and else the first."""
    comment = re.findall(r"/\*((?:(?!\*/).)*)\*/(?:(?!/\*).)*?\b" + export + r"\(", header, re.S)[-1]
    found = re.search(r"[Rr]efusals?[\s*]+(\d[\d,\s*]*)", comment[max(comment.find(f"{export}:"), 0):])
    return [int(number) for number in re.findall(r"\d+", found.group(1))] if found else []


def compare(where, expected, found):
    for line in expected:
        if line not in found:
            say(where, line, "no such declaration")
    for line in found:
        if line not in expected:
            say(where, "no such declaration", line)
    if sorted(expected) == sorted(found) and expected != found:
        say(where, "this order: " + " ".join(map(str, expected)), "another")


def check_c(header):
    expected = []
    for name, parameters, result in exports():
        inside = ", ".join(word for one, kind in parameters for word in c_parameters(one, kind)) or "void"
        expected.append(f"KLOV_MUST_USE {c_type(result)} {name}({inside});")
    bare = re.sub(r"/\*.*?\*/|\bstatic inline .*?^}", "", header, flags=re.S | re.M)
    compare("header", expected, [squeeze(line) for line in re.findall(r"^\w[\w *]*\bklov_\w+\([^;]*\);", bare, re.M)])
    for name in ("Answer", "Tallied", "Entry", "Opened"):
        expected = [f"{c_type(kind)} {field};" for field, kind in fields(name)]
        inside = re.search(r"typedef struct \{([^}]*)\} klov_" + name.lower() + ";", bare).group(1)
        compare("klov_" + name.lower(), expected, [squeeze(line) for line in inside.strip().splitlines()])
    size, align, _ = layout("Reader")
    check_constant(header, r"#define KLOV_VERSION (\w+)u", version())
    check_constant(header, r"#define KLOV_DS2_START (\w+)u", ds2_start())
    for name in ENDS:
        check_constant(header, rf"#define KLOV_{name} (\w+)u", end_choice(name))
    check_constant(header, r"#define KLOV_READER_SIZE (\w+)u", size)
    check_constant(header, r"#define KLOV_READER_ALIGN (\w+)u", align)
    for name in IN_HEADER:
        check_constant(header, rf"#define KLOV_{name} (\w+)u", constant(name))
    if layout("Opened")[2][1] != ("reader", layout("Answer")[0]):
        say("klov_opened", "the reader right after the answer", layout("Opened")[2])
    for export, _, _ in exports():
        if told(header, export) != refusals().get(export, []):
            say(f"header, {export}", f"refusals {refusals().get(export, [])}", told(header, export))
    for number in known():
        line = re.search(rf"^ \* +{number}  \S.*$", header, re.M)
        if not line:
            say("header", f"a line for refusal {number}", "none")
        elif number in BESIDE and not line.group(0).endswith(f" {constant(BESIDE[number])}"):
            say("header", f"refusal {number} with {constant(BESIDE[number])}", line.group(0))


def known():
    """The numbers of all refusals."""
    return sorted(set(sum(refusals().values(), [])))


def constant(name):
    crate, here = CONSTANTS[name].split("::")
    found = re.search(rf"pub const {here}: usize = (\w+);", text(f"crates/{crate}/src/lib.rt"))
    return int(found.group(1).replace("_", ""), 0)


def check_constant(source, pattern, value):
    found = re.search(f"^{pattern}$", source, re.M)
    if not found or int(found.group(1).replace("_", "")) != value:
        say(pattern, value, found and found.group(1))


def check_rust(source, root):
    check_constant(source, r"const READER_SIZE: usize = (\w+);", layout("Reader")[0])
    check_constant(source, r"pub\(crate\) const VERSION: u64 = (\w+);", version())
    for name in ENDS:
        check_constant(source, rf"pub\(crate\) const {name}: u64 = (\w+);", end_choice(name))
    check_constant(root, r"pub const DS2_START: FilePlace = FilePlace\((\w+)\);", ds2_start())
    for name in IN_RUST:
        check_constant(root, rf"pub const {name}: usize = (\w+);", constant(name))
    expected = []
    for name, parameters, result in exports():
        inside = ", ".join(word for one, kind in parameters for word in rust_parameters(one, kind))
        expected.append(f"fn {name}({inside}) -> {result};")
    outside = re.search(r'extern "C" \{(.*?)\n\}', source, re.S).group(1)
    found = [squeeze(line).replace("( ", "(").replace(", )", ")") for line in re.findall(r"fn klov_\w+\(.*?;", outside, re.S)]
    compare("Rust", expected, found)
    for name in ("Answer", "Tallied", "Entry", "Opened"):
        inside = re.search(r"#\[repr\(C\)\]\n(?:#\[.*\]\n)?(?:pub\(crate\) )?struct " + name + r" \{(.*?)\n\}", source, re.S).group(1)
        compare("Rust " + name, fields(name), re.findall(r"(\w+): (\w+),", inside))


def version():
    return number_of(text(RATTLE), r"const VERSION: u64 = (\w+);")


def end_choice(name):
    return number_of(text("crates/reader/src/lib.rt"), rf"pub const {name}: u64 = (\w+);")


def ds2_start():
    return number_of(text("crates/detect/src/ds2.rt"), r"const DS2_HEADER_SIZE: usize = (\w+);")


def number_of(source, pattern):
    return int(re.search(f"^{pattern}$", source, re.M).group(1).replace("_", ""), 0)


def check_names(header, source):
    """The header's enums have the numbers of the definitions, and the Rust crate has a name and a sentence for each refusal, and for no other:
    the header's own, with the numbers in their places."""
    named = {name: int(number) for name, number in re.findall(r"\bKLOV_REFUSED_(\w+) = (\d+)", header)}
    compare("enum of refusals", known(), sorted(named.values()))
    compare("Rust names", sorted(named.items()), sorted((name, int(number)) for name, number in re.findall(r"pub const (\w+): u64 = (\d+);", source)))
    sentence = r'case KLOV_REFUSED_(\w+):\s+return snprintf\(text, room, "(.*)"((?:, \w+)*)\);'
    texts = {name: line.replace("%llu", "{{{}}}").format(*re.findall(r"\w+", given)) for name, line, given in re.findall(sentence, header)}
    said = dict(re.findall(r'Refusal::(\w+) => write!\(to, "(.*)"\),', source))
    compare("Rust texts", [(name, texts.get(name, "")) for name in named], list(said.items()))
    numbers = text("crates/numbers/specs/Numbers.antt")
    for function, before in (("format_number", "KLOV_FORMAT_"), ("kind_number", "KLOV_")):
        cases = re.findall(rf"^{function} (?:kinds\.)?(\w+) = (\d+)$", numbers, re.M)
        if not cases:
            say("Numbers.antt", f"the cases of {function}", "none")
        for name, number in cases:
            c_name = before + re.sub(r"(?<=[a-z\d])(?=[A-Z])", "_", name).upper()
            if not re.search(rf"\b{c_name} = {number}\b", header):
                say("header", f"{c_name} = {number}", "none")


def check_rule(header, rule, readme):
    """The rule stands in the header and in README as the Rust crate has it, but for the ends of lines."""
    for where, source in (("header", re.sub(r"^ \*", "", header, flags=re.M)), ("README", re.sub(r"^> ?", "", readme, flags=re.M))):
        for part in rule.split("\n\n"):
            if squeeze(part) not in squeeze(source):
                say(where, "the rule for complete as announced, word for word", f"not so: {squeeze(part)[:60]}..")


def check_help(rule):
    """The rule's part on recordings that begin swapped stands in the help of both intakes, but for the ends of lines and C's quotes."""
    part = next((squeeze(part) for part in rule.split("\n\n") if part.startswith("A recording with packets that begins swapped ")), None)
    if part is None:
        say("rule", "a part on recordings that begin swapped", "none")
        return
    for path, pattern in HELPS.items():
        found = re.search(pattern, text(path), re.S | re.M)
        if not found or part not in squeeze(re.sub(r'\\n|"', " ", found.group(1))):
            say(f"{path}, help", "what the rule says of recordings that begin swapped, word for word", found and f"not so: {part[:60]}..")


def check_archive(archive):
    listed = subprocess.run([os.environ.get("NM", "nm"), archive], capture_output=True, text=True, check=True).stdout
    compare("archive", sorted(name for name, _, _ in exports()), sorted(re.findall(r" T (klov_\w+)$", listed, re.M)))


def check_compiled(path):
    """What a C compiler makes of the header: no warning, the structs' sizes and the reader's alignment. Any machine's compiler will do."""
    lines = [f'#include "{path}"']
    for name in ("Answer", "Tallied", "Entry", "Opened"):
        lines.append(f'_Static_assert(sizeof(klov_{name.lower()}) == {layout(name)[0]}, "size");')
    size, align, _ = layout("Reader")
    lines.append(f'_Static_assert(sizeof(klov_reader) == {size} && _Alignof(klov_reader) == {align}, "reader");')
    lines.append(f'_Static_assert(offsetof(klov_opened, reader) == {layout("Answer")[0]}, "opened");')
    command = [os.environ.get("CC", "cc"), "-std=c11", "-Wall", "-Wextra", "-Wformat=2", "-Werror", "-I.", "-fsyntax-only", "-xc", "-"]
    done = subprocess.run(command, input="\n".join(lines), capture_output=True, text=True)
    if done.returncode:
        say("compiled header", "its sizes", done.stderr.strip())


def check_used(path):
    """A compiler warns of every call whose answer is not used."""
    lines = [f'#include "{path}"']
    for name, parameters, _ in exports():
        given = [word for one, kind in parameters for word in c_parameters(one, kind)]
        arguments = ", ".join(re.search(r"\w+$", word).group(0) for word in given)
        lines.append(f"void ignore_{name}({', '.join(given) or 'void'}) {{ {name}({arguments}); }}")
    command = [os.environ.get("CC", "cc"), "-std=c11", "-Wall", "-I.", "-S", "-o", os.devnull, "-xc", "-"]
    told = subprocess.run(command, input="\n".join(lines), capture_output=True, text=True).stderr
    compare("answers that are not used", sorted(name for name, _, _ in exports()), sorted(re.findall(r"ignoring return value of .(\w+)", told)))


def check_quote(readme, source):
    """What host/README.md has for a decoder stands in the error module with which one is compiled."""
    quote = re.search(r"^    impl From<.*?^    }$", readme, re.S | re.M)
    if not quote or re.sub(r"^    ", "", quote.group(0), flags=re.M) not in source:
        say("host/README.md", "the conversion of compare/decoder/error.rs", quote and quote.group(0))


def main():
    header, folder, readme = sys.argv[1:4]
    check_c(text(header))
    check_rust(text(folder + "/raw.rs"), text(folder + "/lib.rs"))
    check_names(text(header), text(folder + "/error.rs"))
    check_rule(text(header), text(folder + "/complete.md"), text(readme))
    check_help(text(folder + "/complete.md"))
    check_compiled(header)
    check_used(header)
    check_quote(text("host/README.md"), text("compare/decoder/error.rs"))
    if len(sys.argv) > 4:
        check_archive(sys.argv[4])
    for line in wrong:
        print("header:", line)
    if not wrong:
        print(f"header: {len(exports())} exports of version {version()}, the header, the Rust declarations, the sizes and the rule agree")
    sys.exit(1 if wrong else 0)


main()
