"""include/mosskirtle.h beside the code. Proofs see arguments and fields by name; C sees them by their order, a slice as a pointer and its length, and a
buffer that is only read as const. With a file's path, prints for the probe of host/probe one C function a call, which calls by that header's own names."""
import pathlib
import re
import sys

NUMBERS = {"u32": "uint32_t", "u16": "uint16_t", "u8": "uint8_t", "i16": "int16_t", "f32": "float"}
# All else that starts with # could hide a declaration, or make it another one.
DIRECTIVES = re.compile(r"#(?:ifndef MOSSKIRTLE_H|define MOSSKIRTLE_H|include <std(?:def|int)\.h>|ifdef __cplusplus|endif|define MOSSKIRTLE_VOID \(-32768\))")


def in_c(name, kind):
    """One argument of the code as C has it: pairs of a type and a name."""
    slice_of = re.fullmatch(r"&(mut )?\[(\w+)\]", kind)
    if not slice_of:
        return [(NUMBERS[kind], name)]
    return [(f"{'' if slice_of[1] else 'const '}{NUMBERS[slice_of[2]]} *", name), ("size_t", f"{name}_len")]


def fields_of(struct, code):
    """The numbers of a struct in their order, those of a struct within it among them."""
    bodies = re.findall(rf"#\[repr\(C\)\]\n(?:#\[derive\([\w, ]*\)\]\n)?pub struct {struct} \{{(.*?)\}}", code, re.S)
    if len(bodies) != 1:
        raise ValueError(f"{len(bodies)} structs of C are named {struct}")
    fields = re.findall(r"pub (\w+): (\w+)", bodies[0])
    return [f for name, kind in fields for f in ([(NUMBERS[kind], name)] if kind in NUMBERS else fields_of(kind, code))]


def exported(exports, code):
    """The calls that a static library exports: what each takes, and the fields of what it answers, a struct of the code."""
    calls = {}
    for name, taken, answer in re.findall(r'#\[unsafe\(no_mangle\)\]\npub extern "C" fn (\w+)\((.*?)\) -> (\w+)', exports, re.S):
        arguments = [part.strip().split(": ", 1) for part in taken.split(",") if part.strip()]
        calls[name] = ([c for a in arguments for c in in_c(*a)], fields_of(answer, code))
    if len(calls) != len(re.findall(r"no_mangle", exports)):
        raise ValueError("not every exported call could be read")
    return calls


def pairs(text):
    """`const int16_t *survey, size_t survey_len` as pairs of a type and a name."""
    read = [re.fullmatch(r"((?:const )?\w+ ?\*?) ?(\w+)", " ".join(part.split())) for part in text.split(",")]
    if None in read:
        raise ValueError(" ".join(text.split()))
    return [(re.sub(r" ?\*", " *", p[1]).strip(), p[2]) for p in read]


def statements(header):
    """What the header says without its comments and directives, statement by statement."""
    text = re.sub(r"/\*.*?\*/|//[^\n]*", " ", header, flags=re.S)
    strange = [l for l in re.findall(r"^[ \t]*#.*$", text, re.M) if not DIRECTIVES.fullmatch(l.strip())]
    if strange:
        raise ValueError(f"a directive that is not known: {strange[0].strip()}")
    bare = re.sub(r"^[ \t]*#.*$", "", text, flags=re.M)
    bare = re.sub(r'extern "C" \{(.*)\}\s*$', r"\1", bare, flags=re.S)
    return [s.strip() for s in re.split(r";(?![^{]*\})", bare) if s.strip()]


def declared(header):
    """The calls that the header declares, by name: what each takes, and what it answers; then its structs."""
    calls, structs = [], {}
    for statement in statements(header):
        struct = re.fullmatch(r"typedef struct \{(.*)\} (\w+)", statement, re.S)
        call = re.fullmatch(r"(\w+) (\w+)\(([^()]*)\)", statement, re.S)
        if struct and struct[2] not in structs:
            members = [m.strip().split(" ", 1) for m in struct[1].split(";") if m.strip()]
            structs[struct[2]] = [(kind, name.strip()) for kind, names in members for name in names.split(",")]
        elif call:
            calls.append((call[2], pairs(call[3]), call[1]))
        elif not re.fullmatch(r"enum \{[^{}]*\}", statement):
            raise ValueError(" ".join(statement.split())[:100])
    return calls, structs


def header_faults(header, exports, code):
    try:
        calls, structs = declared(header)
        wanted = exported(exports, code)
    except (KeyError, ValueError) as what:
        return [f"not understood: {what}"]
    faults = [] if 'extern "C" {\n#endif' in header and '\n#ifdef __cplusplus\n}\n#endif' in header else ['C++ is not told that these are calls of C']
    faults += [f"{l.strip()}: a declaration begins its line" for l in re.findall(r"^[ \t]+\w+ mosskirtle_\w+\(.*$", header, re.M)]
    names = [name for name, _, _ in calls]
    faults += [f"{name} is declared {names.count(name)} times, and exported once" for name in wanted if names.count(name) != 1]
    faults += [f"{name} is declared, and not exported" for name in names if name not in wanted]
    for name, taken, answer in calls:
        if name in wanted and taken != wanted[name][0]:
            faults.append(f"{name} takes other arguments than the code")
        if name in wanted and structs.get(answer) != wanted[name][1]:
            faults.append(f"{name} answers other fields than the code")
    return faults


def probe_calls(header):
    """Each argument is a local of the header's type and name, set from what the probe lends under that name."""
    text = []
    for name, taken, answer in declared(header)[0]:
        lines = [f"    {kind}{'' if kind.endswith('*') else ' '}{argument} = lent.{argument};" for kind, argument in taken]
        lines.append(f"    return {name}({', '.join(argument for _, argument in taken)});")
        text.append("\n".join([f"static {answer} by_name_{name}(void)", "{", *lines, "}\n"]))
    return "\n".join(text)


def code_of(crates):
    return "\n".join(p.read_text() for c in crates for p in sorted(pathlib.Path(f"crates/{c}/src").glob("**/*.rt")))


if __name__ == "__main__":
    print(probe_calls(pathlib.Path(sys.argv[1]).read_text()))
