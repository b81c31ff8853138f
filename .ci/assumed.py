"""What is assumed: by the libraries and the archive nothing, by a program the contracts of so many functions of the C
library. `rt` counts these on the last line of a program and of the archive, over all crates below. On a library's
it counts none, so of a library the code is looked at too."""
import re

# Of a program that is kept from an earlier run that line is not told. So the functions are also looked at that the
# built program may call: input and output and their errors, yielding, what compilers call by themselves, and what
# begins and ends a program.
PROGRAMS = {"meshprint": 5, "show_selection": 3, "show_triangles": 3, "show_heights": 3, "show_frames": 3}
CALLS = set("""read write lseek sched_yield __errno_location __xpg_strerror_r memcpy memmove memset memcmp
    __libc_start_main __gmon_start__ __cxa_finalize _ITM_deregisterTMCloneTable _ITM_registerTMCloneTable __sysv_signal __write __x86_get_cpuid_feature_leaf""".split())

# Of the standard library what only reckons; and what reaches the machine with no path, or a handle on it.
RECKONS = {"num"}
HANDLES = re.compile(r'\b(?:HostRuntime|Global|AllocGlobal|Allocator|Print|Eprint|Input)\b|\bextern "C" \{|\b(?:e?print(?:ln)?|format|vec)!')


def listed(text):
    """crates.txt: what each crate is made above."""
    lines = [line.split("#")[0].split(":") for line in text.splitlines()]
    return {parts[0].split()[0]: parts[1].split() for parts in lines if len(parts) == 2}


def statics(text):
    """The static libraries among these, which no crate can be made above."""
    return set(re.findall(r"^(\w+) staticlib:", text, re.M))


def listing_faults(crates, libraries):
    faults = [f"crates.txt: the library {name} is made above {d}, which is not of this repository"
              for name in crates if name in libraries for d in crates[name] if d not in crates]
    faults += [f"crates.txt: the library {name} is made above {d}, a program"
               for name in crates if name in libraries for d in crates[name] if d in crates and d not in libraries]
    return faults + [f"crates.txt does not list {name}" for name in sorted(libraries) if name not in crates]


def code_faults(name, code):
    """A library's code reaches nothing of the machine: no path into the standard library but to what reckons, no handle, no macro that prints or allocates."""
    code = re.sub(r"//[^\n]*|^ghost use [^;]*;", "", code, flags=re.M)
    paths = re.findall(r"\b(?:std|core|alloc)\s*::\s*(\w+|\{|\*)", code)
    return [f"{name}: a library names {p} of the standard library" for p in paths if p not in RECKONS] + [
        f"{name}: a library names {h}" for h in HANDLES.findall(code)]


def section(log, name):
    """What `rt ci` printed of one crate."""
    found = re.search(rf"^== {name}\n(.*?)(?=^== |^rt: {name} proved|\Z)", log, re.M | re.S)
    return found[1] if found else ""


def proof_faults(name, log):
    """Proved in this run, or kept from one that proved the same."""
    proved = re.search(rf"^rt: {name} (?:proved$|is kept: an earlier run on this machine proved the same files over the same libraries$)", log, re.M)
    return [] if proved else [f"{name}: not proved"]


def verdict_faults(name, log, count):
    """The last verdict of a log: proved, assuming so much."""
    verdicts = [line for line in log.splitlines() if line.startswith("logic=")]
    if not verdicts or not verdicts[-1].startswith("logic=proved "):
        return [f"{name}: not proved"]
    told = [int(n) for n in re.findall(r"axioms=(\d+)", log)]
    return [] if told == ([count] if count else []) else [f"{name}: it assumes {told or 'nothing'}, where {count} was settled"]


def call_faults(name, called):
    """The functions that a built program may call of the C library."""
    faults = [f"{name}: it may call {c}" for c in called if c not in CALLS]
    return faults if "write" in called else faults + [f"{name}: what it may call is not seen"]


def assumption_faults(crates, libraries, log, code_of):
    """`log` is what `rt ci` printed, `code_of` gives a crate's code."""
    faults = listing_faults(crates, libraries)
    for name in crates:
        faults += proof_faults(name, log)
        if name in libraries:
            faults += code_faults(name, code_of(name))
        elif name not in PROGRAMS:
            faults.append(f"{name}: what this program may assume is not settled")
        elif section(log, name):
            faults += verdict_faults(name, section(log, name), PROGRAMS[name])
    return faults + [f"{name}: crates.txt does not list this program" for name in PROGRAMS if name not in crates]
