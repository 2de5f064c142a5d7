#!/usr/bin/env python3
"""Measures the Rattle calls beside the plain C ones: bench.py [ratios] [linear] [stack] [--processes N], or bench.py profile CALL ROW.

Without words it prints all tables (as Markdown). `profile read 3` prints the functions of both programs for row 3 of the first table, dearest first; a CALL
is read, write (with CR LF), write_cr (with CR alone) or ask.
bench/README.md says what is needed."""
import datetime, glob, os, platform, shutil, signal, statistics, subprocess, sys

sys.dont_write_bytecode = True
import files

HERE = os.path.dirname(os.path.abspath(__file__))
ROOT = os.path.dirname(HERE)
WORK = os.path.join(ROOT, "target", "bench")
DRIVER = os.path.join(WORK, "driver")
PLUGIN = os.path.join(WORK, "count.so")
ARCHIVE = os.path.join(ROOT, "target", "staticlib", "libface.a")
# the driver's words for the calls, and those of the tables
CALLS = {"read": "read", "write": "write", "write_cr": "write, CR alone", "ask": "ask"}
# what rt itself says to clang
FLAGS = ["--target=x86_64-unknown-linux-gnu", "-march=x86-64-v2", "-O3", "-ffunction-sections", "-fdata-sections", "-fPIC", "--no-default-config"]
# The C library clears and copies by what the processor at hand offers. Counts are taken with what every x86-64 has, so that they are the same everywhere
# (and `rep stosb` would count once a byte).
BASELINE = {"GLIBC_TUNABLES": "glibc.cpu.hwcaps=-ERMS,-FSRM,-AVX2,-AVX512VL,-AVX512BW,-AVX512F"}


def fail(words):
    sys.exit(f"bench: {words}")


def run(words, **more):
    done = subprocess.run(words, stdout=subprocess.PIPE, stderr=subprocess.PIPE, text=True, **more)
    if done.returncode != 0:
        fail(f"{' '.join(words)}\n{done.stdout}{done.stderr}")
    return done.stdout


def kit():
    rt = shutil.which("rt") or fail("rt is not on the path")
    home = os.environ.get("RATTLE_HOME") or os.path.dirname(os.path.dirname(os.path.realpath(rt)))
    return os.path.join(home, "toolchain")


def build():
    """The archive, as rt makes it, and the driver over it and the plain program."""
    tools = kit()
    libraries = os.path.join(tools, "lib")
    os.makedirs(WORK, exist_ok=True)
    run([os.path.join(ROOT, "tools", "link-c")])
    objects = []
    for name in ("plain", "driver"):
        objects.append(os.path.join(WORK, f"{name}.o"))
        run([f"{tools}/bin/clang", *FLAGS, "-std=c11", "-Wall", "-Wextra", "-DPENUMBRICO_NO_HEADERS", f"-I{ROOT}/include",
             "-c", f"{HERE}/{name}.c", "-o", objects[-1]])
    if counter() is by_emulator:
        run(["cc", "-std=c11", "-Wall", "-Wextra", "-O2", "-fPIC", "-shared", "-o", PLUGIN, f"{HERE}/count.c"])
    first = [f"{libraries}/{name}" for name in ("Scrt1.o", "crti.o", "crtbeginS.o")]
    last = [f"{libraries}/{name}" for name in ("libc.so.6", "libc_nonshared.a", "libgcc.a", "libgcc_s.so.1", "crtendS.o", "crtn.o")]
    run([f"{tools}/bin/ld.lld", "-pie", "--gc-sections", "-z", "now", "-dynamic-linker", f"{libraries}/ld-linux-x86-64.so.2", "-rpath", libraries,
         *first, *objects, ARCHIVE, *last, "-o", DRIVER])


def kept(name, data):
    path = os.path.join(WORK, name)
    with open(path, "wb") as file:
        file.write(data)
    return path


def kept_pair(name, data, lent):
    """The driver's arguments."""
    return [kept(f"{name}.trf", data)] + ([kept(f"{name}.lent.trf", lent)] if lent else [])


def figures(words, number=float):
    """The driver's lines: call, maker, figure."""
    return {tuple(line.split()[:2]): number(line.split()[2]) for line in words.splitlines()}


def by_valgrind(arguments):
    """The functions of each call with their instructions, as callgrind tells them."""
    for old in glob.glob(os.path.join(WORK, "profile*")):
        os.remove(old)
    run(["valgrind", "--tool=callgrind", "--toggle-collect=measured", "--dump-after=measured", f"--callgrind-out-file={WORK}/profile", DRIVER, "count", *arguments],
        env={**os.environ, **BASELINE})
    made = []
    for dump in sorted(glob.glob(os.path.join(WORK, "profile.*")), key=lambda name: int(name.rsplit(".", 1)[1])):
        told = run(["callgrind_annotate", "--threshold=100", "--auto=no", dump]).splitlines()
        pairs = [line.split("%)", 1) for line in told if "%)" in line and "PROGRAM TOTALS" not in line]
        functions = [(int(front.split()[0].replace(",", "")), function.strip()) for front, function in pairs]
        with open(dump) as lines:
            total = next(int(line.split()[1]) for line in lines if line.startswith(("summary:", "totals:")))
        made.append(functions + [(total - sum(count for count, _ in functions), "(others)")])
    return made


def by_emulator(arguments):
    """The same, as our plugin tells it to an emulator."""
    told = os.path.join(WORK, "profile.txt")
    run(["qemu-x86_64", "-cpu", "qemu64", "-plugin", f"{PLUGIN},out={told}", DRIVER, "count", *arguments])
    with open(told) as file:
        blocks = [block.splitlines() for block in file.read().split("\n\n") if block]
    return [sorted(((int(line.split(" ", 1)[0]), line.split(" ", 1)[1]) for line in block), reverse=True) for block in blocks]


def counter():
    """How instructions are counted here, or None."""
    if shutil.which("valgrind"):
        return by_valgrind
    return by_emulator if shutil.which("qemu-x86_64") and shutil.which("cc") else None


def counts(arguments):
    """Instructions by call and maker."""
    made = [sum(count for count, _ in functions) for functions in counter()(arguments)]
    if len(made) not in (2, 2 * len(CALLS)):
        fail(f"{len(made)} calls were counted")
    return {(call, maker): [made[2 * i + j]] for i, call in enumerate(list(CALLS)[:len(made) // 2]) for j, maker in enumerate(("ours", "plain"))}


def pinned():
    cpu = max(os.sched_getaffinity(0))
    return ["taskset", "-c", str(cpu)]


def driven(word, arguments):
    """Whole numbers by call and maker, which no other process changes."""
    return figures(run([DRIVER, word, *arguments]), int)


def times(arguments, processes):
    """Nanoseconds by call and maker, one of each process, which is its own median."""
    each = [figures(run([*pinned(), DRIVER, "time", *arguments])) for _ in range(processes)]
    return {key: [one[key] for one in each] for key in each[0]}


def table(head, rows):
    print("| " + " | ".join(head) + " |")
    print("|---|" + "---:|" * (len(head) - 1))
    for row in rows:
        print("| " + " | ".join(row) + " |")
    print()


def ratio(measured, call):
    """The median of ours / plain, each pair of one process."""
    if (call, "ours") not in measured:
        return "-"
    return f"{statistics.median(ours / plain for ours, plain in zip(measured[call, 'ours'], measured[call, 'plain'])):.2f}"


def ratios(processes):
    short, long = [], []
    for i, (name, data, lent) in enumerate(files.measured(), 1):
        arguments = kept_pair(f"row{i}", data, lent)
        count = counts(arguments) if counter() else {}
        time = times(arguments, processes)
        size = driven("bytes", arguments)
        short.append([f"{i}. {name}"] + [cell for call in CALLS for cell in (ratio(count, call), ratio(time, call))])
        for call, words in CALLS.items():
            if (call, "ours") in time:
                ours, plain = ((f"{count[call, maker][0]:,}" if count else "-", f"{statistics.median(time[call, maker]) / 1e3:,.1f}") for maker in ("ours", "plain"))
                bytes_moved = f"{size[call, 'ours']:,}" if (call, "ours") in size else "-"
                long.append([f"{i}. {words}", bytes_moved, ours[0], plain[0], ours[1], plain[1]])
    print(f"Ours / plain C on {datetime.date.today()}, {platform.machine()}; times are medians over {processes} pinned processes.\n")
    table(["file"] + [f"{words}, {what}" for words in CALLS.values() for what in ("instructions", "time")], short)
    table(["row, call", "bytes read or written", "instructions, ours", "plain", "microseconds, ours", "plain"], long)


def linear():
    if not counter():
        print("No instructions are counted here: bench/README.md says what that needs.\n")
        return
    for what, series in files.growing():
        rows, before = [], None
        for size, data in series:
            count = counts(kept_pair(f"{what}{size}", data, None))
            row = [f"{size} {what}s", f"{len(data):,}"]
            for call in CALLS:
                now = count[call, "ours"][0]
                row += [f"{now:,}", f"{(now - before[1][call, 'ours'][0]) / (size - before[0]):,.0f}" if before else ""]
            rows.append(row)
            before = size, count
        print(f"Ours, as the number of {what}s grows: instructions, and how many each further {what} costs.\n")
        table(["file", "bytes"] + [head for words in CALLS.values() for head in (words, f"a {what} more")], rows)


def stack():
    deepest = {}
    for i, (_, data, lent) in enumerate(files.measured(), 1):
        for key, depth in driven("stack", kept_pair(f"row{i}", data, lent)).items():
            deepest[key] = max(deepest.get(key, 0), depth)
    print("The deepest stack in bytes, over all rows, with the arguments and the return address of the call.\n")
    table(["call", "ours", "plain C"], [[words] + [f"{deepest[call, maker]:,}" for maker in ("ours", "plain")] for call, words in CALLS.items()])


def profile(call, row):
    if not counter():
        fail("no instructions are counted here: bench/README.md says what that needs")
    _, data, lent = files.measured()[int(row) - 1]
    made = counter()(kept_pair(f"row{row}", data, lent))
    at = 2 * list(CALLS).index(call)
    if len(made) <= at:
        fail(f"row {row} is refused: there is no reading to {'ask' if call == 'ask' else 'write'}")
    for j, maker in enumerate(("ours", "plain")):
        functions = made[at + j]
        print(f"{CALLS[call]}, {maker}: {sum(count for count, _ in functions):,}")
        print("".join(f"{count:12,}  {function}\n" for count, function in functions if count))


def main(words):
    if words in (["-h"], ["--help"]):
        return print(__doc__)
    processes = 9
    if "--processes" in words:
        at = words.index("--processes")
        if not "".join(words[at + 1:at + 2]).isdigit() or int(words[at + 1]) == 0:
            fail(__doc__)
        processes = int(words[at + 1])
        del words[at:at + 2]
    tables = {"ratios": lambda: ratios(processes), "linear": linear, "stack": stack}
    if words[:1] == ["profile"]:
        if len(words) != 3 or words[1] not in CALLS or words[2] not in [str(i) for i, _ in enumerate(files.measured(), 1)]:
            fail(__doc__)
        build()
        profile(*words[1:])
    elif set(words) <= set(tables):
        build()
        for word in words or tables:
            tables[word]()
    else:
        fail(__doc__)


signal.signal(signal.SIGPIPE, signal.SIG_DFL)
main(sys.argv[1:])
