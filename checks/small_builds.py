"""Builds the receivers in C of receivers/c: checked ones, wrong ones, those of a small machine, and what clang's tools say of them. What isn't installed is
skipped with a line."""
import os
import shutil
import subprocess

TOP = os.path.dirname(os.path.dirname(os.path.abspath(__file__)))
FOLDER = os.path.join(TOP, "receivers", "c")
STRICT = ["-std=c99", "-Wall", "-Wextra", "-Wconversion", "-Werror", "-pedantic"]
CHECKED = ["-O1", "-g", "-fsanitize=address,undefined", "-fno-sanitize-recover=all"]
GREATEST = ["-DAIR_ITEMS=1024", "-DAIR_READS=16", "-DAIR_ROOM=256"]
BUILDS = {"full": [], "thin": ["-DAIR_THIN"]}
CLASH = "return is_stale || receiver->entries[read][receiver->reads] >= cycle;"
EARLIER = "#ifdef AIR_THIN\n    if (is_earlier(receiver, bucket->cycle))\n        return AIR_EARLIER;\n#endif\n"
ARM, BOARD = "arm-none-eabi", ["-Os", "-mcpu=cortex-m0plus", "-mthumb", "-ffreestanding"]
BOARD_BUILDS = {"thin": ["-DAIR_THIN"], "full": [], "full, 4 copies": ["-DAIR_ROOM=4"]}
CALLED = {"memcmp", "memcpy", "memset", "__aeabi_idivmod", "__aeabi_uidivmod"}
# for how long libFuzzer tries inputs
FUZZ_SECONDS = 30
# Of each wrong receiver its build, the right text and the wrong one
WRONG = {
    "an entry that is the held cycle does not clash": ("full", "int is_stale = row[read] >= ", "int is_stale = row[read] > "),
    "an entry of a held read that is the new cycle does not clash": ("full", CLASH, CLASH.replace(">=", ">")),
    "the held columns are not looked at": ("full", CLASH, "return is_stale;"),
    "the new column is not looked at": ("full", CLASH, CLASH.replace("is_stale || ", "")),
    "after an abort the copy stays": ("full", "        drop_copy(receiver, clash);\n", ""),
    "an age is one more": ("full", "bucket->cycle - *at;", "bucket->cycle - *at - 1;"),
    "an age is one less": ("full", "bucket->cycle - *at;", "bucket->cycle - *at + 1;"),
    "slots of another edition fit": ("full", " || bucket->edition != number || ", " || "),
    "an edition is in force a cycle later": ("full", "if (cycle < next[FIRST])", "if (cycle <= next[FIRST])"),
    "reads of 255 cycles are judged": ("full", ">= OLD)", "> OLD)"),
    "copies stay by the first edition": ("full", "edition_at(receiver->plan, receiver->newest, &number)", "edition_at(receiver->plan, 1, &number)"),
    "a copy of the reader's age is too old": ("full", "<= receiver->reader[AGE]", "< receiver->reader[AGE]"),
    "thin, what is as new as the last held read is left": ("thin", "cycle < receiver->cycles[receiver->reads - 1]", "cycle <= receiver->cycles[receiver->reads - 1]"),
    "thin, what is not earlier than the first held read is judged": ("thin", "cycle < receiver->cycles[receiver->reads - 1]", "cycle < receiver->cycles[0]"),
    "thin, what is earlier is left before it is known to be too far": ("thin", "    if (is_far(receiver, bucket->cycle)) {", EARLIER + "    if (is_far(receiver, bucket->cycle)) {"),
    "thin, what is earlier is judged": ("thin", EARLIER, ""),
}


def ran(*words, **how):
    """How a command ended: its status, and what it said."""
    done = subprocess.run(words, stdin=subprocess.DEVNULL, stdout=subprocess.PIPE, stderr=subprocess.STDOUT, check=False, **how)
    return done.returncode, done.stdout.decode(errors="replace")


def is_built(say, *words):
    status, said = ran(*words, cwd=FOLDER)
    say(status == 0, f"{' '.join(words)}: {said}")
    return status == 0


def checked_builds(say, folder):
    """The programs tune, full and thin, of each compiler; and each size is compiled."""
    builds = []
    for compiler in ("gcc", "clang"):
        if not shutil.which(compiler):
            print(f"skipped: the receivers in C by {compiler}, which is not installed")
            continue
        for sizes in ([], ["-DAIR_ROOM=4"], ["-DAIR_THIN"], ["-DAIR_ITEMS=16", "-DAIR_READS=4", "-DAIR_ROOM=1"], GREATEST):
            is_built(say, compiler, *STRICT, "-O2", *sizes, "-c", "air.c", "-o", os.path.join(folder, "air.o"))
        is_built(say, compiler, *STRICT, "-O2", *GREATEST, "listen.c", "air.c", "-o", os.path.join(folder, f"listen-{compiler}"))
        build = {name: os.path.join(folder, f"{name}-{compiler}") for name in BUILDS}
        if all([is_built(say, compiler, *STRICT, *CHECKED, *GREATEST, *BUILDS[name], "tune.c", "air.c", "-o", build[name]) for name in BUILDS]):
            builds.append(build)
    return builds


def wrong_builds(say, folder):
    """The wrong receivers: of each its name, its program tune, and whether it is thin."""
    compiler, programs = next(name for name in ("gcc", "clang") if shutil.which(name)), {}
    with open(os.path.join(FOLDER, "air.c"), encoding="utf-8") as file:
        text = file.read()
    for number, (name, (build, right, wrong)) in enumerate(WRONG.items()):
        say(text.count(right) == 1, f"the text of a wrong receiver is not there once: {name}")
        source, program = (os.path.join(folder, f"wrong{number}{ending}") for ending in (".c", ""))
        with open(source, "w", encoding="utf-8") as file:
            file.write(text.replace(right, wrong))
        is_built(say, compiler, "-std=c99", "-O1", *GREATEST, *BUILDS[build], "-I", ".", "tune.c", source, "-o", program)
        programs[name] = program, build == "thin"
    return programs


def listeners(folder):
    """The programs listen that were built."""
    return [os.path.join(folder, name) for name in sorted(os.listdir(folder)) if name.startswith("listen-")]


def vectors():
    """The deck, the tape and the wanted rows of each vector."""
    folder = os.path.join(TOP, "examples", "vectors")
    for name in sorted(name[:-4] for name in os.listdir(folder) if name.endswith(".csv")):
        with open(os.path.join(folder, f"{name}.txt"), encoding="utf-8") as file:
            yield os.path.join(folder, f"{name}.csv"), os.path.join(folder, f"{name}.tape"), file.read()


def is_there(name, what):
    """Whether a program is installed; if not, that is said."""
    if not shutil.which(name):
        print(f"skipped: {what}: {name} is not installed")
    return bool(shutil.which(name))


def board_deck(items):
    """The deck of the table of sizes."""
    sizes = items // 8, items // 4, items - items // 8 - items // 4
    return "".join([*(f"item,{item},0,{items - item}\n" for item in range(items)), *(f"disk,{size},{freq}\n" for size, freq in zip(sizes, (4, 2, 1))),
                    "reader,0,0,3\nquery,0,0 5 9 13\nquery,0,3 7\n"])


def sections_of(name):
    """How many bytes of text, data and bss an object has."""
    return [int(field) for field in ran(f"{ARM}-size", name)[1].splitlines()[1].split()[:3]]


def try_board(say, program, folder):
    """A small machine's compiler: the receiver has no memory of its own, and calls nothing but what copies, compares and divides. README's table has its sizes."""
    if not is_there(f"{ARM}-gcc", "the receivers in C on a small machine"):
        return
    with open(os.path.join(FOLDER, "..", "README.md"), encoding="utf-8") as file:
        page = file.read()
    is_told = f"`{ARM}-gcc {ran(f'{ARM}-gcc', '--version')[1].splitlines()[0].split(') ')[1]} " in page
    if not is_told:
        print(f"skipped: the table of sizes in receivers/README.md: it is of another {ARM}-gcc")
    deck, plan = os.path.join(folder, "board.csv"), os.path.join(folder, "plan.h")
    objects = {name: os.path.join(folder, f"board-{name}.o") for name in ("air", "blink")}
    for items in (16, 64, 256):
        with open(deck, "w", encoding="utf-8") as file:
            file.write(board_deck(items))
        status, said = ran("bash", "-c", '"$0" plan "$1" | ./plan.py "$1" "$2" 0', program, deck, plan, cwd=FOLDER)
        say(status == 0, f"plan.py: {said}")
        for build, sizes in BOARD_BUILDS.items():
            words = [f"{ARM}-gcc", *STRICT, *BOARD, f"-DAIR_ITEMS={items}", *sizes, "-I", folder]
            if all([is_built(say, *words, "-c", f"{name}.c", "-o", objects[name]) for name in objects]):
                air, blink = (sections_of(name) for name in objects.values())
                say(air[1:] == [0, 0], f"air.c has memory of its own: {air}")
                row = f"| {items} | {build} | {air[0] + blink[0]:,} | {blink[1]} | {blink[2]:,} |\n"
                say(not is_told or row in page, f"receivers/README.md has no row {row}")
                called = set(ran(f"{ARM}-nm", "-u", objects["air"])[1].replace("U", "").split())
                say(called <= CALLED, f"air.c calls {called - CALLED}")


def try_machine(say, program, folder):
    """The vectors on the code of a small machine. qemu-arm 7.2 starts no program of a Cortex-M: so what reads the files is built for another machine, and `air.c`
    for the small one."""
    if not (is_there(f"{ARM}-gcc", "the receiver in C by qemu-arm") and is_there("qemu-arm", "the receiver in C by qemu-arm")):
        return
    name, machine, plan = (os.path.join(folder, name) for name in ("machine.o", "machine", "machine.plan"))
    sizes = ["-std=c99", "-DAIR_ITEMS=64", "-DAIR_ROOM=4", "-DHOST_WORDS=4096", "-DHOST_READERS=8"]
    built = is_built(say, f"{ARM}-gcc", *sizes, *BOARD, "-c", "air.c", "-o", name) and is_built(say, f"{ARM}-objcopy", "--remove-section", ".ARM.attributes", name)
    if not built or not is_built(say, f"{ARM}-gcc", *sizes, "-Os", "-mcpu=cortex-a7", "-mthumb", "--specs=rdimon.specs", "tune.c", name, "-o", machine):
        return
    for vector, tape, wanted in vectors():
        ran("bash", "-c", '"$0" plan "$1" | ./plan.py "$1" "$2"', program, vector, plan, cwd=FOLDER)
        got = ran("qemu-arm", "-cpu", "cortex-a7", machine, plan, tape)[1]
        say(got == wanted, f"by qemu-arm, the vector {vector}: printed {got!r}")


def try_analyzer(say, _program, folder):
    """clang's analyzer finds nothing."""
    if is_there("scan-build", "clang's analyzer over the receivers in C"):
        for sizes in ([*GREATEST], ["-DAIR_THIN"]):
            for source in ("air.c", "tune.c", "listen.c"):
                words = ["scan-build", "--status-bugs", "-o", folder, "cc", "-std=c99", *sizes, "-c", source, "-o", os.path.join(folder, "analyzed.o")]
                status, said = ran(*words, cwd=FOLDER)
                say(status == 0, f"{' '.join(words)}: {said}")


def try_fuzz(say, _program, folder):
    """libFuzzer, full for as long as is said here and thin over the corpus alone."""
    if not is_there("clang", "libFuzzer over the receivers in C"):
        return
    corpus = os.path.join(folder, "corpus")
    shutil.copytree(os.path.join(FOLDER, "corpus"), corpus)
    for name, seconds in (("full", FUZZ_SECONDS), ("thin", 0)):
        program = os.path.join(folder, f"fuzz-{name}")
        words = ["clang", *STRICT, *CHECKED, "-fsanitize=fuzzer", "-DAIR_ITEMS=64", "-DAIR_ROOM=3", *BUILDS[name], "fuzz.c", "air.c", "-o", program]
        status, said = ran(*words, cwd=FOLDER)
        if "libclang_rt.fuzzer" in said:
            print("skipped: libFuzzer over the receivers in C: it is not installed")
            return
        say(status == 0, f"{' '.join(words)}: {said}")
        status, said = ran(program, *([f"-max_total_time={seconds}"] if seconds else ["-runs=0"]), "-max_len=8192", corpus, cwd=folder)
        say(status == 0, f"libFuzzer, {name}: {said[-2000:]}")


TOOLS = [try_board, try_machine, try_analyzer, try_fuzz]
