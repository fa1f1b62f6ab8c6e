#!/usr/bin/env python3
"""The runs of faults.sh: one fault a run, and the replies compared with those of the undisturbed program.

A refused line changes nothing. So where the fault is reported in a reply, the other replies have to be those of the undisturbed
program over the script without that line, byte for byte. Where the run stops with status 3, the fault is named on standard
error and the replies before it are a prefix of the undisturbed ones. A read or write that does less than it was asked to changes
nothing; one that is interrupted is repeated, or is a fault of the device."""
import os
import re
import resource
import subprocess
import sys

TOP, WORK, PROGRAM = (os.environ[name] for name in ("FAULTS_TOP", "FAULTS_WORK", "FAULTS_PROGRAM"))
RUNS = int(os.environ["FAULTS_RUNS"])
STACK = 131072  # what a new process has at once, so that no later growth of the stack can be refused
TOLD = {
    "alloc": ("error OutOfMemory",),
    "fileread": ("error Device", "error TableRead Device"),
    "seek": ("error Device", "error TableRead Device"),
    "open": ("error Device",),
    "filewrite": ("error Device",),
}
undisturbed = {}


def run(script, words=(), limit=None, **faults):
    """The replies, the status and standard error of one run, under a limit of the system (its kind and bytes) if one is given."""
    environment = dict(os.environ, **{name: str(value) for name, value in faults.items()})
    if faults:
        environment["LD_PRELOAD"] = f"{WORK}/fault.so"
    try:
        done = subprocess.run([PROGRAM, *words], input=script, capture_output=True, env=environment, timeout=60,
                              preexec_fn=limit and (lambda: resource.setrlimit(limit[0], (limit[1], limit[1]))))
        return done.stdout, done.returncode, done.stderr.decode()
    except subprocess.TimeoutExpired:
        return b"", "no end within a minute", ""


def sound(script, words):
    """The replies of the undisturbed program, which are worked out once."""
    key = (script, tuple(words))
    if key not in undisturbed:
        undisturbed[key] = run(script, words)[0]
    return undisturbed[key]


def commands(script):
    """The lines that have a reply."""
    return [line for line in script.split(b"\n") if line.strip(b" \r") and not line.lstrip(b" ").startswith(b"#")]


def replies(text):
    """The replies, one a command: a game ends at the second empty line."""
    out, lines = [], text.split(b"\n")[:-1]
    while lines:
        count = 1
        if lines[0].startswith(b"[Event "):
            empty = [i for i, line in enumerate(lines) if not line]
            count = empty[1] + 1 if len(empty) > 1 else len(lines)
        out.append(b"\n".join(lines[:count]))
        lines = lines[count:]
    return out


def check_reported(script, words, text, kind):
    """What is wrong with replies of a run that came to its end; and how many lines tell the fault."""
    given, lines = replies(text), commands(script)
    if len(given) != len(lines):
        return f"{len(given)} replies to {len(lines)} lines", 0
    names = [name.encode() for name in TOLD.get(kind, ())]
    faults = [i for i, reply in enumerate(given) if reply in names]
    rest = b"".join(line + b"\n" for i, line in enumerate(lines) if i not in faults)
    wanted = iter(replies(sound(rest, words)))
    for i, reply in enumerate(given):
        if i not in faults and reply != (want := next(wanted, b"")):
            return f"line '{lines[i].decode()}' has '{reply.decode()}', wanted '{want.decode()}'", len(faults)
    return None, len(faults)


def may_show_nowhere(words, kind, at, once):
    """Whether want of memory need not be reported. A page that does not fit is used once and not kept. And std's `collect`, which
    takes over the words of the command line, asks again for less where its first request is refused: it comes after one
    request for each word, the program's name among them, one for the word that is not there, and one for their list."""
    return kind == "alloc" and ("--pages" in words or (once and at == len(words) + 4))


def judge(script, words, answer, kind, how, front=None, once=True, at=None):
    """What is wrong with a run, or None; and how many lines were refused for the fault, the `at`-th of its kind."""
    text, status, error = answer
    if status == 3:
        stops = {"alloc": "OutOfMemory", "stdin": "ReadDevice", "stdout": "WriteDevice"}
        base = sound(script, words)
        if how == "short" or kind not in stops or error != f"studybench: {stops[kind]}\n":
            return f"status 3 and '{error.strip()}'", 0
        if kind == "alloc" and text:
            return "replies before want of memory", 0
        if front is not None and text != b"".join(r + b"\n" for r in replies(base)[:front]):
            return f"not the replies to {front} lines", 0
        return (None, 0) if base.startswith(text) and (kind != "stdout" or text != base) else ("no front of the replies", 0)
    if status not in (0, 1) or error:
        return f"status {status} and '{error.strip()}'", 0
    wrong, faults = check_reported(script, words, text, kind)
    if wrong is None and status != (1 if any(r.startswith(b"error ") for r in replies(text)) else 0):
        wrong = f"status {status}"
    if wrong is None and how == "short" and faults:
        wrong = "a fault is reported"
    if wrong is None and how in ("fail", "nothing") and not faults and not may_show_nowhere(words, kind, at, once):
        wrong = "the fault is not reported"
    if wrong is None and once and faults > 1:
        wrong = f"one fault is reported {faults} times"
    return wrong, faults


def loads(script):
    return re.sub(rb"(?m)^build ", b"load ", script)


def scripts():
    """The scripts with tables of up to three men: each as it is, over saved tables, and by one page."""
    names = sorted(name for name in os.listdir(f"{TOP}/examples") if name.endswith(".script"))
    texts = [("row of the program's test", open(f"{TOP}/crates/studybench/stdin", "rb").read())]
    for name in names:
        text = open(f"{TOP}/examples/{name}", "rb").read()
        built = re.findall(rb"(?m)^build (\S+)", text)
        if built and len(built[-1]) <= 3 and not name.startswith("small_tables"):
            texts.append((name, text))
    saves = b"build KK\nsave KK\nbuild KRK\nverify KRK\nsave KRK\nsave KQK\n"
    for name, text in texts:
        yield name, text, ["--tables", f"{WORK}/saved"], b"build KPK" in text
        yield f"{name}, loaded", loads(text), ["--tables", f"{WORK}/tables"], False
        yield f"{name}, by one page", loads(text), ["--tables", f"{WORK}/tables", "--pages", "1"], False
    yield "tables saved", saves, ["--tables", f"{WORK}/saved"], False


KINDS = [("alloc", "fail", {}), ("alloc", "fail", {"FAULT_ON": 1}), ("stdin", "fail", {"FAULT_CHUNK": 40}),
         ("stdin", "short", {}), ("stdin", "interrupt", {}), ("stdout", "fail", {}), ("stdout", "nothing", {}),
         ("stdout", "short", {}), ("stdout", "interrupt", {}), ("fileread", "fail", {}), ("fileread", "fail", {"FAULT_ON": 1}),
         ("fileread", "short", {}), ("fileread", "interrupt", {}), ("seek", "fail", {}), ("open", "fail", {}),
         ("filewrite", "fail", {}), ("filewrite", "nothing", {}), ("filewrite", "short", {}), ("filewrite", "interrupt", {})]


def sweep():
    os.makedirs(f"{WORK}/saved", exist_ok=True)
    total = bad = refused = stopped = quiet = 0
    by_kind = {}
    for name, script, words, slow in scripts():
        for kind, how, more in KINDS:
            faults = dict(more, FAULT_KIND=kind, FAULT_HOW=how, FAULT_COUNT=f"{WORK}/count")
            answer = run(script, words, FAULT_AT=0, **faults)
            if answer[0] != sound(script, words):
                print(f"WRONG {name}: with no fault the replies differ")
                bad += 1
            places = int(open(f"{WORK}/count").read())
            bound = max(4, RUNS // 6) if slow else RUNS
            step = max(1, -(-places // bound))
            for at in range(1, places + 1, step):
                answer = run(script, words, FAULT_AT=at, **faults)
                front = None
                if kind == "stdin" and how == "fail":
                    whole = script[: 40 * (at - 1)].split(b"\n")[:-1]
                    front = len(commands(b"\n".join(whole)))
                wrong, reported = judge(script, words, answer, kind, how, front, "FAULT_ON" not in more, at)
                total += 1
                tally = by_kind.setdefault(f"{kind} {how}{' from there on' if 'FAULT_ON' in more else ''}", [0, 0, 0])
                tally[0] += 1
                tally[1] += reported > 0
                tally[2] += answer[1] == 3
                refused, stopped = refused + (reported > 0), stopped + (answer[1] == 3)
                quiet += reported == 0 and answer[1] != 3
                if wrong:
                    bad += 1
                    print(f"WRONG {name}: {kind} {how} at {at}{' and on' if 'FAULT_ON' in more else ''}: {wrong}")
        sys.stdout.flush()
    for kind, (runs, reported, ended) in by_kind.items():
        print(f"{kind}: {runs} runs, {reported} reported as a reply, {ended} ended with status 3")
    print(f"{total} faults in {total} runs: {refused} reported as a reply, {stopped} ended with status 3, {quiet} with the replies "
          f"as they were; {bad} wrong")
    return bad


def deepest_line(nested):
    """A line of 256 plies, the deepest that there is: the main line, or variations of which each begins beside the first move of the one before."""
    lines, path = [], []
    for ply in range(256):
        step = (ply // 2 + 1) % 14
        file, at = "abcdefgh"[step if step < 8 else 14 - step], ".".join(path) or "root"
        if nested:
            lines.append(f"insert {at} K{file}{'62'[ply % 2 == 0]}")
        lines.append(f"insert {at} K{file}{'51'[ply % 2 == 0]}")
        path.append("01"[nested])
    return lines, path


def deep_script():
    """The deepest main line, with a move beside its last, and every command that goes through it."""
    lines, path = deepest_line(False)
    line = ["build KK", "position 8/8/8/k7/8/8/8/K7 w - - 0 1", "stipulate white draw", *lines]
    deep, above = ".".join(path), ".".join(path[:-1])
    line += [f"mark {deep}", f"moves {above}", f"fen {deep}", "stipulate white win", "stipulate black mate 100", "stipulate white draw",
             "shift 8/8/8/k7/8/8/8/K7 w - - 7 9", f"insert {above} Ka6", f"insert {above} Kb6", f"promote {above}.1",
             f"delete {above}.2", "pgn", f"delete {'.'.join(path[:100])}", "pgn", "position 8/8/8/8/k7/8/8/K7 w - - 0 1", "pgn"]
    return "\n".join(line).encode() + b"\n"


def squeeze():
    """The deepest tree under limits of the stack and of the address space: never a signal, and never a wrong reply."""
    script, bad = deep_script(), 0
    whole = run(script)
    if whole[1] != 0 or b"error" in whole[0]:
        print(f"WRONG deep: status {whole[1]}, {whole[0].count(b'error')} lines refused, {whole[2].strip()}")
        return 1
    answer = run(script, limit=(resource.RLIMIT_STACK, STACK))
    if answer != whole:
        print(f"WRONG deep: with a stack of {STACK} bytes status {answer[1]}")
        bad += 1
    floor = 4096
    while run(b"", limit=(resource.RLIMIT_AS, floor))[1] != 0:
        floor += 4096
    limit, refused, runs = floor, 0, 0
    while True:
        answer = run(script, limit=(resource.RLIMIT_AS, limit))
        runs += 1
        wrong, reported = judge(script, (), answer, "alloc", "limit", once=False)
        refused += reported > 0
        if wrong:
            bad += 1
            print(f"WRONG deep: with {limit} bytes of addresses: {wrong}")
        if answer == whole:
            break
        limit += 4096
    print(f"deepest tree: a stack of {STACK} bytes; {runs} limits of addresses from {floor} to {limit} bytes, "
          f"{refused} with lines refused for want of memory, {bad} wrong")
    return bad


REPORTS = [kind for kind in KINDS if kind[0] != "filewrite"]


def report_wrong(answer, base, kind, how):
    """What is wrong with a run of studyreport, or None. A fault ends it with status 3 and its name on standard error; or the file of a table is
    named there, with its fault, and the run goes on without it; or a line is refused; or it shows nowhere, as where a page of a table finds no
    room to be kept."""
    text, status, error = answer
    stops = {"alloc": "OutOfMemory", "stdin": "ReadDevice", "stdout": "WriteDevice"}
    same = (text, status) == (base[0], base[1])
    if status == 3:
        if how == "short" or kind not in stops or error != f"studyreport: {stops[kind]}\n":
            return f"status 3 and '{error.strip()}'"
        if kind == "stdout" and (not base[0].startswith(text) or text == base[0]):
            return "no front of what is written"
        return None
    if status not in (0, 1):
        return f"status {status} and '{error.strip()}'"
    if error:
        named = all(re.fullmatch(r"studyreport: K\w+\.dtm: (TableRead )?Device", line) for line in error.splitlines())
        if how == "short" or kind not in ("open", "fileread", "seek") or not named:
            return f"status {status} and '{error.strip()}'"
        return None if same or (status == 1 and b"NoTable" in text) else "other text without a table"
    if same:
        return None if how in ("short", "interrupt") or kind == "alloc" else "the fault is not reported"
    if how == "short" or status != 1:
        return f"status {status}, and other text"
    names = [name.encode().removeprefix(b"error ") for name in TOLD.get(kind, ())]
    return None if any(name in text for name in names) else "the fault is not named"


def report():
    """The same faults under studyreport, over tables by pages: pages and lines."""
    global PROGRAM
    PROGRAM = os.environ["FAULTS_REPORT"]
    script = open(f"{TOP}/examples/kpk_rook_not_queen.script", "rb").read()
    total = bad = ended = refused = 0
    for more_words in ([], ["--lines"], ["--pages", "1"]):
        words = ["--tables", f"{WORK}/tables", *more_words]
        base = run(script, words)
        for kind, how, more in REPORTS:
            faults = dict(more, FAULT_KIND=kind, FAULT_HOW=how, FAULT_COUNT=f"{WORK}/count")
            if run(script, words, FAULT_AT=0, **faults) != base:
                print(f"WRONG {' '.join(more_words)}: with no fault {kind} {how} differs")
                bad += 1
            places = int(open(f"{WORK}/count").read())
            for at in range(1, places + 1, max(1, -(-places // RUNS))):
                answer = run(script, words, FAULT_AT=at, **faults)
                wrong = report_wrong(answer, base, kind, how)
                total, ended, refused = total + 1, ended + (answer[1] in (2, 3)), refused + (answer[1] == 1 and answer[:2] != base[:2])
                if wrong:
                    bad += 1
                    print(f"WRONG studyreport {' '.join(more_words)}: {kind} {how} at {at}{' and on' if 'FAULT_ON' in more else ''}: {wrong}")
    print(f"studyreport: {total} faults in {total} runs: {ended} ended the run, {refused} refused a line; {bad} wrong")
    return bad + sum(squeeze_report(nested, more_words) for nested in (False, True) for more_words in ([], ["--lines"]))


def squeeze_report(nested, more_words):
    """studyreport over the deepest trees, under limits of the stack and of the address space: never a signal."""
    lines, _ = deepest_line(nested)
    script = "\n".join(["position 8/8/8/k7/8/8/8/K7 w - - 0 1", "stipulate white draw", *lines, "pgn", ""]).encode()
    words, bad, runs = ["--tables", f"{WORK}/tables", "--pages", "4", *more_words], 0, 0
    name = f"studyreport {' '.join(more_words)} {'variations' if nested else 'a line'} of 256 plies"
    whole = run(script, words)
    if whole[1] != 0:
        print(f"WRONG {name}: status {whole[1]}, {whole[2].strip()}")
        return 1
    answer = run(script, words, limit=(resource.RLIMIT_STACK, STACK))
    if answer != whole:
        print(f"WRONG {name}: with a stack of {STACK} bytes status {answer[1]}")
        bad += 1
    limit = 4096
    while run(b"", words, limit=(resource.RLIMIT_AS, limit))[1] != 0:
        limit += 4096
    floor = limit
    while answer != whole or runs == 0:
        answer = run(script, words, limit=(resource.RLIMIT_AS, limit))
        runs, limit = runs + 1, limit + 4096
        ends = answer[1] == 3 and answer[2] == "studyreport: OutOfMemory\n"
        if answer != whole and not ends and not (answer[1] == 1 and (b"OutOfMemory" in answer[0] or "OutOfMemory" in answer[2])):
            bad += 1
            print(f"WRONG {name}: with {limit - 4096} bytes of addresses status {answer[1]}, {answer[2].strip()}")
    print(f"{name}: a stack of {STACK} bytes; {runs} limits of addresses from {floor} bytes, {bad} wrong")
    return bad


def tried(numbers):
    """`rt try --fail-alloc N`: the program is interpreted, and its checks are made as it runs."""
    script = b"load KK\nload KQK\n" + b"\n".join(open(f"{TOP}/crates/studybench/stdin", "rb").read().split(b"\n")[2:])
    words, runs, bad = ["--tables", f"{WORK}/tables"], 0, 0
    for number in " ".join(numbers).split():
        command = ["rt", "try", "--fail-alloc", number, "--", *words]
        done = subprocess.run(command, input=script, capture_output=True, cwd=f"{TOP}/crates/studybench", timeout=300)
        text = done.stdout.decode() + done.stderr.decode()
        status = re.search(r"run=ended status=(\d)", text)
        reported = "studybench: OutOfMemory\n" if "studybench: OutOfMemory" in text else ""
        given = re.sub(r"(?m)^(allocations:|checked:|run=|studybench:|rt:).*\n", "", text).encode()
        wrong, faults = judge(script, words, (given, int(status[1]) if status else "none", reported), "alloc", "fail")
        runs += 1
        bad += wrong is not None
        print(f"rt try --fail-alloc {number}: {wrong or 'right'}, status {status and status[1]}, {faults} lines tell it")
    print(f"{runs} faults in {runs} runs of rt try, {bad} wrong")
    return bad


TASKS = {"sweep": sweep, "squeeze": squeeze, "report": report}
sys.exit(1 if (TASKS[sys.argv[1]]() if sys.argv[1] in TASKS else tried(sys.argv[2:])) else 0)
