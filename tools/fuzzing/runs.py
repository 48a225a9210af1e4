"""The runs of tools/fuzz: each answer of the program against `oracle`, and against what sqlite3 says."""
import os
import random
import re
import shutil
import subprocess
import sys
import tempfile
import time

sys.dont_write_bytecode = True
import oracle
from made import built, by_sqlite, mutated_file, script_of

try:
    import sqlite3
except ImportError:
    sqlite3 = None

LINE = re.compile(rb"(\d+) (ok|refused (?:no-such-table|column-taken|too-many-columns|unbuilt))\n")
LAST = {2: [b"script 1048576 too-long\n", b"script 0 unbuilt\n"], 3: [b"file %s\n" % code for code in (b"empty", b"not-database", b"page-size", b"wal", b"auto-vacuum", b"encoding", b"schema-format", b"size",
                                    b"too-large", b"unbuilt")], 4: [b"fault read\n", b"fault write\n"],
        5: [b"memory\n"], 64: [b"usage: sqlalter FILE\n"]}
LAST[0] = LAST[1] = [b""]


def ask(name):
    """What sqlite3 says of the file: its check, and its tables' columns; None where it can't read it."""
    database = sqlite3.connect(f"file:{name}?mode=ro&immutable=1", uri=True)
    database.text_factory = bytes
    try:
        check = {line for rows in database.execute("PRAGMA integrity_check") for line in rows[0].split(b"\n")}
        columns = {}
        for table, column in database.execute("SELECT s.name, c.name FROM sqlite_schema s, pragma_table_info(s.name) c ORDER BY s.rowid, c.cid"):
            columns.setdefault(table.lower(), []).append(column)
        return check, columns
    except (sqlite3.Error, UnicodeError):
        return None
    finally:
        database.close()


def faults_of(data, journal, script, status, out, err, after, journal_after):
    """What is wrong with a run, apart from what sqlite3 says."""
    if status not in LAST:
        return [f"the status is {status}"]
    lines = LINE.findall(out)
    done = sum(what == b"ok" for _, what in lines)
    rest = LINE.sub(b"", out)
    wrong = {
        "standard error": err != b"",
        "the lines' form or the status": rest not in LAST[status] or not out.endswith(rest) or status in (2, 3, 64) and lines != [],
        "the numbers": [int(at) for at, _ in lines] != list(range(1, len(lines) + 1)),
        "the status of the lines": status in (0, 1) and status != int(done < len(lines)),
        "the file of a refusal": (status not in (0, 1) or done == 0) and after != data,
        "the journal": done == 0 and (journal_after or b"") != (journal or b""),
        "the file's length": data is not None and len(after or b"") != len(data),
    }
    if done and not any(wrong.values()):
        size = oracle.number(data, 16, 2)
        size = 65536 if size == 1 else size
        wrong["the counters"] = any((oracle.number(after, at) - oracle.number(data, at) - done) % 2 ** 32 for at in (24, 40))
        wrong["the other pages"] = after[size:] != data[size:]
        wrong["the journal, which is to have one page and zeros for its magic"] = (
            len(journal_after or b"") != 520 + size or journal_after[:8] != bytes(8) or journal_after[8:12] != b"\0\0\0\1")
    lines, ended, left = (b"usage: sqlalter FILE\n", 64, data) if script is None else oracle.answer(data, script)
    wrong[f"the lines, where {lines[:300]} should come"] = out != lines
    wrong[f"the status, where {ended} should come"] = status != ended
    wrong["the bytes of the file that should come"] = after != left
    return [what for what, is_so in wrong.items() if is_so]


def asked(sound, before, after, script, out):
    """What sqlite3 finds wrong in a file that commands were done on. Of one that was not sound it may find less than before."""
    if before is None:
        return ["sqlite3 can't read the file that was made"] if sound else []
    if after is None or before[0] != after[0] and (sound or before[0] == {b"ok"} or not after[0] <= {*before[0], b"ok"}):
        return [f"integrity_check says {after and after[0]} and said {before[0]}"]
    wanted = {table: list(columns) for table, columns in before[1].items()}
    for (table, column), (_, what) in zip(oracle.read_script(script) or [], LINE.findall(out)):
        if what == b"ok":
            wanted.get(table.lower(), []).append(column)
    return [] if wanted == after[1] else [f"sqlite3 sees the columns {after[1]}"]


def read(name):
    if not os.path.exists(name):
        return None
    with open(name, "rb") as file:
        return file.read()


def put(name, content):
    """Makes the file, or none where there is no content."""
    if os.path.exists(name):
        os.remove(name)
    if content is not None:
        with open(name, "wb") as file:
            file.write(content)


def run(program, room, rng, turn, made):
    """One run. It gives what is wrong, the output, and the file, the journal and the script before it."""
    name, old, journal = f"{room}/db", f"{room}/old", None
    sound = rng.random() < 0.5
    data = rng.choice(made) if made and rng.random() < 0.3 else built(rng, longer=not sound and rng.random() < 0.3)
    script = script_of(rng, turn, data)
    if not sound and rng.random() < 0.8:
        data = mutated_file(rng, data) if rng.random() < 0.98 else rng.choice([None, b"", rng.randbytes(rng.randrange(3000))])
    if rng.random() < 0.02:
        journal = rng.choice([b"", b"\0", rng.randbytes(600)])
    put(name, data)
    put(f"{name}-journal", journal)
    words = [name] if rng.random() < 0.99 else rng.choice([[], [name, name], [b"\xff"]])
    try:
        ended = subprocess.run([program, *words], input=script, capture_output=True, timeout=10, cwd=room)
        status, out, err = ended.returncode, ended.stdout, ended.stderr
    except subprocess.TimeoutExpired:
        status, out, err = "none after ten seconds", b"", b""
    told = script if words == [name] else None
    faults = faults_of(data, journal, told, status, out, err, read(name), read(f"{name}-journal"))
    if not faults and sqlite3 and b" ok\n" in out:
        put(old, data)
        faults = asked(sound, ask(old), ask(name), script, out)
    return faults, status, out, data, journal, script, words


def main(program, seconds, seed, runs):
    shared = "/dev/shm" if os.access("/dev/shm", os.W_OK) else None
    room, kept = tempfile.mkdtemp(prefix="fuzz-", dir=shared), None
    end, turn, failed, counts = time.monotonic() + float(seconds), 0, 0, {}
    made = by_sqlite(room) if sqlite3 else []
    while turn < int(runs) and time.monotonic() < end and failed < 20:
        faults, status, out, data, journal, script, words = run(program, room, random.Random(f"{seed} {turn}"), turn, made)
        key = f"status {status}" + (", some ok" if b" ok\n" in out else "")
        counts[key] = counts.get(key, 0) + 1
        if faults:
            failed += 1
            kept = kept or tempfile.mkdtemp(prefix="fuzz-failed-")
            case_name = f"{kept}/{seed}-{turn}"
            for end_of_name, content in ((".db", data), (".db-journal", journal), (".script", script)):
                put(case_name + end_of_name, content)
            print(f"FAILED: run {turn} of seed {seed}: {'; '.join(faults)}: status {status}, output {out[:300]}, words {words}")
            copies = "".join(f"cp {case_name}.{end} x.{end}; " for end in ("db", "db-journal") if os.path.exists(f"{case_name}.{end}"))
            print(f"  again: {copies}{program} x.db <{case_name}.script")
        turn += 1
    shutil.rmtree(room)
    print("; ".join(f"{key}: {counts[key]}" for key in sorted(counts)) + ("" if sqlite3 else "; without sqlite3"))
    print(f"{turn} runs, {failed} failed")
    return int(failed > 0 or turn == 0)


sys.exit(main(*sys.argv[1:]))
