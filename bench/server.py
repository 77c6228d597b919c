#!/usr/bin/python3
"""Runs spec files on a PostgreSQL server too, and compares what it answers with the program's reports.

Usage: bench/server.py SPEC..
       bench/server.py --made FROM TO    (files made at random, from these numbers on and up to those)

Where PGHOST is set, the server is the one that libpq's variables name, with a role that may set deadlock_timeout, since
deadlocks last here until steps are cancelled. Elsewhere a server is started in a directory of its own and ended with it;
where none is installed, a line says so, and the status is 0.

Each permutation begins with an empty schema, which is dropped at the end. A step waits where pg_blocking_pids names
somebody. Of a refusal only the SQLSTATE is compared; steps that complete at the same place may come in any order. Of each
file the first difference is looked at. Prints those that README doesn't name, and ends with 1 where there are any; of the
others it prints the first of each kind, and counts each kind. Files that the program doesn't read aren't given to the server.

It needs libpq (libpq.py), and crates/al_live/out/al_live, which bin/alterlive builds.
"""

import collections
import contextlib
import glob
import os
import pwd
import random
import re
import shutil
import subprocess
import sys
import tempfile

sys.dont_write_bytecode = True
import libpq  # noqa: E402

SCHEMA = "alterlive_server"
PROGRAM = os.path.join(os.path.dirname(os.path.abspath(__file__)), "../crates/al_live/out/al_live")
KEYWORDS = {"setup", "teardown", "session", "step", "permutation"}
PLAIN = r"[A-Za-z_\x80-\U0010ffff][A-Za-z0-9_$\x80-\U0010ffff]*"
TOKEN = re.compile(rf'#[^\n]*|\{{(?P<block>[^}}]*)\}}|"(?P<quoted>(?:[^"\n]|"")+)"|(?P<word>{PLAIN})')
SETTINGS = ["fsync=off", "autovacuum=off", "listen_addresses=", "max_connections=100"]


class SessionSpec:
    """A session of a spec file: its name, and the texts of its setup and teardown blocks, where it has them."""

    def __init__(self, name):
        self.name, self.setup, self.teardown = name, None, None


class Spec:
    """The setup blocks, the teardown block, the sessions, the steps (session's number and text by name), the permutations."""

    def __init__(self, text):
        self.setups, self.teardown, self.sessions, self.steps, self.permutations = [], None, [], {}, []
        tokens = ((match.lastgroup, match[match.lastgroup]) for match in TOKEN.finditer(text) if match.lastgroup)
        for kind, word in tokens:
            if kind != "word" or word not in KEYWORDS:
                self.permutations[-1].append(name_of(kind, word))
            elif word == "permutation":
                self.permutations.append([])
            elif word == "session":
                self.sessions.append(SessionSpec(name_of(*next(tokens))))
            elif word == "step":
                name = name_of(*next(tokens))
                self.steps[name] = (len(self.sessions), block_text(next(tokens)[1]))
            else:
                self.add_block(word, block_text(next(tokens)[1]))

    def add_block(self, word, text):
        if self.sessions:
            setattr(self.sessions[-1], word, text)
        elif word == "setup":
            self.setups.append(text)
        else:
            self.teardown = text


def name_of(kind, word):
    return word.replace('""', '"') if kind == "quoted" else word


def block_text(word):
    return word.strip(" \t\r\f")


def shown(name):
    """The name as a report has it."""
    if re.fullmatch(PLAIN, name) and name not in KEYWORDS:
        return name
    return '"' + name.replace('"', '""') + '"'


class Session:
    """A session's connection, and the step that it has in hand."""

    def __init__(self):
        options = f"-c deadlock_timeout=1h -c search_path={SCHEMA} -c client_min_messages=error"
        self.connection = libpq.Connection(f"options='{options}'")
        self.process = self.connection.process
        self.step = None

    def ask(self, step, text):
        self.step = step
        self.connection.send(text)


class Run:
    """What the server answers to a permutation of a spec file: the steps' names, and heads with the lines below each."""

    def __init__(self, control, spec, permutation):
        self.control, self.spec, self.parts = control, spec, [[" ".join(map(shown, permutation))]]
        # For each part what stood when the step was given, or cancelled, to which it belongs.
        self.facts = collections.defaultdict(set)
        control.ask(f"DROP SCHEMA IF EXISTS {SCHEMA} CASCADE")
        control.ask(f"CREATE SCHEMA {SCHEMA}")
        self.sessions = [Session() for _ in range(len(spec.sessions) + 1)]
        if self.set_up():
            self.go_through(permutation)
            self.cancel_all()
            self.tear_down()
        self.close(self.sessions)

    def is_blocked(self, session):
        return self.control.value(f"SELECT cardinality(pg_blocking_pids({session.process})) > 0") == "t"

    def facts_at(self, session, text):
        """What may let the server go on otherwise than the program, where the session gets the text.

        A session that waits, or gets the text, has locked a table for which another waits (awaited); two wait for one table,
        so the first will have locked what the second waits for (queued); two may go on at the same place (crowded).
        """
        waiting = [other for other in self.sessions if other is not session and other.step is not None]
        facts = set()
        if waiting and self.is_awaited([session, *waiting]):
            facts.add("awaited")
        if len(waiting) > 1 and self.is_queued():
            facts.add("queued")
        if len(waiting) > 1 or waiting and re.search(r"(?i)\b(commit|rollback)\s*(;\s*)+[a-z]", text):
            facts.add("crowded")
        return facts

    def is_awaited(self, sessions):
        """Whether another session waits for a table that one of these has locked."""
        processes = ", ".join(str(session.process) for session in sessions)
        query = (
            "SELECT EXISTS (SELECT FROM pg_locks own JOIN pg_locks other USING (locktype, database, relation)"
            f" WHERE own.pid IN ({processes}) AND own.granted AND other.pid <> own.pid AND NOT other.granted)"
        )
        return self.control.value(query) == "t"

    def is_queued(self):
        """Whether two sessions wait for one table."""
        query = "SELECT FROM pg_locks WHERE NOT granted AND relation IS NOT NULL GROUP BY relation HAVING count(*) > 1"
        return self.control.value(f"SELECT EXISTS ({query})") == "t"

    def drive(self):
        """Waits until each session is idle or blocked, and gives the steps that have ended with their replies."""
        ended, quiet = [], 0
        while quiet < 2 and (busy := [session for session in self.sessions if session.step is not None]):
            quiet += 1
            for session in busy:
                if (reply := session.connection.reply()) is not None:
                    ended.append((session.step, list(reply)))
                    session.step, quiet = None, 0
                elif not self.is_blocked(session):
                    quiet = 0
            busy[-1].connection.wait(0.002)
        return ended

    def cancel(self, session):
        """Gives the steps that have ended till the session was idle."""
        ended = []
        self.control.ask(f"SELECT pg_cancel_backend({session.process})")
        while session.step is not None:
            ended += self.drive()
        return ended

    def complete(self, ended):
        self.parts += sorted([f"step {shown(step)}: <... completed>", *reply] for step, reply in ended)

    def run_block(self, session, head, text):
        """Runs a setup or teardown block, which is cancelled where it waits, and tells whether it was not refused."""
        session.ask(head, text)
        ended = self.drive()
        if session.step is not None:
            ended += self.cancel(session)
        [(_, reply)] = ended
        self.parts.append([head, *reply])
        return not is_refused(reply)

    def set_up(self):
        blocks = [(f"setup {number}", text) for number, text in enumerate(self.spec.setups, 1)]
        done = all(self.run_block(self.sessions[0], *block) for block in blocks)
        done = done and all(
            self.run_block(session, f"session {shown(own.name)} setup", own.setup)
            for session, own in zip(self.sessions[1:], self.spec.sessions)
            if own.setup is not None
        )
        if not done:
            self.parts.append(["setup failed"])
        return done

    def go_through(self, permutation):
        for step in permutation:
            number, text = self.spec.steps[step]
            session, name = self.sessions[number], shown(step)
            if session.step is not None:
                blocked = shown(self.spec.sessions[number - 1].name)
                self.parts.append([f"step {name}: not given, session {blocked} is blocked"])
                return
            facts, place = self.facts_at(session, text), len(self.parts)
            session.ask(step, text)
            ended = self.drive()
            own = [reply for other, reply in ended if other == step and session.step is None]
            self.parts.append([f"step {name}: {text}", *own[0]] if own else [f"step {name}: {text} <waiting ...>"])
            self.complete([(other, reply) for other, reply in ended if not own or other != step])
            self.note(place, facts)

    def note(self, place, facts):
        """The facts stand for the parts from this place on."""
        for part in range(place, len(self.parts)):
            self.facts[part] |= facts

    def cancel_all(self):
        place = len(self.parts)
        for session in self.sessions:
            if session.step is not None:
                facts = self.facts_at(session, "")
                self.complete(self.cancel(session))
                self.note(place, facts)

    def tear_down(self):
        control, *others = self.sessions
        for session, own in zip(others, self.spec.sessions):
            if own.teardown is not None:
                self.run_block(session, f"session {shown(own.name)} teardown", own.teardown)
        self.close(others)
        self.sessions = [control]
        if self.spec.teardown is not None:
            self.run_block(control, "teardown", self.spec.teardown)

    def close(self, sessions):
        """Closes the sessions, and waits until the server has rolled back what was open."""
        processes = ", ".join(str(session.process) for session in sessions) or "0"
        for session in sessions:
            session.connection.close()
        while self.control.value(f"SELECT count(*) FROM pg_stat_activity WHERE pid IN ({processes})") != "0":
            pass


def is_refused(reply):
    return bool(reply) and reply[-1].startswith("ERROR")


def runs_of(report, spec):
    """For each run of a report the steps' names and its heads, each with the lines below it."""
    heads = {f"step {shown(step)}: {text}{end}" for step, (_, text) in spec.steps.items() for end in ("", " <waiting ...>")}
    heads |= {f"step {shown(step)}: <... completed>" for step in spec.steps}
    heads |= {f"session {shown(own.name)} {part}" for own in spec.sessions for part in ("setup", "teardown")}
    pattern = "|".join(map(re.escape, sorted(heads, key=len, reverse=True)))
    pattern = re.compile(rf"^(?:{pattern}|setup \d+|setup failed|teardown|step [^\n]*: not given, [^\n]*)$", re.M)
    return [parts_of(run, pattern) for run in re.split(r"^\nstarting permutation: ", report, flags=re.M)[1:]]


def parts_of(run, pattern):
    """The steps' names and the heads of a run, each with the lines below it."""
    starts = list(pattern.finditer(run))
    parts = [[run.split("\n")[0]]]
    for start, following in zip(starts, starts[1:] + [None]):
        below = run[start.end() + 1 : following.start() if following else len(run)].split("\n")[:-1]
        parts.append([start[0]] + [re.sub(r"^(ERROR: .{5}): .*", r"\1", line) for line in below])
    return in_any_order(parts)


def in_any_order(parts):
    """Steps that complete at the same place are sorted."""
    ordered, together = [], []
    for part in parts:
        if part[0].endswith("<... completed>"):
            together.append(part)
        else:
            ordered += sorted(together) + [part]
            together = []
    return ordered + sorted(together)


def made(number):
    """A whole spec file that the number determines: sessions of a few steps each, in two random orders."""
    pick = random.Random(number)
    widths = {table: pick.randint(1, 3) for table in "tuk"[: pick.randint(1, 3)]}
    lines = ["# made at random"] + [f"setup {block}" for block in setup_blocks(pick, widths)]
    if pick.random() < 0.3:
        lines.append(f"teardown {script(pick, widths)}")
    queues = []
    for letter in "abcdef"[: pick.randint(2, 5)]:
        names = [quoted(pick, f"{letter}{i}") for i in range(pick.randint(3, 6))]
        lines += session_lines(pick, widths, quoted(pick, letter), names)
        queues.append(names)
    lines += [f"permutation {' '.join(merged(pick, queues))} # order {order}" for order in (1, 2)]
    return "\n".join(lines) + "\n"


def setup_blocks(pick, widths):
    """Blocks of one statement and of several."""
    texts = [f"CREATE TABLE {table} ({columns(width)})" for table, width in widths.items()]
    texts += [insert(pick, table, widths[table]) for table in pick.choices(list(widths), k=pick.randint(0, 3))]
    blocks = [[texts[0]]]
    for text in texts[1:]:
        if pick.random() < 0.5:
            blocks.append([])
        blocks[-1].append(text)
    return [block(pick, texts) for texts in blocks]


def session_lines(pick, widths, session, names):
    lines = [f"session {session}"]
    if pick.random() < 0.25:
        lines.append(f"setup {block(pick, first_statements(pick, widths))}")
    texts = [f"{{ BEGIN; {statement(pick, widths)}; }}" if pick.random() < 0.7 else script(pick, widths)]
    texts += [script(pick, widths) for _ in names[1:]]
    lines += [f"step {name} {text}" for name, text in zip(names, texts)]
    if pick.random() < 0.25:
        lines.append(f"teardown {script(pick, widths)}")
    return lines


def first_statements(pick, widths):
    """Statements of a session's setup, of which few are refused and few wait."""
    table = pick.choice(list(widths))
    kinds = ["BEGIN", f"SELECT * FROM {table}", insert(pick, table, widths[table]), statement(pick, widths)]
    return pick.choices(kinds, [8, 8, 8, 4], k=pick.randint(1, 3))


def script(pick, widths):
    """A block of a few statements, which often ends its transaction."""
    texts = [statement(pick, widths) for _ in range(pick.choice([1, 1, 1, 2, 2, 3, 4]))]
    return block(pick, texts + pick.choice([[], [], [], ["COMMIT"], ["ROLLBACK"]]))


def block(pick, texts):
    return "{ " + "; ".join(texts) + pick.choice(["", ";", ";;"]) + " }"


def quoted(pick, name):
    return pick.choice([name] * 8 + [f'"{name}"', f'"the ""{name}"""'])


def merged(pick, queues):
    """Steps of all sessions, each session's in their order."""
    left, steps = [list(names) for names in queues], []
    while len(steps) < 26 and any(left):
        steps.append(pick.choice([names for names in left if names]).pop(0))
    return steps


def statement(pick, widths):
    table = pick.choice(list(widths) + ["n", "m"]) if pick.random() < 0.25 else pick.choice(list(widths))
    kinds = {
        "BEGIN": 6,
        "COMMIT": 9,
        "ROLLBACK": 7,
        f"SELECT * FROM {table}": 25,
        insert(pick, table, pick.randint(1, 4)): 25,
        f"ALTER TABLE {table} ADD COLUMN {pick.choice('bcdef')} integer{pick.choice(['', ' DEFAULT 5'])}": 18,
        f"CREATE TABLE {pick.choice('nm')} ({columns(pick.randint(1, 3))})": 10,
    }
    return pick.choices(list(kinds), list(kinds.values()))[0]


def insert(pick, table, count):
    return f"INSERT INTO {table} VALUES ({', '.join(str(pick.randint(0, 9)) for _ in range(count))})"


def columns(width):
    return ", ".join(f"{name} integer" for name in "abc"[:width])


def difference(server, program, facts, crowded):
    """Which of the differences that README names this is, or `another`. Steps went on together up to there, or didn't."""
    codes = (server[-1], program[-1])
    if codes[0] == "ERROR: 40P01":
        return "deadlock"
    if facts & {"awaited", "queued"} and gets_further(server, program):
        return "front of the queue"
    if codes == ("ERROR: 23505", "ERROR: 42P07"):
        return "name after a wait"
    if codes == ("ERROR: 42701", "ERROR: 42P07"):
        return "column before name"
    if "crowded" in facts or crowded and server[0] == program[0] and sorted(server) == sorted(program):
        return "steps at the same time"
    return "another"


def ends(part):
    """Whether a step ends with this part, and not by a cancel."""
    given = part[0].startswith("step ") and not re.search(r" <waiting \.\.\.>$|: not given, ", part[0])
    return given and part[-1] != "ERROR: 57014"


def gets_further(server, program):
    """Whether a step got further on the server than in the program, where it waits, or waited till its cancel."""
    if ends(server):
        return not (ends(program) and step_of(program) == step_of(server))
    return server[0] == program[0] and program[-1] == "ERROR: 57014" and len(server) > len(program)


def step_of(part):
    return part[0].split(": ")[0]


def first_difference(run, reported):
    """The kind of the first difference of a run, with what the server and the program have there, or None."""
    answered = in_any_order(run.parts)
    if answered == reported:
        return None
    pairs = enumerate(zip(answered + [["nothing more"]], reported + [["nothing more"]]))
    place, (server, program) = next((place, pair) for place, pair in pairs if pair[0] != pair[1])
    crowded = any("crowded" in run.facts[before] for before in range(place + 1))
    return difference(server, program, run.facts[place], crowded), server, program


def compare(control, name, text, found):
    """Counts the first difference, or `the same`, in `found`, and prints it where it is new."""
    done = subprocess.run([PROGRAM, "run"], input=text, capture_output=True, check=False)
    if done.returncode not in (0, 7):
        found["not read"] += 1
        return
    spec = Spec(text.decode())
    reports = runs_of(done.stdout.decode(), spec)
    for number, (permutation, report) in enumerate(zip(spec.permutations, reports, strict=True), 1):
        differs = first_difference(Run(control, spec, permutation), report)
        if differs is not None:
            kind, server, program = differs
            if kind == "another" or kind not in found:
                print(f"{kind}: {name}, permutation {number}\n  server:  {server}\n  program: {program}", flush=True)
            found[kind] += 1
            return
    found["the same"] += 1


def texts_of(words):
    """The texts that the words name, each with a name."""
    if words[0] == "--made":
        for number in range(int(words[1]), int(words[2])):
            yield f"--made {number} {number + 1}", made(number).encode()
    else:
        for path in words:
            with open(path, "rb") as file:
                yield path, file.read()


def tool(name):
    """The path of one of the server's programs, or None."""
    server = shutil.which("postgres")
    places = [os.path.dirname(os.path.realpath(server))] if server else sorted(glob.glob("/usr/lib/postgresql/*/bin"))
    return shutil.which(name, path=os.pathsep.join(places)) if places else None


def server_user():
    """Whose a server's processes are, which refuse to be root's: words for `subprocess.run`, and the owner of its files."""
    if os.geteuid() != 0:
        return {}, os.getuid()
    user = pwd.getpwnam("postgres")
    return {"user": user.pw_uid, "group": user.pw_gid, "extra_groups": []}, user.pw_uid


@contextlib.contextmanager
def server():
    """Where the variables name no server, has one run in a directory of its own, and names it there."""
    if "PGHOST" in os.environ:
        yield
        return
    words, owner = server_user()
    place = tempfile.mkdtemp(prefix="alterlive_server")
    os.chown(place, owner, -1)

    def call(name, *more):
        program = [tool(name), "-D", os.path.join(place, "data"), *more]
        subprocess.run(program, check=True, cwd=place, stdout=subprocess.DEVNULL, **words)

    try:
        call("initdb", "-A", "trust", "-N", "-E", "UTF8", "--locale=C", "-U", "postgres")
        options = " ".join(f"-c {setting}" for setting in SETTINGS + [f"unix_socket_directories={place}"])
        call("pg_ctl", "start", "-w", "-l", os.path.join(place, "log"), "-o", options)
        try:
            os.environ.update(PGHOST=place, PGUSER="postgres", PGDATABASE="postgres")
            yield
        finally:
            call("pg_ctl", "stop", "-w", "-m", "immediate")
    finally:
        shutil.rmtree(place, ignore_errors=True)


def compare_all(words):
    """How many files there are of each kind."""
    control = libpq.Connection()
    control.ask("SET client_min_messages = error")
    print(f"PostgreSQL {int(control.value('SHOW server_version_num')) // 10000}")
    found = collections.Counter()
    for name, text in texts_of(words):
        compare(control, name, text, found)
    control.ask(f"DROP SCHEMA IF EXISTS {SCHEMA} CASCADE")
    control.close()
    return found


def main(words):
    if not words or words[0] == "--made" and len(words) != 3:
        sys.exit(__doc__)
    if libpq.LIBRARY is None or "PGHOST" not in os.environ and tool("initdb") is None:
        print("skipped: no PostgreSQL server is installed")
        return
    if not os.access(PROGRAM, os.X_OK):
        sys.exit(f"no {os.path.normpath(PROGRAM)}: run bin/alterlive once")
    try:
        with server():
            found = compare_all(words)
    except ConnectionError as error:
        sys.exit(f"no server: {error}")
    for kind, count in found.most_common():
        print(f"{count:6} {kind}")
    sys.exit(found["another"] > 0)


if __name__ == "__main__":
    main(sys.argv[1:])
