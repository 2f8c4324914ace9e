"""The words of the command line: which order they give, or which refusal or usage fault."""
from .started import ran


# Words of the command line, the processes that invoke a read, the replies, the status, and how standard error begins.
WORDS = [
    ("script --concurrency 64 --budget 65536", (63, 64), b"legal\nrefused 2 WrongProcess\n", 0, b"1 of 2 lines was refused, line 2: "),
    ("script --budget 1 --concurrency 1", (0, 1), b"legal\nrefused 2 WrongProcess\n", 0, b"1 of 2 lines was refused, line 2: "),
    ("script --model set --concurrency 3", (2, 3), b"legal\nrefused 2 WrongProcess\n", 0, b"1 of 2 lines was refused, line 2: "),
    ("script --concurrency 1 --strict", (0, 1, 0), b"legal\nrefused 2 WrongProcess\n", 3, b"line 2 was refused, and a strict script "),
    ("script --strict", (0, 1), b"legal\nlegal\n", 0, b""),
    ("script --strict=yes", (), b"", 3, b"error: "),
    ("check -", (0, 1), b"key 7 model register budget 4096 events 2 status alive\nlegal\n", 0, b""),
    ("check - --strict", (), b"", 3, b"error: "),
    ("confirm - /dev/null --concurrency 64", (62, 63), b"linearizable\n", 0, b""),
    ("confirm - /dev/null --model set", (0, 2), b"refused 2 WrongProcess event 1\n", 3, b"The process is not its thread's current one."),
    ("confirm - /dev/null --workers 1", (), b"", 3, b"error: unexpected argument '--workers' found\n"),
    ("confirm - /dev/null --budget 1", (), b"", 3, b"error: unexpected argument '--budget' found\n"),
    ("confirm history.edn", (), b"", 3, b"error: the following required arguments were not provided:\n"),
    ("confirm x.edn y.edn --model stack", (), b"", 3, b"error: --model takes one of "),
    ("confirm x.edn y.edn --concurrency many", (), b"", 3, b"error: --concurrency takes a number, 1 to 64\n"),
    ("confirm x.edn y.edn --concurrency 65", (), b"", 3, b"refused 10 BadConcurrency\n"),
    ("history.edn", (), b"", 3, b"error: history.edn is no command; jepmon check history.edn judges it\n"),
    ("./history", (), b"", 3, b"error: ./history is no command; jepmon check ./history judges it\n"),
    ("chek", (), b"", 3, b"error: unrecognized subcommand 'chek'\n"),
    ("help chek", (), b"", 3, b"error: unrecognized subcommand 'chek'\n"),
    ("help help script", (), b"", 3, b"error: "),
    ("--", (), b"", 3, b"error: no command was given\n"),
    ("-- script", (), b"", 3, b"error: unexpected argument 'script' found\n"),
    ("script --strict --strict", (), b"", 3, b"error: "),
    ("check x.edn --budget 5 --budget 6", (), b"", 3, b"error: "),
    ("scrip", (), b"", 3, b"error: unrecognized subcommand 'scrip'\n"),
    ("script --concurrency -1", (), b"", 3, b"error: unexpected argument '-1' found\n"),
    ("script --concurrency=-1", (), b"", 3, b"refused 10 BadConcurrency\n"),
    ("check x.edn --workers -1", (), b"", 3, b"error: unexpected argument '-1' found\n"),
    ("script --budget -1 x.edn", (), b"", 3, b"error: unexpected argument '-1' found\n"),
    ("script --bogus --budget -1", (), b"", 3, b"error: unexpected argument '--bogus' found\n"),
    ("run --mode -1 --budget -1", (), b"", 3, b"error: unexpected argument '-1' found\n"),
    ("script --concurrency 99999999999999999999", (), b"", 3, b"refused 10 BadConcurrency\n"),
    ("script --concurrency 0 --budget 0", (), b"", 3, b"refused 9 BadBudget\n"),
    ("script --budget many", (), b"", 3, b"error: --budget takes a number, 1 to 65536\n"),
    ("script --model Mutex", (), b"", 3, b"error: --model takes one of "),
    ("script --model", (), b"", 3, b"error: "),
    ("check x.edn --budget 0 --concurrency 0", (), b"", 3, b"refused 9 BadBudget\n"),
    ("check x.edn --concurrency 65 --workers 65", (), b"", 3, b"refused 10 BadConcurrency\n"),
    ("check /dev/null --workers 64", (), b"legal\n", 0, b"no event was read\n"),
    ("script --seed 1", (), b"", 3, b"error: "),
    ("watch", (), b"", 3, b"error: "),
    ("run --concurrency 64", (), b"", 3, b"refused 10 BadConcurrency\n"),
    ("run --concurrency 0 --replicas 0", (), b"", 3, b"refused 10 BadConcurrency\n"),
    ("run --concurrency 64 --replicas 8", (), b"", 3, b"refused 10 BadConcurrency\n"),
    ("run --budget 65537 --concurrency 64", (), b"", 3, b"refused 9 BadBudget\n"),
    ("run --replicas 0", (), b"", 3, b"refused 18 NoSuchReplica\n"),
    ("run --replicas 8", (), b"", 3, b"refused 18 NoSuchReplica\n"),
    ("run --seed -1", (), b"", 3, b"error: unexpected argument '-1' found\n"),
    ("run --seed=-1", (), b"", 3, b"error: --seed takes a number, 0 to 9223372036854775807\n"),
    ("run --seed 9223372036854775808", (), b"", 3, b"error: --seed takes a number, 0 to 9223372036854775807\n"),
    ("run --ops 100001", (), b"", 3, b"error: --ops takes a number, 0 to 100000\n"),
    ("run --keys 0", (), b"", 3, b"error: --keys takes a number, 1 to 64\n"),
    ("run --keys 65", (), b"", 3, b"error: --keys takes a number, 1 to 64\n"),
    ("run --mode loose", (), b"", 3, b"error: --mode takes one of strict, sloppy\n"),
    ("run --faults maybe", (), b"", 3, b"error: --faults takes one of off, on\n"),
    ("run --workers 2", (), b"", 3, b"error: "),
    ("run --seed 9223372036854775807 --ops 0 --keys 64 --replicas 7 --concurrency 63", (), b"legal\n", 0, b""),
]


def run_words():
    """Which words give which order, or which refusal or usage fault. Help goes to standard output, status 0."""
    faults = []
    for words, processes, want, status, errors in WORDS:
        given = "".join(f"{{:type :invoke, :process {p}, :f :read, :value [7 nil]}}\n" for p in processes).encode()
        done = ran(*words.split(), input=given)
        begins = done.stderr.startswith(errors) if errors else not done.stderr
        if (done.stdout, done.returncode) != (want, status) or not begins:
            faults.append(f"{words!r} ended with {(done.returncode, done.stdout, done.stderr[:200])!r}")
    for words in ("--help", "script --help", "help", "help script"):
        done = ran(*words.split())
        if done.returncode != 0 or b"script" not in done.stdout or done.stderr:
            faults.append(f"{words!r} ended with {(done.returncode, done.stdout[:200], done.stderr[:200])!r}")
    return faults


def run_no_text():
    """A word that is not UTF-8 is a usage fault: status 3, and nothing on standard output."""
    done = ran(b"script", b"\xff")
    got = (done.returncode, done.stdout, done.stderr.split(b"\n")[0])
    return [] if got == (3, b"", b"error: the words are no UTF-8") else [f"it ended with {got!r}"]


CASES = {
    "words_of_the_command_line": run_words,
    "words_that_are_no_text": run_no_text,
}
