"""Manners, tried with real files, pipes and devices: nobody sees a traceback, and nothing is written where something failed.
No rule speaks of the command; what it must not do is to give out a failure as an answer (O4, P2)."""
import contextlib
import os
import pty
import shutil
import signal
import stat
import subprocess
import time
from unittest import mock

import common
from common import PAIR, PLAIN
from oatmist import library

TEN_MEGABYTES = 10 * 1024 * 1024


class Quiet(common.Case):
    """A case that looks for tracebacks, and for files left behind."""

    def told(self, answer, status, *parts):
        """The command ended so, with one line on standard error that says these parts."""
        self.assertNotIn("Traceback", answer.told)
        self.assertEqual((answer.status, answer.told.count("\n")), (status, 1), answer.told)
        self.assertLess(len(answer.told), 1400)
        for part in parts:
            self.assertIn(part, answer.told)

    def answered(self, answer, said):
        """The command answered on standard output, or told in one line why it could not; which of these, by the exit status."""
        self.assertNotIn("Traceback", answer.told)
        self.assertEqual((answer.out == "", answer.told.count("\n")), (answer.status == 2, int(answer.status == 2)), said)
        return answer.status

    def left(self, *names):
        self.assertEqual(sorted(os.listdir(self.folder)), sorted(names))


class Output(Quiet):
    """Output that fails: it is no answer (O4)."""

    def test_full_device(self):
        for verb in ("mark", "next", "lint", "show", "make"):
            answer = self.shell(f"$oatmist {verb} $PAIR >/dev/full")
            self.told(answer, 2, "standard output: No space left on device")
        self.told(self.shell("$oatmist make $PAIR -o /dev/full"), 2, "/dev/full: No space left on device")
        self.told(self.shell("$oatmist --help >/dev/full"), 2, "standard output: No space left on device")

    def test_closed_output(self):
        for verb in ("mark", "show", "make"):
            self.told(self.shell(f"$oatmist {verb} $PAIR >&-"), 2, "standard output is closed")
        self.assertEqual(self.shell("$oatmist mark nothing 2>&-"), (2, "", ""))
        self.assertEqual(self.shell("$oatmist mark nothing 2>/dev/full"), (2, "", ""))

    def test_reader_gone(self):
        name = "a" * 100  # a pipe has room for 65,536 bytes, and the reader takes one line
        path = self.write("many.txt", (PLAIN + "\n{a}" * 1024).replace("-a-", f"-{name}-").replace("{a}", "{" + name + "}"))
        for unbuffered in ("", "1"):
            answer = self.shell(f"$oatmist show {path} | {{ read -r line; echo \"$line\"; }}; echo ${{PIPESTATUS[0]}}", PYTHONUNBUFFERED=unbuffered)
            self.assertEqual(answer, (0, f"actions {name}\n2\n", ""))
        answer = self.shell("{ sleep 0.3; $oatmist mark $PAIR; echo $? >status; } | true")
        self.assertEqual((answer.told, self.read("status")), ("", b"2\n"))

    def test_full_disk(self):
        """A file that cannot be written whole leaves the one that was there."""
        self.write("made", "before")
        answer = self.shell("ulimit -f 0; trap '' XFSZ; $oatmist make $PAIR -o made")
        self.told(answer, 2, "made: File too large")
        self.assertEqual(self.read("made"), b"before")
        self.left("made")

    def test_all_or_none(self):
        """Of several files none is written where one cannot be."""
        os.makedirs("out/Consumer.aut")
        self.told(self.call("show", PAIR, "--aut", "out"), 2, "out/Consumer.aut: this is a folder")
        self.assertEqual(os.listdir("out"), ["Consumer.aut"])

    def test_terminal(self):
        """A sheet is not written to a terminal."""
        reader, terminal = pty.openpty()
        self.addCleanup(os.close, reader)
        answer = subprocess.run([common.COMMAND, "make", PAIR], stdin=subprocess.DEVNULL, stdout=terminal, stderr=subprocess.PIPE, timeout=60)
        os.close(terminal)
        self.assertEqual((answer.returncode, answer.stderr), (2, b"oatmist: a sheet is no text for a terminal: give -o FILE\n"))

    def test_folder_and_no_folder(self):
        os.mkdir("there")
        self.told(self.call("make", PAIR, "-o", "there"), 2, "there: this is a folder: name a file in it")
        self.told(self.call("make", PAIR, "-o", "not/there"), 2, "not/there: its folder is not there")
        self.told(self.call("make", PAIR, "-o", "bad\0name"), 2, "this is no name of a file")
        self.told(self.call("show", PAIR, "--aut", PAIR), 2, "this is no folder")
        self.left("there")

    def test_never_over_its_input(self):
        path = self.write("text", PLAIN)
        os.symlink("text", "link")
        for output in ("text", "link", "./text"):
            self.told(self.call("make", path, "-o", output), 2, "this file is read: give another one to write")
        self.told(self.shell("$oatmist make - -o text <text"), 2, "text: this file is read")
        self.assertEqual(self.read("text"), PLAIN.encode())

    def test_never_over_a_file_that_its_input_names(self):
        """Also where the file is an .aut file that a text names, and where the name of a component gives the output's."""
        component = b'des (0, 1, 1)\n(0, "a", 0)\n'
        self.write("sender.aut", component + b"\n")
        self.write("system.txt", "component sender from sender.aut\nsteps {a}")
        self.write("other.aut", component)
        for words in (("show", "system.txt", "--aut", "."), ("show", "system.txt", "-o", "sender.aut"), ("show", "sender.aut", "--aut", "."),
                      ("make", "system.txt", "-o", "sender.aut"),
                      ("show", "other.aut", "--names", "system.txt", "--aut", "."), ("make", "other.aut", "system.txt", "-o", "sender.aut")):
            self.told(self.call(*words), 2, "sender.aut: this file is read: give another one to write")
        for verb, drawn in (("graph", "drawn.dot"), ("picture", "drawn.svg")):
            os.symlink("sender.aut", drawn)
            self.told(self.call(verb, "system.txt", "-o", drawn), 2, drawn + ": this file is read")
        self.assertEqual(self.read("sender.aut"), component + b"\n")
        self.left("drawn.dot", "drawn.svg", "other.aut", "sender.aut", "system.txt")

    def test_a_file_that_is_not_to_be_written(self):
        self.write("made", "before")
        with mock.patch("os.access", return_value=False):
            self.told(self.call("make", PAIR, "-o", "made"), 2, "made: Permission denied")
        self.assertEqual(self.read("made"), b"before")
        self.left("made")

    def test_link_and_permissions_stay(self):
        self.write("made", "before")
        os.chmod("made", 0o640)
        os.symlink("made", "link")
        self.assertEqual(self.call("make", PAIR, "-o", "link"), (0, "", ""))
        self.assertTrue(os.path.islink("link"))
        self.assertEqual((len(self.read("made")), stat.S_IMODE(os.stat("made").st_mode)), (94, 0o640))
        self.left("made", "link")

    def test_pipe_as_file(self):
        self.assertEqual(self.shell("mkfifo pipe; $oatmist make $PAIR -o pipe & wc -c <pipe; wait").out.strip(), "94")
        self.assertTrue(stat.S_ISFIFO(os.stat("pipe").st_mode))
        self.assertEqual(self.shell("$oatmist make $PAIR -o /dev/stdout | wc -c").out.strip(), "94")


class Input(Quiet):
    """Input that is not what it should be: a sheet that the desk refuses (R1, R2), or no sheet at all."""

    def test_no_file(self):
        for verb in ("mark", "next", "lint", "show", "make"):
            self.told(self.call(verb, "nothing"), 2, "nothing: there is no such file")
            self.told(self.call(verb, "."), 2, ".: this is a folder: name a file in it")
            self.told(self.call(verb, "\0"), 2, "this is no name of a file")
            self.told(self.call(verb, "x" * 5000), 2, "File name too long")
        self.told(self.call("mark", PAIR, "nothing"), 2, "nothing: there is no such file")
        self.told(self.call("show", PAIR, "--names", "nothing"), 2, "nothing: there is no such file")

    def test_junk(self):
        dice = common.dice(1)
        for _ in range(60):
            path = self.write("junk", b"\xfe" + bytes(dice.choice((dice.randrange(256), 0, 10, 32, 123)) for _ in range(dice.choice((1, 30, 3000)))))
            for words in (("mark", path), ("mark", PAIR, path), ("show", path, "--names", PAIR), ("lint", path)):
                self.told(self.call(*words), 2, path)
        self.left("junk")

    def test_whole_sheets_of_junk(self):
        dice = common.dice(2)
        for _ in range(200):
            path = self.write("junk.sheet", bytes(dice.choice((dice.randrange(256), 0)) for _ in range(dice.choice((0, 30, 3000, 17000)))) + b"\0FS")
            for words in (("mark", path), ("next", PAIR, path)):
                answer = self.call(*words)
                self.assertEqual((answer.status, answer.out[:9], answer.told), (1, "refused (", ""))
            self.told(self.call("show", path), 1, f"{path}: no sheet, refused by ")

    def test_empty(self):
        path = self.write("empty", "")
        self.told(self.call("mark", path), 2, f"{path}:1: there is no component")
        system = self.write("system", PLAIN.replace("\nsteps", ""))
        for verb in ("mark", "next", "make", "picture"):
            self.told(self.call(verb, PAIR, path), 2, f"{path}: nothing is written here: write steps or columns; an execution without steps is "
                      "the word 'steps' alone")
            self.told(self.call(verb, system, system), 2, f"{system}: this is a system without an execution: write 'steps' and the steps, "
                      "or 'columns' and the columns")
        for model, told in ((path, "nothing is written here"), (system, "a system without an execution")):
            self.told(self.call("class", system, self.folder, "--model", model), 2, told)
        self.write("none", "steps")
        self.assertEqual(self.call("mark", PAIR, "none").out.partition("\n")[0], "accepted: 0 steps, restated in 0")

    def test_ten_megabytes_in_one_line(self):
        begun = time.monotonic()
        for content in (b"x" * TEN_MEGABYTES, b"{" * TEN_MEGABYTES, b"\xff" * TEN_MEGABYTES, b"\0" * TEN_MEGABYTES + b"FS"):
            path = self.write("long", content)
            for words in (("mark", path), ("mark", PAIR, path)):
                self.told(self.call(*words), 2, "more than 1,048,576 bytes")
        self.told(self.shell("yes | $oatmist mark -"), 2, "standard input: more than 1,048,576 bytes")
        self.told(self.shell("$oatmist mark /dev/zero"), 2, "/dev/zero: more than 1,048,576 bytes")
        self.assertLess(time.monotonic() - begun, 20)

    def test_as_long_as_a_text_may_be(self):
        front = PLAIN + "\n#"
        for more, status in ((0, 0), (1, 2)):
            path = self.write("long", front + "x" * (1048576 - len(front) + more))
            self.assertEqual(self.call("mark", path).status, status)
            self.assertEqual(self.shell("$oatmist mark - <$path", path=path).status, status)

    def test_long_lines(self):
        """In every place where a line is taken apart, the time grows with its length and no faster."""
        begun = time.process_time()
        for front, part in (("", "x"), ("", "{"), ("", "{a}"), ("", "[["), ("component ", "x"), ("component P\nstates ", "s "), ("actions ", "a[1]"),
                            ("component P[", "1+"), ("component P[", "("), ("component P for ", "i in "), ("component P for i in 0..", "1*"),
                            (PLAIN, " {a"), (PLAIN, "{a, "), (PLAIN + " {", "a, "), (PLAIN, " raw"), (PLAIN + " raw 0x", "f"), ("s -", "a-"),
                            (PLAIN[:-5], "s -> s "), ("component P\nstates s\ninitial s\ns -", " "), ("# ", "#"), ("component P from ", "../"), ("component P for i in 0", " "), ("component P for i in 0..", " "),
                            ("component P[i] for i in 0..1", ", j in 0..1"), ("component P[", " "), ("[", "a")):
            for end in ("", "x"):
                path = self.write("long", (front + part * (300000 // len(part)) + end))
                self.told(self.call("mark", path), 2)
        path = self.write("long.aut", "des (0,1,1)\n(0," + " " * 300000 + "x")
        self.told(self.call("mark", path), 2)
        self.assertLess(time.process_time() - begun, 30)

    def test_control_characters(self):
        path = self.write("bad.txt", PLAIN + "\n{\x1b[31m}\n")
        self.told(self.call("mark", path), 2, f"{path}:6: the control character <U+001B>: delete it")
        path = self.write("bi\x1bdi\u202e.txt", "component P\nstates s\u202et")
        answer = self.call("mark", path)
        self.told(answer, 2, "bi<U+001B>di<U+202E>.txt:2: ", "delete the character <U+202E>, which cannot be seen")
        self.assertTrue(answer.told[:-1].isprintable())

    def test_words_own_characters(self):
        path = self.write("word.txt", PLAIN.replace("-a->", "–a–>"))
        self.told(self.call("mark", path), 2, f"{path}:4: ", "instead of – write -")
        path = self.write("quotes.txt", PLAIN + "\n{“a”}")
        self.told(self.call("mark", path), 2, f"{path}:6: ", "write a")
        path = self.write("word.docx", b"PK\x03\x04\x14\0\x06\0\x08\0\xb7\xac" + bytes(range(256)))
        self.told(self.call("mark", PAIR, path), 2, f"{path}:1: this is no UTF-8 text")

    def test_standard_input(self):
        self.told(self.shell("$oatmist mark - <&-"), 2, "standard input is closed")
        self.told(self.shell("$oatmist mark - <."), 2, "standard input: this is a folder")
        self.told(self.shell("echo component | $oatmist mark -"), 2, "standard input:1: 'component' is followed by one name")
        self.assertEqual(self.shell("cat $PAIR | $oatmist mark - | head -n 1").out, "accepted: 4 steps, restated in 3\n")

    def test_names_in_a_plain_terminal(self):
        path = self.write("greek.txt", PLAIN.replace("-a->", "-άνοιγμα->") + " {άνοιγμα}")
        answer = self.shell("$oatmist mark $path", PYTHONIOENCODING="ascii", path=path)
        self.assertEqual((answer.status, answer.told), (0, ""))
        self.assertIn("\\u03ac", answer.out)


class Interrupted(Quiet):
    """An interrupt is no answer (D1): Ctrl-C ends the command as the signal does, and leaves nothing behind."""

    def test_waiting_for_input(self):
        waiting = self.start([common.COMMAND, "make", "-", "-o", "made"])
        time.sleep(1)
        waiting.send_signal(signal.SIGINT)
        self.assertEqual(waiting.wait(20), -signal.SIGINT)
        self.assertEqual(waiting.stderr.read(), b"")
        self.left()

    def test_at_any_time(self):
        """Also while Python itself starts: the command ends by the signal, or it came too early and all is done."""
        for wait in range(0, 160, 4):
            running = self.start([common.COMMAND, "make", PAIR, "-o", "made"])
            time.sleep(wait / 1000)
            running.send_signal(signal.SIGINT)
            _, told = running.communicate(timeout=20)
            self.assertEqual(told, b"")
            self.assertIn((running.returncode, os.listdir(self.folder)), ((-signal.SIGINT, []), (-signal.SIGINT, ["made"]), (0, ["made"])))
            with contextlib.suppress(FileNotFoundError):
                os.remove("made")

    def test_in_the_background(self):
        """Interrupts that the caller has ignored stay so."""
        for command in ([common.COMMAND], ["python3", "-m", "oatmist"]):
            waiting = self.start([*command, "make", "-", "-o", "made"], signal.SIG_IGN)
            time.sleep(1)
            waiting.send_signal(signal.SIGINT)
            with open(PAIR, "rb") as file:
                _, told = waiting.communicate(file.read(), 20)
            self.assertEqual((waiting.returncode, told, len(self.read("made"))), (0, b"", 94))

    def start(self, words, interrupt=signal.SIG_DFL):
        """A process for which an interrupt is this."""
        started = subprocess.Popen(words, stdin=subprocess.PIPE, stderr=subprocess.PIPE, preexec_fn=lambda: signal.signal(signal.SIGINT, interrupt),
                                   env={**os.environ, "PYTHONPATH": os.path.join(common.TOP, "python")})
        self.addCleanup(started.stdin.close)
        self.addCleanup(started.stderr.close)
        return started


class Places(Quiet):
    """The answer is the desk's (G1) from any folder, through a link, as a module and installed; without a desk there is none."""

    def test_link_and_folder(self):
        os.symlink(common.COMMAND, "desk")
        self.assertEqual(self.shell("./desk mark $PAIR | head -n 1").out, "accepted: 4 steps, restated in 3\n")
        os.symlink(common.TOP, "top")
        self.assertEqual(self.shell("cd / && \"$OLDPWD\"/top/oatmist mark $PAIR | head -n 1").out, "accepted: 4 steps, restated in 3\n")

    def test_no_python(self):
        self.told(self.shell("PATH=$PWD \"$oatmist\" mark $PAIR"), 2, "oatmist: this needs python3")

    def test_library_built_where_missing(self):
        """A checkout whose builder is told here: it is asked each time, and what it says goes to standard error."""
        shutil.copytree(os.path.join(common.TOP, "python"), "python")
        for name in ("oatmist", "VERSION"):
            shutil.copy(os.path.join(common.TOP, name), name)
        os.mkdir("tools")
        first = "env -u OATMIST_LIBRARY ./oatmist mark $PAIR | head -n 1; exit ${PIPESTATUS[0]}"
        self.told(self.shell(first), 2, "no checkout to build it in")
        self.write("tools/build", "#!/bin/sh\necho no proof >&2; exit 1\n")
        self.told(self.shell(first), 2, "tools/build: the library could not be built: Permission denied")
        os.chmod("tools/build", 0o755)
        answer = self.shell(first)
        self.assertEqual((answer.status, answer.out), (2, ""))
        self.assertRegex(answer.told, r"^no proof\n.*tools/build: the library could not be built\n$")
        self.write("tools/build", f"#!/bin/sh\n[ \"$*\" = shared ] && mkdir -p target/staticlib && cp {library.build()} target/staticlib && echo built\n")
        for _ in range(2):
            self.assertEqual(self.shell(first), (0, "accepted: 4 steps, restated in 3\n", ""))

    def test_another_library(self):
        with open("/proc/self/maps", encoding="utf-8") as file:
            other = next(line.split()[-1] for line in file if "libc.so" in line)
        self.told(self.shell("OATMIST_LIBRARY=$other $oatmist mark $PAIR", other=other), 2,
                  f"{other}: the library has no call oatmist_version: it belongs to another version of the desk")

    def test_module(self):
        answer = subprocess.run(["python3", "-m", "oatmist", "mark", PAIR], stdout=subprocess.PIPE,
                                env={**os.environ, "PYTHONPATH": os.path.join(common.TOP, "python")})
        self.assertEqual((answer.returncode, answer.stdout[:17]), (0, b"accepted: 4 steps"))

    def test_installed(self):
        made = subprocess.run(["python3", "-c", "import sys; sys.path.insert(0, sys.argv[1]); import package; print(package.build_wheel('.'))",
                               os.path.join(common.TOP, "tools")], stdout=subprocess.PIPE, check=True, env={**os.environ, "PYTHONDONTWRITEBYTECODE": "1"})
        done = self.shell(f"python3 -m pip install --quiet --no-index --no-deps --disable-pip-version-check --target installed {made.stdout.decode().strip()}")
        self.assertEqual(done.status, 0, done.told)
        answer = self.shell("env -u OATMIST_LIBRARY PYTHONPATH=$PWD/installed $PWD/installed/bin/oatmist mark $PAIR | head -n 1")
        self.assertEqual(answer, (0, "accepted: 4 steps, restated in 3\n", ""))
        answer = self.shell("rm installed/oatmist/liboatmist.so; PYTHONPATH=$PWD/installed $PWD/installed/bin/oatmist mark $PAIR")
        self.told(answer, 2, "there is no liboatmist.so beside the package and no checkout to build it in: set OATMIST_LIBRARY to its path")
