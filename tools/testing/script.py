"""The script that runs the program: where none is built, it refuses what the program would refuse, and nothing else. Its
sum over the sources is that of the program's crates."""

import functools
import os
import re
import shutil
import subprocess
import tempfile

from testing.network import FAULT, RESULT, expect, expect_in

TOP = os.path.dirname(os.path.dirname(os.path.dirname(os.path.abspath(__file__))))
# A line of the help: an option by its letter, by its name, or both, and perhaps what stands behind it.
OPTION = re.compile(r"^ +(-\w)?(?:, )?(--[a-z-]+)?( <.+?>)?  ", re.MULTILINE)


def forms(letter, name, value):
    """The words by which an option may be given."""
    if not value:
        return [[it] for it in (letter, name) if it]
    short = [[letter, "1"], [f"{letter}1"]] if letter else []
    return short + ([[name, "1"], [f"{name}=1"]] if name else [])


def said(folder, words):
    """The status and the standard error of the script for words and `--help`, in a folder where nothing is built."""
    done = subprocess.run(
        ["sh", os.path.join(folder, "coap-proxyd"), *words, "--help"],
        stdin=subprocess.DEVNULL, stdout=subprocess.PIPE, stderr=subprocess.PIPE, timeout=20,
    )
    return done.returncode, done.stderr.decode().split(";")[0].split(":")[1]


def sum_in(folder):
    """The sum over the sources that the script prints in a folder."""
    words = [os.path.join(folder, "coap-proxyd"), "--sum"]
    return subprocess.run(words, stdin=subprocess.DEVNULL, stdout=subprocess.PIPE, timeout=20, check=True).stdout


def check_sum(program):
    """Has the sum over the sources change with those of the program's crates, and with nothing else."""
    with tempfile.TemporaryDirectory(prefix="coap-proxyd-test-") as folder:
        shutil.copy(os.path.join(TOP, "coap-proxyd"), folder)
        shutil.copytree(os.path.join(TOP, "crates", "proxyd", "src"), os.path.join(folder, "crates", "proxyd", "src"))
        listed, main = os.path.join(folder, "crates.txt"), os.path.join(folder, "crates", "proxyd", "src", "main.rt")
        with open(os.path.join(TOP, "crates.txt")) as file:
            crates = file.read()
        sums = []
        for uses in (crates, f"{crates}of_ones_own: coap_proxyd\n", crates.replace("coap_core:", "coap_core: hex", 1)):
            with open(listed, "w") as file:
                file.write(uses)
            sums.append(sum_in(folder))
        with open(main, "a") as file:
            file.write("\n")
        sums.append(sum_in(folder))
        expect("which sums are new", [True, False, True, True], [it not in sums[:n] for n, it in enumerate(sums)])


def installed(folder, prefix, word="--install"):
    """The status of the script when it installs under a prefix, or takes that away again, and its standard error."""
    words = [os.path.join(folder, "coap-proxyd"), word, prefix]
    env = {name: value for name, value in os.environ.items() if name != "DESTDIR"}
    done = subprocess.run(words, stdin=subprocess.DEVNULL, capture_output=True, env=env, timeout=20)
    return done.returncode, done.stderr.decode()


def read(*names):
    """The text of a file in a folder."""
    with open(os.path.join(*names), encoding="utf-8") as file:
        return file.read()


def left_in(folder):
    """The files and folders below a folder."""
    found = [os.path.join(at, name) for at, folders, files in os.walk(folder) for name in folders + files]
    return sorted(os.path.relpath(path, folder) for path in found)


def copy_sources(folder):
    """Puts a part of the repository into a folder, in which nothing is built."""
    for name in ("coap-proxyd", "crates.txt"):
        shutil.copy(os.path.join(TOP, name), folder)
    for name in ("docs", "examples", "tools", os.path.join("crates", "proxyd", "src")):
        shutil.copytree(os.path.join(TOP, name), os.path.join(folder, name))


def put_program(folder, name, program, noted):
    """Puts a program into a folder under a name, beside what says which sources it is built from."""
    path = os.path.join(folder, name)
    os.makedirs(os.path.dirname(path), exist_ok=True)
    if os.path.lexists(path):
        os.remove(path)
    os.symlink(program, path)
    with open(os.path.join(os.path.dirname(path), "built-from"), "wb") as file:
        file.write(noted)
    return path


def which(folder):
    """The status of the script when it is to say which program it would run, and what it writes."""
    words = [os.path.join(folder, "coap-proxyd"), "--which"]
    done = subprocess.run(words, stdin=subprocess.DEVNULL, capture_output=True, text=True, timeout=20)
    return done.returncode, done.stdout, done.stderr


def check_choice(program):
    """Has the script choose the program in bin/ that is for this machine and starts, and say so where none does."""
    none = "coap-proxyd: there is no program that is built from these sources\n"
    machine = os.uname().machine
    with tempfile.TemporaryDirectory(prefix="coap-proxyd-test-") as folder:
        copy_sources(folder)
        noted = sum_in(folder)
        put_program(folder, "bin/coap-proxyd-other", program[-1], noted)
        said = f"coap-proxyd: bin/ has no program for this machine, {machine}\n"
        expect("what is said where bin/ has none", (1, "", said + none), which(folder), *RESULT)
        path = put_program(folder, f"bin/coap-proxyd-{machine}", "/bin/false", noted)
        said = f"coap-proxyd: {path} doesn't start here\n"
        expect("what is said of one that fails", (1, "", said + none), which(folder), *RESULT)
        put_program(folder, f"bin/coap-proxyd-{machine}", program[-1], noted)
        expect("which it is", (0, f"{path}\n", ""), which(folder), *RESULT)
        put_program(folder, f"bin/coap-proxyd-{machine}", program[-1], b"1 2\n")
        expect("what is said of other sources", (1, "", none), which(folder), *RESULT)


def check_stale(program):
    """Has the script give the help, and say what can be done, where bin/ is of other sources and there is no kit."""
    with tempfile.TemporaryDirectory(prefix="coap-proxyd-test-") as folder:
        copy_sources(folder)
        path = put_program(folder, f"bin/coap-proxyd-{os.uname().machine}", program[-1], b"1 2\n")
        env = {**os.environ, "PATH": "/usr/bin:/bin"}
        run = functools.partial(subprocess.run, stdin=subprocess.DEVNULL, capture_output=True, text=True, timeout=20, env=env)
        script = os.path.join(folder, "coap-proxyd")
        for words in (["--help"], ["-A", "::1", "--help"], ["-p", "5683", "--version"]):
            wanted = (0, run([*program, *words]).stdout, "")
            done = run([script, *words])
            expect(f"what comes of {words}", wanted, (done.returncode, done.stdout, done.stderr), *RESULT)
        done = run([script, "--replay"])
        said = "coap-proxyd: the sources were changed since bin/ was made, and rt isn't in PATH to build them; "
        wanted = (1, "", f"{said}{path} runs as it is\n")
        expect("what is said", wanted, (done.returncode, done.stdout, done.stderr), *RESULT)


def check_installed(program, prefix):
    """Has no file that was installed name a place elsewhere, and its configuration and its tools work there."""
    unit = read(prefix, "lib", "systemd", "system", "coap-proxyd.service")
    expect_in("the unit", f"\nExecStart={prefix}/sbin/coap-proxyd ", unit)
    texts = {name: read(prefix, name) for name in left_in(prefix) if name.endswith((".conf", ".service", ".8", ".md"))}
    expect("who names another prefix", [], [name for name, text in texts.items() if "/usr/local/" in text])
    config = os.path.join(prefix, "etc", "coap-proxyd.toml")
    words = [*program, "--replay", "--config", config]
    expect("what the program says of it", 0, subprocess.run(words, stdin=subprocess.DEVNULL, timeout=20).returncode)
    tools = {name: ["--help"] for name in ("fleet", "from-capture", "ladder", "ping", "spread", "watch")}
    for name, words in {**tools, "check-config": [config]}.items():
        tool = os.path.join(prefix, "bin", f"coap-proxyd-{name}")
        done = subprocess.run([tool, *words], stdin=subprocess.DEVNULL, capture_output=True, timeout=20)
        expect(f"what {name} does", (0, b""), (done.returncode, done.stderr), *FAULT)
        expect(f"whether {name} says something", True, len(done.stdout) > 0)
    expect("what the last one says", b"accepted\n", done.stdout)


def check_pages(prefix):
    """Has each page that is installed say of the tools and the examples that it names and that aren't installed that
    they are in the repository alone."""
    share, silent = os.path.join(prefix, "share"), []
    documents = os.path.join(share, "doc", "coap-proxyd")
    there = {"tools": os.path.join(share, "coap-proxyd", "tools"), "examples": os.path.join(documents, "examples")}
    for page in (it for it in os.listdir(documents) if it.endswith(".md")):
        text = read(documents, page)
        for name in set(re.findall(r"\b(?:tools|examples)/\w[\w.-]*\w", text)):
            kind, _, file = name.partition("/")
            says = any(f"`{name}`" in line and "in the repository alone" in line for line in text.splitlines())
            if not os.path.exists(os.path.join(there[kind], file)) and not says:
                silent.append((page, name))
    expect("which names that aren't installed pages don't tell of", [], sorted(silent))


def check_uninstall(folder, prefix):
    """Has the script leave a configuration that was changed, and no empty folder."""
    with open(os.path.join(prefix, "etc", "coap-proxyd.toml"), "a") as file:
        file.write("# mine\n")
    expect("what comes of uninstalling", (0, ""), installed(folder, prefix, "--uninstall"), *FAULT)
    expect("what stays", ["etc", os.path.join("etc", "coap-proxyd.toml")], left_in(prefix))


def check_install(program):
    """Has the script install a program that was built here, where the one in bin/ is built from other sources."""
    with tempfile.TemporaryDirectory(prefix="coap-proxyd-test-") as folder:
        copy_sources(folder)
        put_program(folder, "crates/proxyd/out/proxyd", program[-1], sum_in(folder))
        put_program(folder, f"bin/coap-proxyd-{os.uname().machine}", program[-1], b"1 2\n")
        prefix = os.path.join(folder, "prefix")
        expect("what comes of it", (0, ""), installed(folder, prefix), *FAULT)
        expect("whether it may run", True, os.access(os.path.join(prefix, "sbin", "coap-proxyd"), os.X_OK))
        check_installed(program, prefix)
        check_pages(prefix)
        check_uninstall(folder, prefix)
        refused = "coap-proxyd: the prefix may have letters, digits and / . _ + - alone\n"
        expect("what comes of a blank", (2, refused), installed(folder, f"{prefix} of mine"), *FAULT)


def check_third_parties(_):
    """Has the list of what others wrote name each crate of the kit that the program's crates stand on."""
    uses = {}
    for line in read(TOP, "crates.txt").splitlines():
        name, _, others = line.partition("#")[0].partition(":")
        uses[name.strip()] = others.split()
    wanted, left = set(), ["proxyd"]
    while left:
        crate = left.pop()
        wanted |= {crate} - set(uses)
        left += uses.get(crate, [])
    text = read(TOP, "docs", "THIRD_PARTY.md")
    listed = set(re.findall(r"^\| `(\w+)` \|", text, re.MULTILINE))
    listed |= set(re.findall(r"`(\w+)`", re.search(r"^.* name no other work .*$", text, re.MULTILINE)[0]))
    expect("how many crates of the kit there are", True, len(wanted) > 5)
    expect("which of them aren't listed", set(), wanted - listed)


def completed_words():
    """The options that bash completes where no value is due."""
    return set(re.search(r'-W "(-A [^"]*)"', read(TOP, "examples", "coap-proxyd.bash"))[1].split())


def check_options(program):
    """Has the script know each option that the help of a program names, and no other."""
    text = subprocess.run([*program, "--help"], stdout=subprocess.PIPE, text=True, timeout=20).stdout
    options = OPTION.findall(text[text.index("\nOptions:") :])
    expect("how many options there are", True, len(options) > 10)
    completed = completed_words()
    with tempfile.TemporaryDirectory(prefix="coap-proxyd-test-") as folder:
        for name in ("coap-proxyd", "crates.txt"):
            shutil.copy(os.path.join(TOP, name), folder)
        for option in options:
            missing = set(filter(None, option[:2])) - completed - {"-h", "-V"}
            expect("which options bash doesn't complete", set(), missing)
            for words in forms(*option):
                wanted = (1, " nothing is built from these sources yet")
                expect(f"what is said of {words}", wanted, said(folder, words), *FAULT)
        for words in (["--colour"], ["-q"], ["--replay", "run.events"]):
            expect(f"what is said of {words}", (2, " the words aren't understood"), said(folder, words), *FAULT)
