"""What must hold of an image that tools/image makes, of the packages of tools/package, and of what tools/ping says."""

import hashlib
import io
import json
import os
import re
import shutil
import subprocess
import sys
import tarfile
import tempfile
import time
import urllib.error
import urllib.request

from platforms import elf
from testing import programs
from testing.network import FAULT, Broken, Skipped, case_list, expect, free_port

CASES, case = case_list()
TOOLS = os.path.dirname(os.path.dirname(os.path.abspath(__file__)))


def run_tool(*words):
    """The status of one of the tools, and what it writes to standard error."""
    words = [sys.executable, os.path.join(TOOLS, words[0]), *words[1:]]
    done = subprocess.run(words, stdin=subprocess.DEVNULL, stdout=subprocess.PIPE, stderr=subprocess.PIPE, timeout=50)
    return done.returncode, done.stderr.decode()


# Pings


@case("ResetOfAnotherId")
def a_ping_says_whether_the_proxy_is_there(stage):
    host, port = stage.proxy()
    expect("a ping of the proxy", (0, ""), run_tool("ping", host, "--port", str(port)), *FAULT)
    away = free_port()
    said = f"ping: no answer from {host}, port {away}\n"
    expect("a ping of nobody", (1, said), run_tool("ping", host, "--port", str(away)), *FAULT)


def fetched(url):
    """The status and the body that a URL answers with, once it is served."""
    until = time.monotonic() + 10
    while True:
        try:
            with urllib.request.urlopen(url, timeout=10) as answer:
                return answer.status, answer.read()
        except urllib.error.HTTPError as error:
            return error.code, error.read()
        except urllib.error.URLError as error:
            if time.monotonic() > until:
                raise Broken(f"{url}: {error.reason}") from error
            time.sleep(0.05)


@case("ResetOfAnotherId")
def a_probe_by_http_says_whether_the_proxy_is_there(stage):
    host, port = stage.proxy()
    for asked, status in ((port, 200), (free_port(), 503)):
        http = free_port()
        stage.start([sys.executable, os.path.join(TOOLS, "ping"), host, "--port", str(asked), "--serve", str(http)])
        expect("the status of a probe", status, fetched(f"http://127.0.0.1:{http}/")[0])


@case("ResetOfAnotherId")
def counts_are_served_beside_the_probe(stage):
    path, http = os.path.join(stage.folder, "counts.prom"), free_port()
    host, port = stage.proxy("--stats", "1", "--stats-file", path)
    words = ["ping", host, "--port", str(port), "--serve", str(http), "--counts", path]
    stage.start([sys.executable, os.path.join(TOOLS, words[0]), *words[1:]])
    until, url = time.monotonic() + 10, f"http://127.0.0.1:{http}"
    while fetched(f"{url}/metrics")[0] != 200 and time.monotonic() < until:
        time.sleep(0.1)
    status, body = fetched(f"{url}/metrics")
    expect("whether counts are served", (200, True), (status, b"\ncoap_proxyd_requests_total{" in body))
    expect("the status of a probe", (200, b""), fetched(f"{url}/"))


# Images


def blob(layout, described):
    """The bytes of a blob of a layout, which must be as others describe them."""
    kind, digest = described["digest"].split(":")
    with open(os.path.join(layout, "blobs", kind, digest), "rb") as file:
        data = file.read()
    came = hashlib.sha256(data).hexdigest(), len(data)
    expect("a blob", (digest, described["size"]), came, "the digest", "the size")
    return data


def check_image(layout, path):
    """Has a layout have one image, with this program and what belongs to it. Returns the image's name."""
    with open(os.path.join(layout, "index.json")) as file:
        named = json.load(file)["manifests"][0]
    index = json.loads(blob(layout, named))
    expect("how many images there are", 1, len(index["manifests"]))
    machine = {"x86_64": "amd64", "aarch64": "arm64"}[programs.machine_of(path)]
    platform = index["manifests"][0]["platform"]
    came = platform["architecture"], platform["os"]
    expect("the machine", (machine, "linux"), came, "the processor", "the system")
    manifest = json.loads(blob(layout, index["manifests"][0]))
    config = json.loads(blob(layout, manifest["config"]))
    expect("the user", "65534:65534", config["config"]["User"])
    layer = blob(layout, manifest["layers"][0])
    expect("the sum of the layer", [f"sha256:{hashlib.sha256(layer).hexdigest()}"], config["rootfs"]["diff_ids"])
    with tarfile.open(fileobj=io.BytesIO(layer)) as tar:
        files = {it.name for it in tar.getmembers() if it.isfile()}
        program = tar.extractfile("coap-proxyd").read()
    expect("the files", {"coap-proxyd", "etc/coap-proxyd.toml", "usr/share/doc/coap-proxyd/built-from"}, files)
    with open(path, "rb") as file:
        expect("whether it holds the program", True, program == file.read())
    name = f"coap-proxyd:{config['config']['Labels']['org.opencontainers.image.version']}"
    expect("the name", name, named["annotations"]["org.opencontainers.image.ref.name"])
    return name


def check_archive(archive, layout, name):
    """Has an archive have the files of a layout, and its image be found by its name, if there is a program for that."""
    with tarfile.open(archive) as tar:
        files = {it.name: tar.extractfile(it).read() for it in tar.getmembers() if it.isfile()}
    expect("whether the archive has the same files", True, files == all_files(layout))
    if shutil.which("skopeo"):
        for where in (f"oci-archive:{archive}:{name}", f"oci:{layout}:{name}"):
            words = ["skopeo", "inspect", "--raw", where]
            done = subprocess.run(words, stdout=subprocess.DEVNULL, stderr=subprocess.PIPE, text=True, timeout=50)
            expect(f"what skopeo says of {where}", (0, ""), (done.returncode, done.stderr), *FAULT)


def all_files(folder):
    """The bytes of all files in a folder, by their names."""
    found = {}
    for at, _, names in os.walk(folder):
        for name in names:
            with open(os.path.join(at, name), "rb") as file:
                found[os.path.relpath(os.path.join(at, name), folder)] = file.read()
    return found


def expect_same_files(one, two):
    """Fails where two folders don't have the same files, with the same bytes."""
    files, others = all_files(one), all_files(two)
    expect("which files differ", [], sorted(it for it in {**files, **others} if files.get(it) != others.get(it)))


def check_images(program):
    """Has tools/image make an image of a static program, twice with the same bytes, and none of another."""
    path = os.path.realpath(programs.BEHIND.get(program[-1], program[-1]))
    if not elf.is_elf(programs.beginning(path)):
        raise Skipped("the program is a script")
    with tempfile.TemporaryDirectory(prefix="coap-proxyd-test-") as folder:
        layouts = [os.path.join(folder, name) for name in ("one", "two")]
        if not programs.is_static(path):
            said = f"tools/image: {path} takes a C library, which an image without one doesn't have\n"
            expect("what is said of a dynamic program", (1, said), run_tool("image", layouts[0], path), *FAULT)
            return
        for layout in layouts:
            expect("what is said", (0, ""), run_tool("image", layout, path), *FAULT)
        name, archive = check_image(layouts[0], path), os.path.join(folder, "image.tar")
        expect_same_files(*layouts)
        expect("what is said of the archive", (0, ""), run_tool("image", "--tar", archive, path), *FAULT)
        check_archive(archive, layouts[0], name)


# Kubernetes


def check_manifests(program):
    """Has both Deployments be the same but for their number, with options that there are, the counts where the second
    container serves them, and images with a version."""
    with open(os.path.join(os.path.dirname(TOOLS), "examples", "kubernetes", "coap-proxyd.yaml")) as file:
        first, second = (it[it.index("apiVersion") :] for it in file.read().split("\n---\n")[2:])
    wanted = first.replace("coap-proxyd-1", "coap-proxyd-2").replace('"1"', '"2"')
    expect("the second Deployment", wanted, second.rstrip("\n"))
    args, command = (json.loads(re.search(rf"(?m)^ *{it}: (\[.*\])$", first)[1]) for it in ("args", "command"))
    known = subprocess.run([*program, "--help"], stdout=subprocess.PIPE, text=True, timeout=20).stdout
    expect("which options there aren't", [], [it for it in args if it.startswith("-") and f"{it} " not in known])
    expect("where the counts are", args[args.index("--stats-file") + 1], command[command.index("--counts") + 1])
    version = subprocess.run([*program, "--version"], stdout=subprocess.PIPE, text=True, timeout=20).stdout.split()[1]
    images = dict(re.findall(r"(?m)^ *image: (.*):(.*)$", first))
    expect("the version of the image", version, images.pop("registry.example/coap-proxyd"))
    expect("which other images have no version", [], [it for it in images.values() if not re.match(r"\d+\.\d+", it)])


# Packages


def make_packages(folder):
    """Has tools/package make all packages in a new folder, which is skipped where it can't."""
    os.mkdir(folder)
    words = [os.path.join(TOOLS, "package"), folder]
    done = subprocess.run(words, stdin=subprocess.DEVNULL, stdout=subprocess.PIPE, stderr=subprocess.PIPE, timeout=100)
    if done.returncode:
        raise Skipped(done.stderr.decode().strip())
    made = sorted(os.path.basename(line) for line in done.stdout.decode().splitlines())
    expect("which files it names", made, sorted(os.listdir(folder)))
    return made


def check_packages():
    """Has tools/package make packages of both programs in bin/, twice with the same bytes, which depend on nothing."""
    if not shutil.which("dpkg-deb"):
        raise Skipped("there is no dpkg-deb")
    with tempfile.TemporaryDirectory(prefix="coap-proxyd-test-") as folder:
        one, two = (os.path.join(folder, name) for name in ("one", "two"))
        made = make_packages(one)
        expect("how many there are", 4, len(made))
        make_packages(two)
        expect_same_files(one, two)
        for name in (it for it in made if it.endswith(".deb")):
            fields = subprocess.check_output(["dpkg-deb", "-f", os.path.join(one, name), "Package", "Depends"])
            expect(f"what {name} is and depends on", b"coap-proxyd\n", fields.replace(b"Package: ", b""))
            machine = "x86_64" if "amd64" in name else "aarch64"
            inside = subprocess.check_output(["dpkg-deb", "--fsys-tarfile", os.path.join(one, name)])
            with tarfile.open(fileobj=io.BytesIO(inside)) as tar:
                program = tar.extractfile("./usr/sbin/coap-proxyd").read()
            with open(os.path.join(os.path.dirname(TOOLS), "bin", f"coap-proxyd-{machine}"), "rb") as file:
                expect(f"whether {name} has the program", True, program == file.read())
