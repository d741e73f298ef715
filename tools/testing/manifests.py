"""What must hold of the manifests for Kubernetes (examples/kubernetes): kubectl knows all that stands in them, what
they name is there, and their containers, run as they say, answer where the Service, the probes and Prometheus ask."""

import http.client
import json
import os
import re
import socket
import subprocess
import sys
import time

from testing.coap import CON, EMPTY, RST, message, read
from testing.namespaces import made_in, namespaces, received, socket_in
from testing.network import FAULT, Broken, Skipped, Stage, end, expect
from testing.script import TOP

try:
    import yaml
except ImportError:
    yaml = None

MANIFESTS = os.path.join(TOP, "examples", "kubernetes", "coap-proxyd.yaml")
# What the comment at their head has kubectl make beside them: a ConfigMap, its key, and the file that it holds.
MADE = "kubectl create configmap coap-ping --from-file=ping=tools/ping"
HOST = "127.0.0.1"


def documents():
    """The manifests, as Python has them."""
    if yaml is None:
        raise Skipped("there is no python3-yaml")
    with open(MANIFESTS) as file:
        return list(yaml.safe_load_all(file))


def leaves(it, place=""):
    """The values in a manifest, each with the names that lead to it."""
    if isinstance(it, (dict, list)):
        pairs = it.items() if isinstance(it, dict) else enumerate(it)
        return [leaf for key, value in pairs for leaf in leaves(value, f"{place}/{key}")]
    return [(place, it)]


def read_by_kubectl(manifest):
    """A manifest as kubectl gives it back with one field more, or with the selector that it has; none of a kind that no
    such command knows. It asks no cluster, has types of its own for these, and drops what those don't have."""
    changed = {"Deployment": ["serviceaccount", "another"], "Service": ["selector", "app=coap-proxyd"]}
    if manifest["kind"] not in changed:
        return None
    words = ["kubectl", "set", *changed[manifest["kind"]], "--local", "-f", "-", "-o", "json"]
    try:
        done = subprocess.run(words, input=json.dumps(manifest), capture_output=True, text=True, timeout=50)
    except FileNotFoundError:
        raise Skipped("there is no kubectl") from None
    expect("what kubectl says", (0, ""), (done.returncode, done.stderr), *FAULT)
    return json.loads(done.stdout)


def dropped(manifest):
    """What stands in a manifest and kubectl doesn't give back."""
    given = read_by_kubectl(manifest)
    return [leaf for leaf in leaves(manifest) if given and leaf not in leaves(given)]


def kubectl_knows_all_of_it(_):
    """Has kubectl's types have a place for each value; one in a wrong place shows that it drops what has none."""
    for it in documents():
        expect(f"what kubectl drops of {it['kind']} {it['metadata']['name']}", [], dropped(it))
    for kind, place in (("Service", "/spec/sesionAffinity"), ("Deployment", "/spec/template/spec/volume")):
        it, (*names, wrong) = of_kind(kind)[0], place.split("/")[1:]
        within = it
        for name in names:
            within = within[name]
        within[wrong] = "x"
        expect(f"what kubectl drops of a {kind} with a fault", [(place, "x")], dropped(it))


def of_kind(kind):
    """The manifests of a kind."""
    return [it for it in documents() if it["kind"] == kind]


def pods():
    """What each Deployment has run: its name, the labels of its pod, and what stands of it."""
    for it in of_kind("Deployment"):
        template = it["spec"]["template"]
        labels = template["metadata"]["labels"]
        expect("whether a Deployment selects its pod", labels, {**labels, **it["spec"]["selector"]["matchLabels"]})
        yield it["metadata"]["name"], labels, template


def port_names(pod):
    """The ports of a pod's containers by their names, each with its protocol."""
    ports = [it for container in pod["spec"]["containers"] for it in container["ports"]]
    return {it["name"]: (it["protocol"], it["containerPort"]) for it in ports}


def expect_volumes(pod, configs):
    """Has each volume that a container mounts be there, and each ConfigMap in it."""
    volumes = {it["name"]: it for it in pod["spec"]["volumes"]}
    mounted = {it["name"] for container in pod["spec"]["containers"] for it in container["volumeMounts"]}
    expect("which volumes are mounted", set(volumes), mounted)
    named = {it["configMap"]["name"] for it in volumes.values() if "configMap" in it}
    expect("which ConfigMaps are named", configs, named)


def what_they_name_is_there(_):
    """Has the Service select every pod and lead to a port of it, and all other names be those of something."""
    (service,), (config,) = of_kind("Service"), of_kind("ConfigMap")
    with open(MANIFESTS) as file:
        expect("whether a comment makes the other ConfigMap", True, MADE in file.read())
    names = [name for name, _, _ in pods()]
    expect("how many names there are", len(names), len(set(names)))
    for name, labels, pod in pods():
        selected = service["spec"]["selector"]
        expect(f"whether the Service selects {name}", labels, {**labels, **selected})
        (port,) = service["spec"]["ports"]
        expect("where the Service leads to", (port["protocol"], 5683), port_names(pod).get(port["targetPort"]))
        expect_volumes(pod, {config["metadata"]["name"], "coap-ping"})


class Pod:
    """The containers of a pod, run as it says in a namespace: with its words, and its volumes in a folder."""

    def __init__(self, stage, name, pod):
        self.stage, self.name = stage, name
        (config,) = of_kind("ConfigMap")
        with open(os.path.join(TOP, "tools", "ping")) as file:
            held = {config["metadata"]["name"]: config["data"], "coap-ping": {"ping": file.read()}}
        for volume in pod["spec"]["volumes"]:
            os.mkdir(os.path.join(stage.folder, volume["name"]))
            for key, text in held.get(volume.get("configMap", {}).get("name"), {}).items():
                with open(os.path.join(stage.folder, volume["name"], key), "w") as file:
                    file.write(text)

    def start(self, container, *more):
        """Starts a container: the program for one that has no command."""
        words = [*container.get("command", self.stage.program), *container.get("args", []), *more]
        for mount in container["volumeMounts"]:
            folder = os.path.join(self.stage.folder, mount["name"])
            words = [re.sub(f"^{mount['mountPath']}(?=/)", folder, word) for word in words]
        words = [sys.executable if word == "python3" else word for word in words]
        return self.stage.start(["ip", "netns", "exec", self.name, *words])

    def fetched(self, place):
        """The status and the body that an httpGet or an annotation gets, once it is served."""
        until = time.monotonic() + 10
        while True:
            try:
                link = made_in(self.name, socket.socket)
                link.connect((HOST, int(place["port"])))
                asked = http.client.HTTPConnection(HOST)
                asked.sock = link
                asked.request("GET", place["path"])
                answer = asked.getresponse()
                return answer.status, answer.read()
            except OSError as fault:
                if time.monotonic() > until:
                    raise Broken(f"{place}: {fault}") from fault
                time.sleep(0.05)


def lines_of(name):
    """The command that makes the namespace of a pod."""
    yield ("ip", "-n", name, "link", "set", "lo", "up")


def expect_pinged(pod, port):
    """Has an Empty message be rejected at a port of the pod."""
    client = socket_in(pod.name, HOST)
    for message_id in range(100):
        client.sendto(message(CON, EMPTY, message_id), (HOST, port))
        came = received(client, 0.1)
        if came:
            break
    expect("what is answered at the port of the Service", RST, came and read(came[0]).kind)


def expect_counts(pod, template):
    """Has the counts be served where the annotations say."""
    notes = template["metadata"]["annotations"]
    place = {"port": notes["prometheus.io/port"], "path": notes["prometheus.io/path"]}
    until = time.monotonic() + 10
    while pod.fetched(place)[0] != 200 and time.monotonic() < until:
        time.sleep(0.1)
    status, body = pod.fetched(place)
    expect("whether counts are served", (200, True), (status, b"\ncoap_proxyd_requests_total{" in body))


def containers_answer_where_they_are_asked(program):
    """Runs both containers of a pod, and asks what the Service, the probes and Prometheus ask, and the probes once more
    when the proxy ended. Counts come each second in place of each minute."""
    _, _, template = next(pods())
    with namespaces(1, lines_of) as (name,), Stage(program) as stage:
        pod, (proxy, ping) = Pod(stage, name, template), template["spec"]["containers"]
        running = pod.start(proxy, "--stats", "1")
        pod.start(ping)
        expect_pinged(pod, port_names(template)["coap"][1])
        for kind in ("readinessProbe", "livenessProbe"):
            expect(f"what the {kind} gets", 200, pod.fetched(proxy[kind]["httpGet"])[0])
        expect_counts(pod, template)
        end(running)
        for kind in ("readinessProbe", "livenessProbe"):
            expect(f"what the {kind} gets of none", 503, pod.fetched(proxy[kind]["httpGet"])[0])


CASES = (kubectl_knows_all_of_it, what_they_name_is_there)
