"""What must hold of the configurations that tools/fleet writes: every sensor is served, and the caches are used."""

import os
import selectors
import subprocess
import sys
import tempfile
import threading

from testing import libcoap
from testing.coap import ACK, CONTENT, EMPTY, GET, MAX_AGE, PROXY_URI, URI_PATH, message, read
from testing.network import FAULT, Broken, case_list, expect, expect_message, free_port, udp
from testing.statistics import await_metric

CASES, case = case_list()
SCRIPT = os.path.join(os.path.dirname(os.path.dirname(os.path.abspath(__file__))), "fleet")


class Sensors:
    """So many sensors on the loopback, each with a port of its own, which answer with their own names at once."""

    def __init__(self, host, count):
        self.selector, self.asked, self.uris = selectors.DefaultSelector(), [], {}
        for number in range(1, count + 1):
            socket = udp(host)
            socket.bind((host, 0))
            self.selector.register(socket, selectors.EVENT_READ, f"s{number}")
            self.uris[f"s{number}"] = f"coap://{host}:{socket.getsockname()[1]}/"
        self.ending = threading.Event()
        self.thread = threading.Thread(target=self.serve, daemon=True)

    def __enter__(self):
        self.thread.start()
        return self

    def __exit__(self, *_):
        self.ending.set()
        self.thread.join()
        for key in list(self.selector.get_map().values()):
            key.fileobj.close()

    def serve(self):
        while not self.ending.is_set():
            for key, _ in self.selector.select(0.05):
                data, source = key.fileobj.recvfrom(2_048)
                it = read(data)
                self.asked.append(key.data)
                options = [(MAX_AGE, b"\x78")]
                answer = message(ACK, CONTENT, it.message_id, it.token, options, key.data.encode())
                key.fileobj.sendto(answer, source)


def write_fleet(stage, uris, port, *more):
    """Has tools/fleet write the configurations, and returns their folder."""
    names = stage.file("sensors", "".join(f"{name} {uri}\n" for name, uri in uris.items()))
    folder = os.path.join(stage.folder, f"fleet-{port}")
    words = [sys.executable, SCRIPT, names, folder, "--address", stage.host, "--port", str(port), *more]
    done = subprocess.run(words, stdout=subprocess.PIPE, stderr=subprocess.PIPE, timeout=50)
    expect("the status of fleet", (0, b""), (done.returncode, done.stderr), *FAULT)
    return folder


def start_fleet(stage, folder, counts=None):
    """Starts an instance with each configuration, as the unit would, and returns the address of each by its name. If
    there is to be a file of counts, its path has {} for that name."""
    addresses = {}
    for file in sorted(it for it in os.listdir(folder) if it.startswith("coap-proxyd-")):
        name = file[len("coap-proxyd-") :]
        with open(os.path.join(folder, file)) as lines:
            place = dict(line.strip().split("=") for line in lines)
        address = (place["ADDRESS"], int(place["PORT"]))
        config = os.path.join(folder, f"{name}.toml")
        words = ["-A", address[0], "-p", str(address[1]), "--config", config, *place["OPTIONS"].split()]
        words += ["--stats", "1", "--stats-file", counts.format(name)] if counts else []
        if not stage.is_ready(stage.start([*stage.program, *words]), address):
            raise Broken(f"{name} doesn't serve {address}")
        addresses[name] = address
    return addresses


def paths_in(folder):
    """The path of each sensor, by its name."""
    with open(os.path.join(folder, "paths")) as lines:
        return dict(line.split() for line in lines)


def ask_all(stage, asked):
    """Asks for each sensor, by its name: an address is asked, with these options. Returns how many answered with it."""
    client, answered = stage.peer(), 0
    for name, (address, options) in asked.items():
        client.to = address
        request = client.request(GET, options)
        came = client.receive(f"an answer of {name}")
        if came.message.code == EMPTY:
            came = client.receive(f"a separate answer of {name}")
            client.acknowledge(came)
        expect_message(f"the answer of {name}", came, code=CONTENT, token=request.message.token)
        answered += came.message.payload == name.encode()
    return answered


def segments(path):
    """The options of a path."""
    return [(URI_PATH, part.encode()) for part in path.split("/")[1:]]


def serve(stage, asked_of):
    """Serves more sensors than there may be maps, with what `asked_of` starts. It says of each whom to ask, and
    how: in the first round each is asked once, in the second none."""
    with Sensors(stage.host, 70) as sensors:
        asked = asked_of(sensors.uris)
        expect("how many sensors answered", 70, ask_all(stage, asked))
        expect("which were asked", sorted(sensors.uris), sorted(sensors.asked))
        expect("how many sensors were answered for", 70, ask_all(stage, asked))
        expect("how often one was asked", 70, len(sensors.asked))


@case("TokenChanged", "NeverFromTheCache")
def more_sensors_than_maps_are_served(stage):
    def asked_of(uris):
        folder = write_fleet(stage, uris, 20_000)
        front = start_fleet(stage, folder)["front"]
        return {name: (front, segments(path)) for name, path in paths_in(folder).items()}

    serve(stage, asked_of)


@case("TokenChanged", "NeverFromTheCache")
def more_sensors_than_maps_are_served_without_a_front(stage):
    def asked_of(uris):
        folder = write_fleet(stage, uris, 20_000)
        os.remove(os.path.join(folder, "coap-proxyd-front"))
        addresses, paths = start_fleet(stage, folder), paths_in(folder)
        expect("at which ports they are", {20_001, 20_002}, {port for _, port in addresses.values()})
        return {name: (addresses[path.split("/")[1]], segments(path)) for name, path in paths.items()}

    serve(stage, asked_of)


@case("TokenChanged", "NeverFromTheCache")
def more_sensors_than_maps_are_served_by_their_uris(stage):
    def asked_of(uris):
        proxy = stage.proxy("-P", ",proxy.test")
        return {name: (proxy, [(PROXY_URI, uri.encode())]) for name, uri in uris.items()}

    serve(stage, asked_of)


@case("NeverFromTheCache")
def hits_are_counted_by_sensor(stage):
    with Sensors(stage.host, 2) as sensors:
        counts, folder = os.path.join(stage.folder, "{}.prom"), write_fleet(stage, sensors.uris, 20_000)
        front, paths = start_fleet(stage, folder, counts)["front"], paths_in(folder)
        for _ in range(3):
            ask_all(stage, {"s2": (front, segments(paths["s2"]))})
        numbers = await_metric(counts.format("g1"), 'coap_proxyd_map_requests_total{map="/g1/s2",outcome="hit"}', 2)
        expect("hits of another", 0, numbers['coap_proxyd_map_requests_total{map="/g1/s1",outcome="hit"}'])
        numbers = await_metric(counts.format("front"), 'coap_proxyd_requests_total{outcome="opened"}', 3)
        expect("what the front may keep", 0, numbers['coap_proxyd_limit{what="cached_bytes"}'])


def ask_beside_a_silence(stage, port, *more):
    """Has libcoap's client ask a front for a sensor that is silent, and twice once it is back. Returns what it printed.
    The sensor's instance gives it up after a second and a half, so that this needn't take longer."""
    uri = f"coap://{stage.host}:{free_port()}/"
    folder = write_fleet(stage, {"s1": uri}, port, *more)
    path = os.path.join(folder, "g1.toml")
    with open(path) as file:
        text = file.read()
    with open(path, "w") as file:
        file.write(text.replace("[limits]\n", "[limits]\nexchange_ms = 1500\n"))
    front, device = start_fleet(stage, folder)["front"], (stage.host, int(uri.rstrip("/").rpartition(":")[2]))
    with udp(stage.host) as silent:
        silent.bind(device)
        printed = [libcoap.client(stage, front, "g1/s1")]
    server = stage.start([libcoap.tool("server"), "-A", device[0], "-p", str(device[1])])
    if not stage.is_ready(server, device):
        raise Broken("libcoap's server doesn't serve the port of the sensor")
    return printed + [libcoap.client(stage, front, "g1/s1")[: len(libcoap.WELCOME)] for _ in range(2)]


@case("TokenChanged")
def a_front_keeps_no_error_of_a_sensor_that_is_back(stage):
    expect("what the client printed", [b"5.04", *[libcoap.WELCOME] * 2], ask_beside_a_silence(stage, 20_000))


@case("NeverFromTheCache")
def a_front_with_a_cache_keeps_an_error(stage):
    came = ask_beside_a_silence(stage, 20_000, "--front-cache")
    expect("what the client printed", [b"5.04"] * 3, came)


def an_address_that_reaches_all_is_named(_):
    with tempfile.TemporaryDirectory(prefix="coap-proxyd-test-") as folder:
        path = os.path.join(folder, "sensors")
        with open(path, "w") as file:
            file.write("s1 coap://192.0.2.7/\ns2 coap://[2001:db8::7]/\n")
        words = [sys.executable, SCRIPT, path, os.path.join(folder, "fleet")]
        done = subprocess.run(words, stdout=subprocess.PIPE, stderr=subprocess.PIPE, timeout=50)
        said = f"fleet: {path}:2: coap://[2001:db8::7]/ can't be reached from 0.0.0.0; with --address :: it can\n"
        expect("what is said of IPv6", (1, said.encode()), (done.returncode, done.stderr), *FAULT)
        done = subprocess.run([*words, "--address", "::"], stdout=subprocess.PIPE, stderr=subprocess.PIPE, timeout=50)
        expect("what is said of it with --address ::", (0, b""), (done.returncode, done.stderr), *FAULT)


ENDS = (an_address_that_reaches_all_is_named,)
