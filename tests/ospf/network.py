"""The networks that `capture` runs, and the daemons, the sniffers and the files for them.

Routers are network namespaces that pairs of virtual Ethernet interfaces join. A sniffer in each
namespace hands over every OSPF packet. The newest instance of each Router-LSA goes into the run,
in the order in which the routers were first heard.
"""
import os
import pathlib
import socket
import struct
import subprocess
import sys
import time

RUN = pathlib.Path("/run/ospf")

# Two routers, the cost of each to the other, and the subnet between them.
LINK = {
    "square": [
        ("1", "2", 10, 10, "10.1.0.0"),
        ("2", "3", 20, 300, "10.1.0.4"),
        ("3", "4", 65535, 7, "10.1.0.8"),
        ("4", "1", 1, 1000, "10.1.0.12"),
        ("1", "3", 55, 54, "10.1.0.16"),
    ],
}
LINK["stopped"] = LINK["square"] + [("4", "5", 9, 8, "10.1.0.20")]
LINK["twins"] = LINK["square"] + [("1", "2", 30, 40, "10.1.0.24")]
LINK["broadcast"] = LINK["square"]

# The subnets that are not point-to-point.
BROADCAST = {"broadcast": ["10.1.0.4"]}

# A router, one of its networks, and the cost.
STUB = {
    "square": [
        ("1", "192.168.1.0/24", 5),
        ("3", "192.168.1.0/24", 6),
        ("2", "172.16.0.0/12", 1),
        ("4", "172.16.0.0/16", 65535),
        ("4", "10.9.9.9/32", 3),
    ],
}
STUB["stopped"] = STUB["square"] + [("5", "192.168.5.0/24", 4)]
STUB["twins"] = STUB["broadcast"] = STUB["square"]

# Router IDs whose order is not that of the routers' names, one of them above 127.255.255.255.
IDS = {"1": "10.0.0.4", "2": "192.0.2.1", "3": "10.0.0.3", "4": "9.255.0.1", "5": "10.0.1.0"}


def tell(*words):
    return subprocess.run(words, check=True, capture_output=True, text=True).stdout


def address(subnet, host):
    number = struct.unpack("!I", socket.inet_aton(subnet))[0] + host
    return socket.inet_ntoa(struct.pack("!I", number))


class Network:
    def __init__(self, kind, name):
        self.kind, self.name = kind, name
        self.routers = sorted({r for link in LINK[name] for r in link[:2]})
        self.interfaces = {router: [] for router in self.routers}
        self.stubs = {router: [] for router in self.routers}
        self.daemons = {router: [] for router in self.routers}
        self.room = RUN / name
        self.room.mkdir(parents=True)

    def space(self, router):
        return f"{self.name}-{router}"

    def within(self, router, *words):
        return tell("ip", "netns", "exec", self.space(router), *words)

    def lay_out(self):
        for router in self.routers:
            tell("ip", "netns", "add", self.space(router))
            self.within(router, "ip", "link", "set", "lo", "up")
        for number, (a, b, forth, back, subnet) in enumerate(LINK[self.name]):
            # The name of an interface tells its type to OSPF.
            shared = subnet in BROADCAST.get(self.name, [])
            name = f"lan{number}" if shared else f"link{number}"
            tell("ip", "link", "add", "name", name, "netns", self.space(a), "type", "veth",
                 "peer", "name", name, "netns", self.space(b))
            for (router, cost, host) in ((a, forth, 1), (b, back, 2)):
                self.join(router, name, f"{address(subnet, host)}/30", cost)
        for number, (router, network, cost) in enumerate(STUB[self.name]):
            base, length = network.split("/")
            host = base if length == "32" else address(base, 1)
            self.stub(router, f"stub{number}", f"{host}/{length}", cost)

    def join(self, router, interface, own, cost):
        self.within(router, "ip", "address", "add", own, "dev", interface)
        self.within(router, "ip", "link", "set", interface, "up")
        self.interfaces[router].append((interface, cost))

    def stub(self, router, interface, own, cost):
        self.within(router, "ip", "link", "add", "name", interface, "type", "veth",
                    "peer", "name", f"{interface}x")
        self.within(router, "ip", "link", "set", f"{interface}x", "up")
        self.within(router, "ip", "address", "add", own, "dev", interface)
        self.within(router, "ip", "link", "set", interface, "up")
        self.stubs[router].append((interface, cost))

    def start(self, router, *words):
        log = open(self.room / f"{router}.log", "ab")
        words = ("ip", "netns", "exec", self.space(router), *map(str, words))
        daemon = subprocess.Popen(words, stdin=subprocess.DEVNULL, stdout=log, stderr=log)
        self.daemons[router].append(daemon)
        return daemon

    def listen(self):
        self.sniffers = []
        for router in self.routers:
            heard = self.room / f"{router}.heard"
            self.sniffers.append(heard)
            self.start(router, sys.executable, __file__, "sniff", heard)

    def run(self):
        {"bird": start_bird, "frr": start_frr}[self.kind](self)

    def stop(self, router):
        """Ends the daemons of a router, not its sniffer, without a word to its neighbours."""
        for daemon in self.daemons[router][1:]:
            daemon.kill()
            daemon.wait()

    def heard(self):
        """The newest instance of each Router-LSA that went over a wire."""
        newest = {}
        for heard in self.sniffers:
            data = heard.read_bytes()
            while data:
                length = struct.unpack("!H", data[:2])[0]
                packet, data = data[2:2 + length], data[2 + length:]
                for lsa in updates(packet):
                    key = (lsa[4:8], lsa[8:12])
                    sequence = struct.unpack("!i", lsa[12:16])[0]
                    if key not in newest or newest[key][0] < sequence:
                        newest[key] = (sequence, lsa)
        return [lsa for _, lsa in newest.values()]


def updates(packet):
    """The Router-LSAs of an IP packet, if it is a Link State Update."""
    ospf = packet[4 * (packet[0] & 15):]
    if packet[9] != 89 or len(ospf) < 28 or ospf[:2] != b"\x02\x04":
        return []
    length, count = struct.unpack("!H", ospf[2:4])[0], struct.unpack("!I", ospf[24:28])[0]
    rest, found = ospf[28:length], []
    for _ in range(count):
        end = struct.unpack("!H", rest[18:20])[0]
        if rest[3] == 1:
            found.append(rest[:end])
        rest = rest[end:]
    return found


def sniff(path):
    """Writes every OSPF packet of a namespace, each after its length."""
    wire = socket.socket(socket.AF_PACKET, socket.SOCK_DGRAM, socket.htons(0x0800))
    with open(path, "wb", buffering=0) as out:
        while True:
            packet = wire.recv(65535)
            if len(packet) >= 20 and packet[9] == 89:
                out.write(struct.pack("!H", len(packet)) + packet)


def start_bird(network):
    for router in network.routers:
        lines = [f"router id {IDS[router]};", "protocol device { scan time 1; }",
                 "protocol ospf v2 o {", "  area 0 {"]
        for interface, cost in network.interfaces[router]:
            kind = "ptp" if interface.startswith("link") else "broadcast"
            lines.append(f'    interface "{interface}" {{ type {kind}; cost {cost}; '
                         "hello 1; dead 4; };")
        for interface, cost in network.stubs[router]:
            lines.append(f'    interface "{interface}" {{ stub; cost {cost}; }};')
        config = network.room / f"{router}.conf"
        config.write_text("\n".join(lines + ["  };", "}"]) + "\n")
        network.start(router, "bird", "-f", "-c", config, "-s", control(network, router))


def control(network, router):
    return network.room / f"{router}.ctl"


def bird_says(network, router, *words):
    return tell("birdc", "-r", "-s", str(control(network, router)), *words)


def start_frr(network):
    tell("chown", "-R", "frr:frr", str(RUN))
    for router in network.routers:
        place = network.room / f"frr{router}"
        place.mkdir()
        config = place / "ospfd.conf"
        lines = [f"hostname r{router}"]
        both = network.interfaces[router] + network.stubs[router]
        for interface, cost in both:
            lines += [f"interface {interface}", f" ip ospf cost {cost}", " ip ospf area 0"]
            if interface.startswith("stub"):
                lines.append(" ip ospf passive")
                continue
            kind = "point-to-point" if interface.startswith("link") else "broadcast"
            lines += [f" ip ospf network {kind}", " ip ospf hello-interval 1",
                      " ip ospf dead-interval 4"]
        lines += ["router ospf", f" ospf router-id {IDS[router]}"]
        config.write_text("\n".join(lines) + "\n")
        (place / "zebra.conf").write_text(f"hostname r{router}\n")
        tell("chown", "-R", "frr:frr", str(place))
        for daemon in ("zebra", "ospfd"):
            network.start(router, f"/usr/lib/frr/{daemon}", "-f", place / f"{daemon}.conf",
                          "-i", place / f"{daemon}.pid", "-z", place / "zserv.api",
                          "--vty_socket", place, "-P", "0", "--log", "stdout")
            time.sleep(1)


def frr_says(network, router, command):
    place = network.room / f"frr{router}"
    return tell("vtysh", "--vty_socket", str(place), "-d", "ospfd", "-c", command)


def full(network, router):
    """How many neighbours a router is fully adjacent to."""
    try:
        if network.kind == "bird":
            return bird_says(network, router, "show ospf neighbors").count("Full/")
        return frr_says(network, router, "show ip ospf neighbor").count("Full/")
    except subprocess.CalledProcessError:
        return 0


def wait_until_full(network):
    for _ in range(60):
        wanted = {router: len(network.interfaces[router]) for router in network.routers}
        if all(full(network, router) == count for router, count in wanted.items()):
            return
        time.sleep(1)
    sys.exit("the routers do not become adjacent")


def view(network, router):
    """The database as the daemon of one router shows it."""
    if network.kind == "bird":
        commands = ("show ospf lsadb type 1", "show ospf state all")
        return "".join(bird_says(network, router, command) for command in commands)
    return frr_says(network, router, "show ip ospf database router")


def wait_until_quiet():
    """New instances of an LSA are at least five seconds apart: then none is on its way."""
    time.sleep(14)


def store(network, folder):
    name = f"{network.kind}-{network.name}"
    (folder / f"{name}.txt").write_text(view(network, "1"))
    (folder / f"{name}.run").write_bytes(b"".join(network.heard()))


def main(kind, folder):
    folder = pathlib.Path(folder).absolute()
    tell("mount", "-t", "tmpfs", "tmpfs", "/run")
    RUN.mkdir()
    for name in LINK:
        network = Network(kind, name)
        network.lay_out()
        network.listen()
        network.run()
        wait_until_full(network)
        wait_until_quiet()
        if name == "stopped":
            # Its LSA stays in the database; its neighbour no longer describes the link.
            network.stop("5")
            wait_until_quiet()
        store(network, folder)


if __name__ == "__main__":
    if sys.argv[1] == "sniff":
        sniff(sys.argv[2])
    main(*sys.argv[1:])
