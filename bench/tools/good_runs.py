"""Right conversations of hosts with a fabric, drawn by lot: what a seed gives is the same on any machine.

Each has an initiator and a target, or two hosts that are both, maybe with N_Ports by NPIV; forwarders fall silent, links are cleared, hosts log out and in
again; frames are lost, late and doubled on the wire, and the capture is taken at either end of a link or between. Nobody in them breaks a rule.
"""
from dataclasses import dataclass

from good_fabric import Cable, Fabric, Ways, World
from good_hosts import Choices, VariedHost, VariedPort, drawn

from fcoe.frames.columns import Record
from fcoe.host.enode import Manner
from fcoe.host.speech import Head, Names, fabric_logout

NAMES = ("1000", "2000", "5002")  # how names begin: IEEE, IEEE extended, IEEE registered


@dataclass
class Run:
    """A capture of a host's link, with what was chosen."""

    seed: int
    tape: list[Record]
    choices: Choices
    ways: Ways
    what: list[str]


def names_of(world: World, number: int) -> Names:
    mac = bytes([0, 0x1B, 0x21, 0, number, world.random.randrange(256)])
    begin = bytes.fromhex(world.random.choice(NAMES))
    return Names(mac, begin + mac, b"\x10\x00" + mac)


def ways_of(world: World) -> Ways:
    """What the switch chooses, by lot."""
    lot = world.random
    made = Ways(vlans=lot.choice([(100,), (100,), (2,), (100, 200)]), fc_map=bytes([0x0E, 0xFC, lot.choice([0, 0, 1, 0x10])]), priority=lot.choice([0, 128, 255]))
    made.period = lot.choice([1.0, 2.0, 8.0, 8.0, 20.0])
    made.is_quiet, made.answers = world.chance(0.08), lot.choice([0.0001, 0.001, 0.02, 0.3])
    made.reuses, made.rejects = world.chance(0.3), lot.choice([0.0, 0.0, 0.2])
    made.area_notices, made.class2 = world.chance(0.2), world.chance(0.3)
    return made


class Play:
    """A run while it's made."""

    def __init__(self, seed: int) -> None:
        self.world = World(f"good {seed}")
        lot = self.world.random
        self.what: list[str] = []
        self.ways = ways_of(self.world)
        self.fabric = Fabric(self.world, self.ways)
        self.loss, self.twice = lot.choice([0.0, 0.0, 0.003, 0.02]), lot.choice([0.0, 0.0, 0.0, 0.01])
        self.seconds = lot.choice([40.0, 70.0, 130.0, 280.0])
        self.hosts = [self.host(number) for number in range(lot.choice([1, 2, 2, 2, 3]))]
        for at, it in enumerate(self.hosts):
            self.world.after(0.05 + lot.random() * 3 * at, it.start)
        for _ in range(lot.choice([0, 1, 2, 4])):
            self.world.after(lot.uniform(8, self.seconds - 5), self.event)

    def host(self, number: int) -> VariedHost:
        world, lot = self.world, self.world.random
        cable = self.fabric.plug(lot.choice([0.0, 0.3, 1.0]), self.loss, self.twice)
        choices = drawn(world, self.ways.vlans[0], self.ways.class2)
        names = names_of(world, number)
        further = tuple(b"\x21" + bytes([at]) + names.mac for at in range(lot.choice([0, 0, 1, 3])))
        role = "initiator" if number == 0 and world.chance(0.6) or choices.functions else "target"
        manner = Manner(role, further, receive=choices.receive, every=lot.choice([0.7, 2.0, 0.0]))
        made = VariedHost(world, cable, names, manner, choices)
        for _ in range(choices.acts):
            world.after(lot.uniform(3, self.seconds), lambda: self.act(made))
        return made

    def act(self, host: VariedHost) -> None:
        if host.ports:
            port = self.world.random.choice(host.ports)
            if isinstance(port, VariedPort):
                port.act()

    def event(self) -> None:
        """Something happens to a link, a login, or to the switch."""
        happens = self.world.random.choice([self.silence, self.clear_one, self.clear_all, self.link, self.leaves, self.anew, self.second_leaves])
        self.what.append(f"{happens.__name__} at {self.world.now:.1f}")
        happens()

    def silence(self) -> None:
        """The switch is silent for some periods, and knows nobody then."""
        self.fabric.is_silent = True
        self.world.after(self.world.random.choice([1.0, 4.0, 6.0]) * self.ways.period, self.returns)

    def returns(self) -> None:
        self.fabric.is_silent = False

    def clear_one(self) -> None:
        listed = [it for it in self.fabric.entries if it.cable is self.hosts[0].cable]
        self.fabric.clear(self.hosts[0].cable, listed[-1:])

    def clear_all(self) -> None:
        listed = [it for it in self.fabric.entries if it.cable is self.hosts[0].cable]
        self.fabric.clear(self.hosts[0].cable, listed, is_all=True)

    def link(self) -> None:
        """The link goes down and up."""
        host = self.hosts[0]
        host.cable.is_up = False
        host.lose_link()
        for it in [it for it in self.fabric.entries if it.cable is host.cable]:
            self.fabric.leave(it)
        self.world.after(self.world.random.uniform(0.5, 4), lambda: self.link_back(host))

    def link_back(self, host: VariedHost) -> None:
        host.cable.is_up = True
        self.begin(host)

    def begin(self, host: VariedHost) -> None:
        """Starts a host that is over, once."""
        if host.stand.phase == "silent" and host.cable.is_up:
            host.start()

    def leaves(self) -> None:
        """The host logs out, and comes again; its N_Ports log out at each other too."""
        host = self.hosts[0]
        host.stop()
        self.world.after(self.world.random.choice([0.2, 3.0]), lambda: self.begin(host))

    def anew(self) -> None:
        """A further FLOGI without a LOGO, as behind a reset of the host's port."""
        host = self.hosts[0]
        host.end_all()
        host.look()

    def second_leaves(self) -> None:
        """The last N_Port of the host logs out, and by FDISC in again."""
        host = self.hosts[0]
        if len(host.ports) > 1 and host.stand.forwarder is not None:
            port = host.ports.pop()
            port.leave()
            port.end()
            host.send(fabric_logout(host.names, host.stand.vlan, host.stand.forwarder.mac, host.next_ox_id(), port.address, port.mac, port.name))

    def run(self) -> Cable:
        self.world.run(self.seconds)
        return self.hosts[0].cable


def good_run(seed: int) -> Run:
    """The run of a seed, as a capture of its first host's link."""
    play = Play(seed)
    cable = play.run()
    tape = sorted(cable.tape, key=lambda it: it.moment)
    what = [*play.what, f"loss {play.loss:g}", f"place {cable.place:g}"]
    return Run(seed, tape, play.hosts[0].choices, play.ways, what)


class Base(Play):
    """One run with all that faults are planted into: two initiators and a target at a forwarder, link services both ways, logins that end in each way."""

    def __init__(self) -> None:  # pylint: disable=super-init-not-called
        self.world, self.what, self.loss, self.twice, self.seconds = World("base"), [], 0.0, 0.0, 420.0
        self.ways = Ways()
        self.fabric = Fabric(self.world, self.ways)
        self.hosts = [self.fixed(number, role) for number, role in enumerate(("initiator", "target", "initiator"))]
        for seconds, it in zip((6.0, 0.3, 40.0), self.hosts):
            self.world.after(seconds, it.start)
        for turn in range(7):
            for number in (0, 1):
                self.world.after(60.0 + 4 * turn + 2 * number, lambda turn=turn, number=number: self.asks(number, turn))  # type: ignore[misc]
        self.world.after(100.0, lambda: self.aborts(1))
        self.world.after(104.0, self.hosts[2].stop)
        for seconds, call in ((290.0, self.second_leaves), (300.0, self.clear_one), (320.0, self.clear_all), (340.0, self.leaves), (370.0, self.silence)):
            self.world.after(seconds, call)

    def fixed(self, number: int, role: str) -> VariedHost:
        mac = bytes([0, 0x1B, 0x21, 0, 0, 0x0A + number])
        names = Names(mac, b"\x20\x00" + mac, b"\x10\x00" + mac)
        cable = self.fabric.plug(1.0 if number else 0.0, 0.0, 0.0)
        choices = Choices(receive=2048 if number == 0 else 1024, bursts=8192, registers_more=True, crosses=True)
        manner = Manner(role, (b"\x21\x01" + mac,) if number == 0 else (), receive=choices.receive, every=2.5)
        return VariedHost(self.world, cable, names, manner, choices)

    def asks(self, number: int, turn: int) -> None:
        """A link service of one's first N_Port to the other's."""
        port, other = self.hosts[number].ports[0], self.hosts[1 - number].ports[0]
        if isinstance(port, VariedPort):
            port.asks_service(other.address, turn)

    def aborts(self, number: int) -> None:
        """An ABTS of a link service that the other has answered."""
        port, other = self.hosts[number].ports[0], self.hosts[1 - number].ports[0]
        port.send(other.address, Head(0x81, 0x00, 0x090000, self.hosts[number].last_ox_id - 1), b"")


def base_tapes() -> dict[str, list[Record]]:
    """The base as the initiator's and as the target's link has it."""
    play = Base()
    play.run()
    return {name: sorted(it.cable.tape, key=lambda one: one.moment) for name, it in zip(("initiator", "target"), play.hosts)}
