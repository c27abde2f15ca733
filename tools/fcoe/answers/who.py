"""Who stands behind the addresses of a frame, as the run goes on."""
from ..frames.heard import Heard, colons, fcid, login_names
from ..runs.enodes import enodes_of
from ..runs.fabric import Login
from ..runs.looking import Look

SERVICES = {0xFFFFFC: "name server", 0xFFFFFD: "fabric controller", 0xFFFFFE: "fabric port"}


class Names:
    """Which port name stands behind an address and an ENode, as the run goes on."""

    def __init__(self, look: Look) -> None:
        self.entries = look.run.entries
        self.of_address: dict[int, list[Login]] = {}
        self.of_enode: dict[tuple[int, bytes], str] = {}
        for it in look.walk.fabric.logins:
            self.of_address.setdefault(it.address, []).append(it)
            self.of_enode.setdefault((it.port, it.enode), colons(it.name))
        for one in enodes_of(look.captured):  # those that got no login too
            if one.name:
                self.of_enode.setdefault((one.port.number, one.mac), colons(one.name))

    def entry_at(self, clock: int) -> int:
        """The last entry of the journal up to a moment."""
        return self.entries.until(clock) - 1

    def behind(self, address: int, entry: int) -> str:
        """Who holds an address at an entry, or held it last; the address itself where nobody did."""
        if address >= 0xFF0000:
            return SERVICES.get(address, fcid(address))
        held = [it for it in self.of_address.get(address, []) if it.granted_by <= entry]
        return colons(held[-1].name) if held else fcid(address) if address else ""

    def ends(self, port: int, heard: Heard, entry: int) -> tuple[str, str]:
        """The names of source and destination of a host's frame."""
        fc = heard.fc
        if heard.is_fcoe and fc is not None:
            return self.behind(fc.s_id, entry), self.behind(fc.d_id, entry)
        said = login_names(heard) if heard.operation == (2, 1) and heard.kind != "LOGO" else None
        if said:
            return colons(said[0]), ""
        vx = heard.descriptor(11)
        return (colons(vx.data[12:20]) if vx and len(vx.data) >= 20 else self.of_enode.get((port, heard.source), "")), ""

    def ends_of_switch(self, port: int, heard: Heard, entry: int) -> tuple[str, str]:
        """The same of a frame that the switch sent."""
        if heard.is_fcoe and heard.fc is not None:
            return self.behind(heard.fc.s_id, entry), self.behind(heard.fc.d_id, entry)
        return "switch", self.of_enode.get((port, heard.destination), "")
