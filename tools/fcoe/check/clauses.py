"""Where the standards ask what a rule asks: clauses by number, as far as they are remembered, and the word. None was looked up for this: all is from memory."""
SHALL, SHOULD, MAY = "shall", "should", "may"
# the standard, words of a rule's source, and the clause that has them; the first that fits is taken
CHAPTERS = (
    ("FC-BB-5", "", "7"),
    ("FC-FS-3", "frame delimiters", "8"),
    ("FC-FS-3", "CRC", "8"),
    ("FC-FS-3", "R_CTL", "9"),
    ("FC-FS-3", "address identifiers", "9"),
    ("FC-FS-3", "CS_CTL", "9"),
    ("FC-FS-3", "F_CTL", "9"),
    ("FC-FS-3", "SEQ_", "9"),
    ("FC-FS-3", "DF_CTL", "9"),
    ("FC-FS-3", "OX_ID", "9"),
    ("FC-FS-3", "RX_ID", "9"),
    ("FC-FS-3", "PARAMETER", "9"),
    ("FC-FS-3", "frame header", "9"),
    ("FC-LS-2", "service parameters", "6"),
    ("FC-LS-2", "receive data field size", "6"),
    ("FC-LS-2", "", "4"),
    ("FC-GS-6", "CT_IU", "4"),
    ("FC-GS-6", "", "5"),
    ("FCP-4", " IU", "9"),
    ("FCP-4", "PRLI", "6"),
    ("FCP-4", "error detection", "12"),
    ("IEEE 802.1Q", "", "9"),
    ("IEEE 802.3", "", "3"),
)
OF_CHOICE = {"vlan-request-again": MAY, "solicitation-again": MAY, "login-again": MAY, "alive-quiet": MAY, "alive-often": MAY, "scr-sent": MAY, "register-own": MAY, "vlan-request-tag": MAY, "cs-ctl": MAY}


def word_of(name: str, is_choice: bool) -> str:
    """The word of the standards: what is no `shall` is never broken."""
    return OF_CHOICE.get(name, SHOULD) if is_choice else SHALL


def clause_of(part: str) -> str:
    """A standard with the number of its clause, where that is remembered."""
    standard, _, words = part.partition(",")
    found = next((number for name, like, number in CHAPTERS if name == standard and like in words), None)
    return f"{standard}, clause {found}" if found else standard


def clauses_of(source: str) -> list[str]:
    """The clauses of a rule's source, each once."""
    return list(dict.fromkeys(clause_of(it) for it in source.split("; ")))
