"""The names of a header's fields, and their order, as ovs-ofctl writes them."""
from .ethernet import ARP, ICMP, IPV4, IPV6, RARP, TCP, UDP
from .protocol import UNTAGGED
from .text import ipv4_of, mac_of, port_of

# What a keyword says; of several that fit the last one is written.
KEYWORDS = {
    "ip": {"dl_type": IPV4},
    "ipv6": {"dl_type": IPV6},
    "arp": {"dl_type": ARP},
    "rarp": {"dl_type": RARP},
    "icmp": {"dl_type": IPV4, "nw_proto": ICMP},
    "tcp": {"dl_type": IPV4, "nw_proto": TCP},
    "udp": {"dl_type": IPV4, "nw_proto": UDP},
}
# The names that fields have behind a keyword.
NAMES_BEHIND = {
    "arp": {"nw_proto": "arp_op", "nw_src": "arp_spa", "nw_dst": "arp_tpa"},
    "icmp": {"tp_src": "icmp_type", "tp_dst": "icmp_code"},
}
# The order in which fields are written behind the keyword.
WRITTEN = (
    *("in_port", "dl_vlan", "dl_vlan_pcp", "dl_src", "dl_dst", "dl_type"),
    *("nw_src", "nw_dst", "nw_proto", "nw_tos", "tp_src", "tp_dst"),
)
WITHOUT_TAG = "vlan_tci=0x0000"


def keyword_of(fields):
    """The keyword that says most of some fields, given by name with their numbers; or None."""
    fitting = [keyword for keyword, said in KEYWORDS.items() if said.items() <= fields.items()]
    return fitting[-1] if fitting else None


def value_text(name, value):
    """The value of a field. Addresses are numbers."""
    match name:
        case "in_port":
            return port_of(value)
        case "dl_src" | "dl_dst":
            return mac_of(value.to_bytes(6, "big"))
        case "dl_type":
            return f"0x{value:04x}"
        case "nw_src" | "nw_dst":
            return ipv4_of(value)
    return str(value)


def fields_text(fields, text_of=value_text):
    """Fields, given by name with their numbers, as ovs-ofctl writes them."""
    keyword = keyword_of(fields)
    said, names = KEYWORDS.get(keyword, {}), NAMES_BEHIND.get(keyword, {})
    words = [keyword] if keyword else []
    for name in WRITTEN:
        if name == "dl_vlan" and fields.get(name) == UNTAGGED:
            words.append(WITHOUT_TAG)
        elif name in fields and name not in said:
            words.append(f"{names.get(name, name)}={text_of(name, fields[name])}")
    return ",".join(words)
