"""The numbers in the headers of packets: types, protocols, and what tells of tags and fragments."""

VLAN_TAG = 0x8100
IPV4, ARP, RARP, IPV6, LLDP = 0x0800, 0x0806, 0x8035, 0x86DD, 0x88CC
# A smaller number in the place of a type is a length, and the type may stand behind this head of SNAP.
LEAST_TYPE = 0x0600
SNAP = bytes.fromhex("aaaa03000000")
ICMP, TCP, UDP = 1, 6, 17
# Of the bytes 6 and 7 of IPv4: where a fragment's bytes begin, and whether more of them follow.
FRAGMENT_OFFSET, MORE_FRAGMENTS = 0x1FFF, 0x2000
