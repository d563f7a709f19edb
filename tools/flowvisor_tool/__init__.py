"""The companion of flowvisor for those who operate it: `flowvisor-tool`."""

VERSION = "0.1.0"  # that of the program
