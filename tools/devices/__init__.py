"""Peers of the proxy that fail, and what becomes of the others: the modules of tools/try-devices."""
