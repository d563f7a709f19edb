"""What `flowvisor-tool watch` follows and shows."""
