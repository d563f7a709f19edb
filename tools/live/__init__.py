"""Open vSwitch, controllers of other makes and a balancer around `flowvisor serve`: what `tools/check-live` is made of."""
