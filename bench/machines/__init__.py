"""Three machines in namespaces of Linux, with a volume of GlusterFS, and what is done to them by
`bench/standby`.

`namespaces` makes the machines, cuts, freezes and kills them. `volume` makes the volume and mounts
it. `traffic` is what asks the desks, in each machine and beside them, and writes down what was
answered. `judge` reads that and says what was lost, who wrote beside whom, and which answers were
stale. `faults` has the kinds of faults, `rounds` runs them."""
