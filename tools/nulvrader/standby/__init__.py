"""A desk whose file is on a volume that several machines share: one of them serves it, and another
goes on where that one dies.

`lock` has the lock that chooses the machine, and proves that it is still held. `relay` passes
requests on to the desk, and passes an answer back only after a proof that is younger than it.
`process` runs the desk, and `holder` runs all of these in their order. `gluster` and `cluster` read
what the volume and the cluster say, `checks` says what of it is wrong, and `status` how `run` is.
`run` reads the command line."""
