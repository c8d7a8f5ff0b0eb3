"""The gateway: carries messages between the vehicles on an MQTT broker and a desk.

`cli` reads the command line and starts the rest. `broker` connects to the broker; its thread puts
what comes into the `inbox`. `carrier` takes it from there in turns: `vehicles` says which vehicles
the desk has, `waiting` keeps their states until the desk has them, and `owed` the desk's messages
until the vehicles have them. `telemetry` sends a board what states say of a vehicle. `log` writes
what a person should know, in a bounded number of lines."""
