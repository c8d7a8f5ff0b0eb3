"""The board: a program beside the desk. One thread asks the desk in turn and follows what it
answers; a page shows it, `board.db` keeps it, and commands go from the page to the desk.

`cli` reads the command line and starts all. `poller` asks, `same_desk` tells whether it is still
the same desk, and `fleet` and `stock` take the answers; `progress` and `waits` say of orders how
far they are and who is in their way, `live_jobs` finds out the jobs. `page_state` is what the page
asks for, `record` what is kept, and `command_log` the commands in it. `server` listens, `request`
reads what is asked, and `pages` answers it, by `guard` and `commands`.

A command: `page/commands.js` gets the list at `/commands`, and posts to `/look` and then to `/do`.
`command_values` reads what it posts, by the fields of `command_kinds`. A look is made by `previews`
or `order_previews` from a `scene`, the layout and what is shown. To do it, `command_log` records
it, `command_calls` asks the desk, and `desk_faults` says why the desk has refused it or not
answered. `page/alarms.js` posts to `/take`, `page/events.js` asks for `/record`.

`events` and `causes` say what
happened and by whom, in the words of `messages`; `words_socket` hears what gateways tell of
vehicles, which `vehicle_words` reads and `words_keeper` keeps. `private_sockets` makes the sockets
that only the board's group may use. `alarms` finds what needs a person, and `entries` searches the
record."""
