"""A simulator of the concurrent map's events, and a judge of records: a second implementation of
what `docs/` say, written apart from the program, from those pages and the definitions that they
cite: the event table is that of `kw_world/specs`. It shares no code with the program, so where both
print the same they have read the pages alike.

A newcomer may read it as the map in small: `words` has what stands in the shared memory, `world`
how one event after the other is made there, `calls` what a get and a scan do, `puts` what a put
does, `rebalance` how a full row is replaced, and `cells` which cells are kept. A call is a
generator that hands out one operation at a time, so its lines stand in the order in which a seat
makes its events. `history` records what happened, and `order` finds the one order of the calls.
`scripts` reads and runs scripts, `records` reads records and judges them, and `random_scripts`
makes scripts for comparisons."""
