"""A plain slow model of both ends, and of the texts of `pmb`.

It was written from the tables of PMBus 1.3 Part II and of this project's profile, and shares nothing
with the crates: the PEC is one long division, codes stand in a dictionary, a word for a value is sought
among all 65,536, the converter's status and the host's knowledge are found by looking back over all that
happened. `python3 -m plain replay|hear|decode|number ..` (in python/tests/) does what `pmb` does (`commandline`).

`numbers`, `packets`, `converter`, `host` and `world` are the model; `lines`, `scenario`, `report`,
`trace` and `commands` are the texts; `draw_lines`, `draw_scenarios`, `draw_scenario_faults` and `draw_traces` draw random ones.
"""
