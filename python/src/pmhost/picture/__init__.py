"""Pictures (SVG) of what rails command, by what the host knows: order by order under `apply`, step by step under `on`, `off` and `up`."""
