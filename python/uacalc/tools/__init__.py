"""The tools: `python3 -m uacalc TOOL`. Each module has `run`, with the arguments after the tool's name."""
