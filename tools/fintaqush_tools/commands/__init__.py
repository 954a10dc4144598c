"""The subcommands of `fintaqush`: each module has `add_options`, and `main`, which takes a call's arguments and returns the exit
status."""
