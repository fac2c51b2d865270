"""The one way from the tools to the proved engine: the shared library where it is there, else the program."""
