"""Memory images of RT-11, for tools/sav and m11-build. No file of DEC's was available: the format is that of the RT-11 Volume and File Formats
Manual, as saves.py describes it."""
