"""Libraries of RT-11, for tools/unmac and tools/unlib. Neither a manual of DEC's on their format nor a library of DEC's was available: the two
files beside this one describe the format that is read."""
