"""The command m11-build: old sources, objects and libraries to a tape, a SAV image or a run."""
