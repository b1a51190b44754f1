"""The additions of tools/lines to messages, besides their file and line."""
