"""Scenes that a host is tried in: what is set up, how the wire is bent, and what the host should do by when."""
