"""Frames: what they are, their fields, and the captures and streams that hold them."""
