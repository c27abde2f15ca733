"""Zonings of switches: read as they print them, written as they take them, and who reaches whom by them."""
