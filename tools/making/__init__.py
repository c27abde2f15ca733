"""How the program is built, installed and released; none of it is installed."""
