"""What a person is told of a run: the answers on top, why a frame has its verdict, and views as values and as text."""
