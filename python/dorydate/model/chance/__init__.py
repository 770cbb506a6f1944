"""Random scripts and books: each event is chosen by looking at what the model has come to."""
