"""What `./check docs` compares and `./check docs --write` makes anew: drawings and the page of crates; and what it counts."""
