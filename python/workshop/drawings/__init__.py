"""The drawings of docs/pictures: made by `./check docs --write` from one style, with the numbers of facts.py."""
