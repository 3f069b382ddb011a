"""The view: a tree and its bytes on one screen.

`state` is what a screen shows, as a value; `tree`, `octets`, `readings`, `about` and `draw` make rows of cells of it, by a function that answers questions;
`desk` does what keys ask for; `terminal` alone knows curses.
"""
