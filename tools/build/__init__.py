"""How the program is proved and built: the crates and what they use, who is proved next, the prover's processes, and how far it is."""
