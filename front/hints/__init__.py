"""What a terminal says of a refused description: the line that is meant, and how to go on."""
