"""What people touch of ksv and no proof covers: the prompt, the hints, and what both know of a description's text."""
