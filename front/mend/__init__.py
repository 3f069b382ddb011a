"""Changes of a refused description that can be made without a person, each said with what is lost by it."""
